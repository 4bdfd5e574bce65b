"""All works, by the modules that add them."""
import importlib

MODULES = ("lines", "uploads", "copies", "store", "http", "growth", "long")


def load():
    """Adds the works of all modules, in their order."""
    for module in MODULES:
        importlib.import_module(f"bench.works.{module}")
