"""Stores that works open: how one is made by the program that is measured, and opened."""
from __future__ import annotations

import itertools
import subprocess

from bench.trials import Wrong, by_command, is_file
from checks.common.stores import copy

numbers = itertools.count(1)


def make(bench, program, lines, wanted):
    """A store that a program fills with the lines of a file. Its replies have to be those of the other file."""
    store, out = bench.folder / f"store-{next(numbers)}.db", bench.folder / "made"
    with open(lines, "rb") as source, open(out, "wb") as written:
        done = subprocess.run([program, "lines", "--store", store], stdin=source, stdout=written)
    if done.returncode:
        raise Wrong(f"the store isn't made: status {done.returncode}")
    is_file(wanted)(out)
    out.unlink()
    return store


def opening(bench, program, store, status, original=None):
    """A side that opens a store and asks for the status, whose reply is given. If there is an original, the store is a copy
    of it, anew for each run."""
    asked, wanted = bench.keep(f"{store.name}-asked", [b"STATUS\n"]), bench.keep(f"{store.name}-status", [status])
    return by_command([program, "lines", "--store", store], is_file(wanted), asked,
                      before=original and (lambda: copy(original, store)))
