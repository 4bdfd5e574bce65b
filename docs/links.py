#!/usr/bin/env python3
"""Checks that each file that a document names is there: the targets of its links, and each path in `code` that begins with
a folder of the repository, but for those with a word in capitals for a name and those that a build makes. Fewer names in
all than `LEAST` don't pass.

usage: docs/links.py    ends with status 1, and reports what isn't there, if anything isn't
"""
import pathlib
import re
import sys

ROOT = pathlib.Path(__file__).resolve().parent.parent
PAGES = ["*.md", "docs/*.md", "bench/*.md", "checks/*.md", "crates/*/README.md", "crates/worked_examples/data/*.md"]
LEAST = 400
LINK = re.compile(r"\]\(([^)#\s]+)(?:#[^)\s]*)?\)")
CODE = re.compile(r"`(?:\./)?((?:bench|checks|crates|docs|examples|packaging|page)/[\w./*{}<>+-]*\w)[^`]*`")


OPEN = re.compile(r"/out/|/[A-Z]+(/|$)")


def named(page):
    """Each path that a page names, as it is written there, and the folder that it is meant from."""
    text = page.read_text()
    yield from ((target, page.parent) for target in LINK.findall(text) if "://" not in target)
    yield from ((path, ROOT) for path in CODE.findall(text) if not OPEN.search(path))


def is_there(path, folder):
    return any(folder.glob(path)) if "*" in path else (folder / path).exists()


def main():
    if sys.argv[1:]:
        print(__doc__, file=sys.stderr)
        return 2
    names = [(page, path, folder) for pattern in PAGES for page in sorted(ROOT.glob(pattern)) for path, folder in named(page)]
    faults = [f"{page.relative_to(ROOT)}: {path} isn't there" for page, path, folder in names if not is_there(path, folder)]
    faults += [f"the documents name {len(names)} files, and {LEAST} are the least"] * (len(names) < LEAST)
    for fault in faults:
        print(fault, file=sys.stderr)
    return 1 if faults else 0


if __name__ == "__main__":
    sys.exit(main())
