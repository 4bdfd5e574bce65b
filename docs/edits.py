#!/usr/bin/env python3
"""Checks the must-fail edits without a proof: each can be applied to the sources, and docs/PROVING.md has a row for
each that says what tries it. The gate tries crates/NAME/must-fail/EDIT.edit, and checks/edits tries EDIT.md.

usage: docs/edits.py    ends with status 1, and reports what is stale, if anything is
"""
import pathlib
import re
import sys

ROOT = pathlib.Path(__file__).resolve().parent.parent
PAGE = ROOT / "docs" / "PROVING.md"
ROW = re.compile(r"^\| [^|]+ \| `(\w+/[\w-]+)` \| ([^|]+) \| [^|]+ \|$", re.M)
TRIED_BY = {".edit": "the gate", ".md": "`checks/edits`"}
# A page or a repository with fewer edits than this was read wrongly.
LEAST = 90


def fault_of(edit):
    """Why an edit can't be applied, or None. An old text stands once in what the pairs before it left."""
    path, old, pairs, texts = None, None, 0, {}
    for line in edit.read_text().splitlines():
        word, _, text = line.partition(": ")
        if word == "file":
            path = edit.parent.parent / text
            if not path.is_file():
                return f"there is no file {text}"
            texts.setdefault(path, path.read_text())
        elif word == "old":
            old = text
        elif word == "new" and path and old:
            if texts[path].count(old) != 1:
                return f"{old.strip()!r} stands {texts[path].count(old)} times in {path.name}, and not once"
            texts[path], old, pairs = texts[path].replace(old, text), None, pairs + 1
        elif line.strip():
            return f"{line!r} is no line of an edit"
    if not pairs or old:
        return "it has no pair of an old and a new text"
    return None if any(path.read_text() != text for path, text in texts.items()) else "it changes nothing"


def faults(edits, rows):
    """What is wrong with the edits, and with the rows of the page."""
    for name, edit in edits.items():
        fault = fault_of(edit)
        if fault:
            yield f"{edit.relative_to(ROOT)}: {fault}"
        if name not in rows:
            yield f"docs/PROVING.md has no row for {name}"
        elif rows[name] != TRIED_BY[edit.suffix]:
            yield f"docs/PROVING.md says that {name} is tried by {rows[name]}, not {TRIED_BY[edit.suffix]}"
    for name in rows.keys() - edits.keys():
        yield f"docs/PROVING.md has a row for {name}, and there is no such edit"


def main():
    files = sorted(it for it in ROOT.glob("crates/*/must-fail/*") if it.suffix in TRIED_BY)
    edits = {f"{it.parent.parent.name}/{it.stem}": it for it in files}
    found = ROW.findall(PAGE.read_text())
    stale = sorted(faults(edits, dict(found)))
    for name, count in ((name, [row for row, _ in found].count(name)) for name in edits):
        if count > 1:
            stale.append(f"docs/PROVING.md has {count} rows for {name}")
    if len(files) != len(edits):
        stale.append("two edits of a crate have the same name")
    if min(len(edits), len(found)) < LEAST:
        stale.append(f"there are only {len(edits)} edits, and {len(found)} rows")
    for fault in stale:
        print(fault, file=sys.stderr)
    return int(bool(stale))


if __name__ == "__main__":
    sys.exit(main())
