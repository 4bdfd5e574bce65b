#!/usr/bin/env python3
"""Checks docs/THEOREM.md against the sources: each formula is word for word in the file that is named above it and leaves out
no case of its definition, the table has each clause of the functions that it is about once and no others, and each file
that is named exists. A page with fewer formulas than `LEAST` doesn't pass.

usage: docs/theorem.py    ends with status 1, and reports what is stale, if anything is
"""
import pathlib
import re
import sys

ROOT = pathlib.Path(__file__).resolve().parent.parent
PAGE = ROOT / "docs" / "THEOREM.md"
NAMED = re.compile(r"^-- (crates/\S+)$")
ROW = re.compile(r"^\| ((?:requires )?(?:`\w+`|—)) \| (`\w+`(?:, `\w+`)*) \| (.*) \|$")
LEAST = 10
# The functions that the table is about, each with its file.
FUNCTIONS = {
    "open": "crates/lei_office/src/office.rt",
    "answer": "crates/lei_office/src/office.rt",
    "run": "crates/leireg_run/src/program.rt",
    "serve": "crates/leireg_serve/src/serving.rt",
    "serve_connection": "crates/issuer_http/src/connection.rt",
}
CLAUSE = re.compile(r"^\s*(ensures|requires) (?:(\w+) )?\{")
# The first line of a case of a definition: its name, its patterns, and what it is.
CASE = re.compile(r"^(\S+) (?!:)[^:]*? =(?: |$)")


def formulas(lines):
    """The indented blocks of the page, without their indentation."""
    block = []
    for line in [*lines, ""]:
        if line.startswith("    "):
            block.append(line[4:])
        elif block:
            yield block
            block = []


def stale_formula(block):
    named = NAMED.match(block[0])
    if not named:
        return f"a formula names no file: {block[0]}"
    file = ROOT / named[1]
    if not file.is_file():
        return f"{named[1]} isn't there"
    text = file.read_text()
    if not block[1:] or "\n" + "\n".join(block[1:]) + "\n" not in text:
        return f"{named[1]} doesn't have this: {' '.join(block[1:2])}"
    if case := CASE.match(block[1]):
        for line in text.splitlines():
            if line not in block and (other := CASE.match(line)) and other[1] == case[1]:
                return f"{named[1]} has a case that the formula leaves out: {line}"
    return None


def clauses(file, function):
    """A function's clauses as the table names them, in order: those before the line that opens its body."""
    lines = file.read_text().splitlines()
    start = next((at for at, line in enumerate(lines) if re.match(rf"\s*pub fn {function}\b", line)), None)
    if start is None:
        return None
    indent = re.match(r"\s*", lines[start])[0]
    end = next(at for at in range(start, len(lines)) if lines[at] in (f"{indent}{{", f"{indent}{{}}"))
    return ["requires " * (found[1] == "requires") + (f"`{found[2]}`" if found[2] else "—")
            for line in lines[start:end] if (found := CLAUSE.match(line))]


def stale_rows(lines):
    rows = {function: [] for function in FUNCTIONS}
    for row in filter(None, map(ROW.match, lines)):
        if not row[3].strip():
            yield f"the row of {row[1]} says nothing"
        for function in re.findall(r"\w+", row[2]):
            if function not in rows:
                yield f"the row of {row[1]} is of {function}, which the table isn't about"
            else:
                rows[function].append(row[1])
    for function, file in FUNCTIONS.items():
        there = clauses(ROOT / file, function) if (ROOT / file).is_file() else None
        if there is None or sorted(there) != sorted(rows[function]):
            yield f"{function} in {file} has the clauses {there}, and the page has {rows[function]}"


def main():
    if sys.argv[1:]:
        print(__doc__, file=sys.stderr)
        return 2
    text = PAGE.read_text()
    lines = text.splitlines()
    blocks = list(formulas(lines))
    stale = [fault for block in blocks if (fault := stale_formula(block))]
    stale += [f"it has {len(blocks)} formulas, and {LEAST} are the least"] * (len(blocks) < LEAST)
    stale += stale_rows(lines)
    stale += [f"{name} isn't there" for name in re.findall(r"`(crates/[\w./]+)`", text) if not (ROOT / name).exists()]
    for fault in stale:
        print(f"docs/THEOREM.md: {fault}", file=sys.stderr)
    return 1 if stale else 0


if __name__ == "__main__":
    sys.exit(main())
