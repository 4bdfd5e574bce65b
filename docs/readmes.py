#!/usr/bin/env python3
"""Checks the README of each crate against its sources: it has a row for each clause of each call that the crate exports, in
order, with a sentence, and no others. Fewer rows in all than `LEAST` don't pass.

A call is an exported function, a method of an exported type, or one that an exported trait asks for.

usage: docs/readmes.py             ends with status 1, and reports what is stale, if anything is
       docs/readmes.py --rows CRATE    prints the rows that the README of a crate is to have, with empty sentences
"""
import pathlib
import re
import sys

ROOT = pathlib.Path(__file__).resolve().parent.parent
EXPORT = re.compile(r"pub use (\w+)::(?:\{([^}]*)\}|(\w+(?: as \w+)?));")
BLOCK = re.compile(r"^(?:pub )?(impl|trait)\b(?:<.*?>(?= ))? ?(?:(?:unsafe )?(\w+)\S*) ?(.*)$")
CALL = re.compile(r"^(    )?(pub )?(?:const )?fn (\w+)")
CLAUSE = re.compile(r"^\s*(ensures|requires) (?:(\w+) )?\{")
LEAST = 1000
ROW = re.compile(r"^\| `([\w:]+)` \| ((?:requires )?(?:`\w+`|—)) \| (.*) \|$")


def crates():
    """The crates in the order of crates.txt, which is from the lowest up."""
    for line in (ROOT / "crates.txt").read_text().splitlines():
        if line and not line.startswith("#"):
            yield line.split(":")[0].split()[0]


def exports(source):
    """The exported names of each module, by `pub use`, and the modules that are exported whole."""
    named = {}
    for module, several, one in EXPORT.findall(source):
        for name in (several or one).split(","):
            if name.strip():
                named.setdefault(module, set()).add(name.split(" as ")[0].strip())
    return named, set(re.findall(r"^pub mod (\w+);", source, re.M))


def block_name(line):
    """The type of an inherent block of methods, or the name of a trait. None for the calls of a trait that a type has."""
    if re.match(r"pub trait ", line):
        return re.match(r"pub trait (\w+)", line)[1]
    rest, depth = line[len("impl"):], 0
    if rest.startswith("<"):
        for at, letter in enumerate(rest):
            depth += (letter == "<") - (letter == ">" and rest[at - 1] != "-")
            if not depth:
                rest = rest[at + 1:]
                break
    return None if re.search(r"\bfor\b", rest) else re.match(r"\s*(\w+)", rest)[1]


def lines_of(folder, module):
    """The lines of a module, and of the modules in it."""
    source = (folder / f"{module}.rt").read_text()
    yield from source.splitlines()
    for inner in re.findall(r"^(?:pub )?mod (\w+);", source, re.M) if module != "lib" else []:
        yield from lines_of(folder / module, inner)


def rows_of(crate):
    """The call and the clause of each row."""
    folder = ROOT / "crates" / crate / "src"
    if not (folder / "lib.rt").is_file():
        return
    named, whole = exports((folder / "lib.rt").read_text())
    types = set().union(*named.values()) if named else set()
    modules = re.findall(r"^(?:pub )?mod (\w+);", (folder / "lib.rt").read_text(), re.M)
    for module in ["lib", *modules]:
        block, is_trait, call = None, False, None
        for line in lines_of(folder, module):
            if re.match(r"impl\b|pub trait\b", line):
                block, is_trait, call = block_name(line), line.startswith("pub trait"), None
            elif line == "}":
                block, call = None, None
            elif found := CALL.match(line):
                inside, public, name = found.groups()
                owner = block if inside else name
                exported = types if inside else named.get(module, ())
                shown = owner and (module in whole or module == "lib" or owner in exported) and (public or (inside and is_trait))
                prefix = f"{module}::" if module in whole and owner not in exported else ""
                call = (f"{prefix}{block}::{name}" if inside else f"{prefix}{name}") if shown else None
            elif line.strip() in ("{", "{}") or line.endswith(";"):
                call = call if CLAUSE.match(line) else None
            if call and (found := CLAUSE.match(line)):
                kind, clause = found.groups()
                yield call, ("requires " if kind == "requires" else "") + (f"`{clause}`" if clause else "—")


def stale(crate):
    page = ROOT / "crates" / crate / "README.md"
    if not page.is_file():
        yield "there is none"
        return
    found = [ROW.match(line) for line in page.read_text().splitlines()]
    there = [(row[1], row[2]) for row in found if row]
    yield from (f"the row for {row[1]}, {row[2]} says nothing" for row in found if row and not row[3].strip())
    wanted = list(rows_of(crate))
    yield from (f"no row for {call}, {clause}" for call, clause in wanted if (call, clause) not in there)
    yield from (f"a row too many: {call}, {clause}" for call, clause in there if (call, clause) not in wanted)
    if sorted(there) == sorted(wanted) and there != wanted:
        yield "the rows aren't in the order of the sources"


def main():
    if len(sys.argv) == 3 and sys.argv[1] == "--rows":
        for call, clause in rows_of(sys.argv[2]):
            print(f"| `{call}` | {clause} |  |")
        return 0
    if sys.argv[1:]:
        print(__doc__, file=sys.stderr)
        return 2
    faults = [f"crates/{crate}/README.md: {fault}" for crate in crates() for fault in stale(crate)]
    rows = sum(1 for crate in crates() for _ in rows_of(crate))
    faults += [f"crates/*/README.md: {rows} rows are asked for in all, and {LEAST} are the least"] * (rows < LEAST)
    for fault in faults:
        print(fault, file=sys.stderr)
    return 1 if faults else 0


if __name__ == "__main__":
    sys.exit(main())
