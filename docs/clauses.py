#!/usr/bin/env python3
"""Checks that each public function has a clause about its result, or is explained here. The public functions are those that
a crate exports, and the methods of the types that it exports.

usage: docs/clauses.py    ends with status 1 if a function has neither, or is explained although it has a clause or isn't there
"""
import re
import sys

from definitions import OPENS, ROOT, crates, exported

# Why a function has no clause about its result, by its crate. A crate alone stands for all its functions.
EXPLAINED = {
    "example_sessions": "it reads worked examples for the tests; what would let a report pass wrongly has its clauses",
    "leireg_devices SystemClock::new": "no clause says what a machine's clock gives",
    "leireg_devices Deadlines::standard": "the numbers of seconds; tests of sockets use shorter ones",
    "leireg_devices Deadlines::apply": "it sets what the system keeps of a socket; tests show what comes of it",
    "leireg_devices StreamLink::close": "it has no result; tests show what a peer gets",
    "upload_format Reader::new": "a reader is only memory that is used again; no clause of its calls depends on it",
    "issuer_http Scratch::new": "it is only memory that is used again; no clause of its calls depends on it",
    "program_words help_of": "what a person reads on the standard error is free text",
    "program_words tell": "what a person reads on the standard error is free text",
}
LEAST = 500


def functions(crate):
    """The public functions of a crate, and whether each has a clause about its result."""
    names = exported(crate)
    for file in sorted((ROOT / "crates" / crate / "src").rglob("*.rt")):
        owner, lines = None, file.read_text().splitlines()
        for at, line in enumerate(lines):
            if line.startswith(("impl", "pub trait")):
                words = re.findall(r"\w+", re.sub(r"<[^{]*?>(?= |\()", "", line.split(" for ")[-1]))
                owner = next((word for word in words if word in names), None)
            elif line == "}":
                owner = None
            elif (found := re.match(r"( *)pub fn (\w+)", line)) and (owner or not found[1] and found[2] in names):
                end = next(to for to in range(at, len(lines)) if OPENS.match(lines[to]))
                yield f"{owner}::{found[2]}" if owner else found[2], "ensures" in "\n".join(lines[at:end + 1])


def main():
    if sys.argv[1:]:
        print(__doc__, file=sys.stderr)
        return 2
    faults, bare, count = [], set(), 0
    for crate in crates():
        if (ROOT / "crates" / crate / "src" / "lib.rt").is_file():
            for name, has_clause in functions(crate):
                count += 1
                if not has_clause:
                    bare.add(crate if crate in EXPLAINED else f"{crate} {name}")
    faults += [f"{name} has no clause about its result" for name in sorted(bare - set(EXPLAINED))]
    faults += [f"{name} is explained and has a clause, or isn't there" for name in EXPLAINED if name not in bare]
    faults += [f"{count} functions were found, and {LEAST} are the least"] * (count < LEAST)
    for fault in faults:
        print(f"docs/clauses.py: {fault}", file=sys.stderr)
    return int(bool(faults))


if __name__ == "__main__":
    sys.exit(main())
