#!/usr/bin/env python3
"""Makes crates/leireg/data/register.db again: a store of form 1, as the first programs made it, with entries by rules 1
and 2.

The tables are made by the statements of the first form, and each entry and cell is what docs/FORMATS.md and
docs/RULES.md say that it is. Nothing comes from the register itself. So the run of crates/leireg shows that it opens
such a store, moves it to form 2 and answers from it.

usage: checks/older_store.py [FILE]
"""
import pathlib
import sqlite3
import sys

ROOT = pathlib.Path(__file__).resolve().parent.parent
sys.path.insert(0, str(ROOT))

from checks.common import inputs  # noqa: E402
from checks.common.inputs import AUTHORITY_ID, ISSUER, SUCCESSORS, code, compact, reply_to_upload  # noqa: E402
from checks.common.stores import remove  # noqa: E402

FILE = ROOT / "crates" / "leireg" / "data" / "register.db"
ALPHA, BETA, GAMMA = map(code, (1, 2, 3))

# 2025-01-11T00:00:00Z and a day later.
FIRST_DAY, NEXT_DAY = 1_736_553_600, 1_736_640_000

ACCREDIT, UPLOAD, PUBLISH = 1, 2, 3

TABLES = """CREATE TABLE IF NOT EXISTS entry (
  seq INTEGER PRIMARY KEY CHECK (seq >= 1),
  kind INTEGER NOT NULL,
  office TEXT NOT NULL,
  number INTEGER NOT NULL,
  moment INTEGER NOT NULL,
  rules INTEGER NOT NULL,
  body BLOB NOT NULL,
  answer BLOB NOT NULL
) STRICT;
CREATE TABLE IF NOT EXISTS cell (
  kind INTEGER NOT NULL,
  name TEXT NOT NULL,
  touched INTEGER NOT NULL CHECK (touched >= 1),
  row BLOB,
  PRIMARY KEY (kind, name),
  UNIQUE (touched, kind, name)
) STRICT;"""


def record(number, name, others=None):
    """A record that passes all checks on these days, with others in place of some fields."""
    return inputs.record(number, {
        "Entity.LegalName": name,
        AUTHORITY_ID: str(1_000 + number),
        "Registration.NextRenewalDate": "2026-01-10T09:00:00Z",
        **(others or {}),
    })


def answer(entry, number, *items):
    """The answer to an upload: its reply without the status code."""
    return reply_to_upload(entry, number, items)[4:-1]


FIRST, SECOND, THIRD = record(1, "Alpha"), record(2, "Beta"), record(3, "Gamma")
RETIRED = record(1, "Alpha", {
    "Entity.EntityStatus": "INACTIVE",
    "Registration.RegistrationStatus": "RETIRED",
    SUCCESSORS: f"{BETA} {GAMMA}",
})
PARENT, NO_PARENT = inputs.relationship(2, 3), inputs.exception(3)
THREE = compact({"records": [FIRST, SECOND, THIRD]})
SUCCEEDED = compact({"records": [RETIRED]})
OTHERS = compact({"exceptions": [NO_PARENT], "relationships": [PARENT]})
SEVERAL = "C03 FIELD_SHAPE Entity.SuccessorEntity.1.SuccessorLEI"

# By rules 1 a record has one successor at most, and by rules 2 it may have several.
ENTRIES = [
    (1, ACCREDIT, ISSUER, 0, FIRST_DAY, 1, b"", compact({"entry": 1, "issuer": ISSUER})),
    (2, UPLOAD, ISSUER, 1, FIRST_DAY, 1, THREE, answer(2, 1, "ACCEPTED", "ACCEPTED", "ACCEPTED")),
    (3, UPLOAD, ISSUER, 2, FIRST_DAY, 1, SUCCEEDED, answer(3, 2, SEVERAL)),
    (4, UPLOAD, ISSUER, 3, NEXT_DAY, 2, SUCCEEDED, answer(4, 3, "ACCEPTED")),
    (5, UPLOAD, ISSUER, 4, NEXT_DAY, 2, OTHERS, answer(5, 4, "ACCEPTED", "ACCEPTED")),
    (6, PUBLISH, "", 1, NEXT_DAY, 2, b"", compact({
        "contentDate": "2025-01-12T00:00:00Z", "entry": 6, "lei": 3, "publication": 1, "repex": 1, "rr": 1})),
]
CELLS = [
    (1, ALPHA, 4, compact(RETIRED)),
    (1, BETA, 2, compact(SECOND)),
    (1, GAMMA, 2, compact(THIRD)),
    (2, f"{BETA} IS_DIRECTLY_CONSOLIDATED_BY {GAMMA}", 5, compact(PARENT)),
    (3, f"{GAMMA} DIRECT_ACCOUNTING_CONSOLIDATION_PARENT", 5, compact(NO_PARENT)),
]


def main(file):
    remove(file)
    store = sqlite3.connect(file)
    store.executescript(TABLES)
    store.executemany("INSERT INTO entry VALUES (?, ?, ?, ?, ?, ?, ?, ?)", ENTRIES)
    store.executemany("INSERT INTO cell VALUES (?, ?, ?, ?)", CELLS)
    store.commit()
    store.close()


if __name__ == "__main__":
    main(pathlib.Path(sys.argv[1]) if len(sys.argv) > 1 else FILE)
