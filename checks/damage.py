"""A store that was changed from outside is refused when it is opened, by name, and has its entries and cells still.

A store of records, a relationship, an exception and a publication is changed by Python's `sqlite3` and as bytes, in form 2
and in form 1. The program ends with status 5 and the cause, or with status 7 and the first difference as docs/FORMATS.md
works it out. `serve` ends with the same status and doesn't listen. Nothing is reported if what is left is an earlier
history: if the last entry was removed and no cell is of it, or if the store lacks its log or a part of it. A store with a
few other bytes is refused or answers as before."""
import collections
import dataclasses
import os
import pathlib
import random

from checks import older_store
from checks.common import stores
from checks.common.inputs import (ISSUER, ISSUERS, accredit, code, compact, exception, record, records, relationship,
                                  reply_to_accredit, reply_to_status, reply_to_upload, upload)
from checks.common.programs import lines
from checks.models.storing import cell_damage, cells_after, entry_damage, moment_text

NAME = "Entity.LegalName"
NO_ENTRY = b"NOT_AN_ENTRY"
OTHER_TABLES, OTHER_ROW = "it has other tables than those of this program", "it has a row that this program doesn't write"
FLIPS, CUTS = 300, 40

# The values of the uploads by the number of the entry, the one that is rejected, and what is sent with the replies to it.
UPLOADS = {
    2: records(1, 3),
    3: {"records": [record(2, {NAME: "Beta"})], "relationships": [relationship(1, 2)], "exceptions": [exception(3)]},
    5: records(4, 1),
}
REJECTED = {"records": [{}]}
BODIES = [compact(value) for value in [*UPLOADS.values(), REJECTED]]
VERDICTS = [["ACCEPTED"] * 3, ["ACCEPTED"] * 3, ["ACCEPTED"], ["C02 FIELD_MISSING LEI"]]
# The entries of the uploads.
NUMBERS = [*UPLOADS, 6]
LINES = [accredit(), upload(1, BODIES[0]), upload(2, BODIES[1]), b"PUBLISH 1\n", upload(3, BODIES[2]), upload(4, BODIES[3])]
KEPT = [reply_to_upload(entry, number, verdicts) for number, (entry, verdicts) in enumerate(zip(NUMBERS, VERDICTS), 1)]
QUERIES = [*(f"KEPT {ISSUER} {number}\n".encode() for number in range(1, 5)),
           *(f"SHOW {code(number)}\n".encode() for number in range(1, 5)),
           *(f"COPY {table} json\n".encode() for table in ("lei", "rr", "repex")), b"STATUS\n"]


@dataclasses.dataclass
class Change:
    """A change of a store by statements, in which `{cells}` is the table of its cells. The store fails with a cause, or is
    damaged. Then the first entry that isn't as before is reported with what the replay makes, or the first cell that isn't
    the right one after uploads, which are by themselves as before. In `is_quick` is whether a quick run has it."""
    what: str
    statements: str
    cause: str = ""
    replayed: bytes = b""
    uploads: dict = None
    is_quick: bool = False


# What a table of cells is without its second key.
ONE_KEY = """ALTER TABLE cell RENAME TO old;
CREATE TABLE cell (kind INTEGER NOT NULL, name TEXT NOT NULL,
touched INTEGER NOT NULL CHECK (touched >= 1), row BLOB, PRIMARY KEY (kind, name)) STRICT;
INSERT INTO cell SELECT * FROM old; DROP TABLE old"""

# A text where a blob belongs: the table takes it while its schema says that it takes any value.
TEXT_FOR_BLOB = """PRAGMA writable_schema = ON;
UPDATE sqlite_schema SET sql = replace(sql, ') STRICT', ')') WHERE name = 'entry';
PRAGMA writable_schema = RESET;
UPDATE entry SET body = 'a text' WHERE seq = 2;
PRAGMA writable_schema = ON;
UPDATE sqlite_schema SET sql = sql || ' STRICT' WHERE name = 'entry';
PRAGMA writable_schema = RESET"""
TWICE = "INSERT INTO entry SELECT 7, kind, office, number, moment, rules, body, answer FROM entry WHERE seq = 6"
OTHER_BODY = "UPDATE entry SET body = CAST(replace(CAST(body AS TEXT), 'Alpha', 'Omega') AS BLOB) WHERE seq = 2"

# Changes of a store in both forms.
CHANGES = [
    Change("an entry is missing", "DELETE FROM entry WHERE seq = 2", is_quick=True),
    Change("an answer is another", "UPDATE entry SET answer = x'78' WHERE seq = 2", is_quick=True),
    Change("an upload has another number", "UPDATE entry SET number = 7 WHERE seq = 3", replayed=b"NUMBER_AHEAD 2"),
    Change("an accreditation has a number", "UPDATE entry SET number = 1 WHERE seq = 1", replayed=NO_ENTRY),
    Change("a moment is before the one ahead of it", "UPDATE entry SET moment = 5 WHERE seq = 3"),
    Change("a moment is out of range", "UPDATE entry SET moment = 900000000000000000 WHERE seq = 3", replayed=NO_ENTRY),
    Change("a kind of an entry is none", "UPDATE entry SET kind = 9 WHERE seq = 3", replayed=NO_ENTRY),
    Change("a kind of an entry is too great", "UPDATE entry SET kind = 256 WHERE seq = 3", OTHER_ROW),
    Change("an issuer isn't accredited", f"UPDATE entry SET office = '{ISSUERS[1]}' WHERE seq = 3",
           replayed=b"ISSUER_UNKNOWN"),
    Change("an issuer is no LEI", "UPDATE entry SET office = 'x' WHERE seq = 3", replayed=NO_ENTRY),
    Change("a publication has an issuer", f"UPDATE entry SET office = '{ISSUER}' WHERE seq = 4", replayed=NO_ENTRY),
    Change("a publication has a body", "UPDATE entry SET body = x'78' WHERE seq = 4", replayed=NO_ENTRY),
    Change("rules are none", "UPDATE entry SET rules = 4 WHERE seq = 3", replayed=NO_ENTRY),
    Change("rules go back", "UPDATE entry SET rules = 2 WHERE seq = 3", replayed=NO_ENTRY),
    Change("a body is no upload", "UPDATE entry SET body = x'78' WHERE seq = 3", replayed=b"MALFORMED NOT_JSON"),
    Change("a body is another upload", OTHER_BODY, uploads={**UPLOADS, 2: records(1, 3, {NAME: "Omega"})}),
    Change("an entry comes twice", TWICE, replayed=KEPT[-1][4:-1]),
    Change("the row of a cell is another", "UPDATE {cells} SET row = x'78' WHERE kind = 3", is_quick=True),
    Change("a cell has no row", "UPDATE {cells} SET row = NULL WHERE kind = 2"),
    Change("a cell is of another entry", "UPDATE {cells} SET touched = 2 WHERE kind = 3"),
    Change("a cell is of no entry", "UPDATE {cells} SET touched = 99 WHERE kind = 2"),
    Change("a cell has another kind", "UPDATE {cells} SET kind = 7 WHERE kind = 3"),
    Change("a cell is missing inside a page", "DELETE FROM {cells} WHERE kind = 2"),
    Change("the last cell of a page is missing", "DELETE FROM {cells} WHERE kind = 3"),
    Change("no cell is there", "DELETE FROM {cells}", is_quick=True),
    Change("the last entry is missing, of which a cell is", "DELETE FROM entry WHERE seq >= 5",
           uploads={2: UPLOADS[2], 3: UPLOADS[3]}, is_quick=True),
    Change("the last entry is missing, which replaced a row", "DELETE FROM entry WHERE seq >= 3", uploads={2: UPLOADS[2]}),
    Change("a further table", "CREATE TABLE notes (note TEXT)", OTHER_TABLES, is_quick=True),
    Change("a further index", "CREATE INDEX by_row ON {cells} (row)", OTHER_TABLES),
    Change("a further view", "CREATE VIEW recent AS SELECT * FROM entry", OTHER_TABLES),
    Change("another table of the name", "DROP TABLE {cells}; CREATE TABLE {cells} (kind TEXT)", OTHER_TABLES),
    Change("a table lacks its second key", ONE_KEY, OTHER_TABLES),
    # SQLite itself finds this one, before the program reads rows.
    Change("a text where a blob belongs", TEXT_FOR_BLOB, stores.CANNOT_OPEN),
    Change("a number of an upload is negative", "UPDATE entry SET number = -1 WHERE seq = 2", OTHER_ROW, is_quick=True),
    Change("a kind of a cell is negative", "UPDATE {cells} SET kind = -1 WHERE kind = 2", OTHER_ROW),
    Change("a kind of a cell is too great", "UPDATE {cells} SET kind = 256 WHERE kind = 2", OTHER_ROW),
]
# Changes of a store in one form, and of the older one.
BOTH_TABLES = stores.FORM_TABLE + stores.CELL_TABLE
SECOND = [
    Change("another table in the place of the cells of form 1", "DROP TABLE cell; CREATE TABLE cell (kind TEXT)",
           OTHER_TABLES),
    Change("a cell is added", "INSERT INTO cell2 VALUES (3, '00000000000000000195', '', 2, NULL)"),
    Change("a second row of the form", "INSERT INTO store (one, form) VALUES (2, 2)", OTHER_ROW),
    Change("another form", "UPDATE store SET form = 3", OTHER_ROW, is_quick=True),
    Change("cells of form 2 without the form", "DELETE FROM store", OTHER_ROW),
    Change("a first part of 21 characters", "UPDATE cell2 SET lei = lei || 'A'", OTHER_ROW),
    Change("a rest beside a short first part", "UPDATE cell2 SET lei = kind || touched, rest = lei", OTHER_ROW),
]
FIRST = [
    Change("a cell is added", "INSERT INTO cell VALUES (3, '00000000000000000195', 2, NULL)"),
    Change("another form", f"{BOTH_TABLES} INSERT INTO store VALUES (1, 3)", OTHER_ROW),
    Change("a cell of form 2", f"{BOTH_TABLES} INSERT INTO cell2 VALUES (1, 'A', '', 1, NULL)", OTHER_ROW),
]
BY_RULES_2, BY_RULES_1 = older_store.answer(3, 2, "ACCEPTED"), older_store.answer(4, 3, older_store.SEVERAL)
OLDER = [
    Change("rules go back", "UPDATE entry SET rules = 1 WHERE seq = 6", replayed=NO_ENTRY),
    Change("an entry by rules 1 has rules 2", "UPDATE entry SET rules = 2 WHERE seq = 3",
           replayed=f"3 UPLOAD {ISSUER} 2 2025-01-11T00:00:00Z 2 ".encode() + BY_RULES_2),
    Change("an entry by rules 2 has rules 1", "UPDATE entry SET rules = 1 WHERE seq = 4",
           replayed=f"4 UPLOAD {ISSUER} 3 2025-01-12T00:00:00Z 1 ".encode() + BY_RULES_1),
    Change("the row of a cell by rules 1 is another", "UPDATE {cells} SET row = x'78' WHERE touched = 2"),
    Change("the row of a cell by rules 2 is another", "UPDATE {cells} SET row = x'78' WHERE touched = 4", is_quick=True),
    Change("a cell by rules 2 is missing", "DELETE FROM {cells} WHERE kind = 3"),
]


@dataclasses.dataclass
class Base:
    """A store that is changed: its file, its form, and the entries and cells that it has to have. The cells may be those
    of uploads."""
    name: str
    file: pathlib.Path
    form: int
    entries: list
    uploads: dict = None
    cells: list = None

    def right_cells(self, change):
        return self.cells or cells_after(change.uploads or self.uploads)


# ---- a store


def right_entries(found):
    """The entries of the store, with the moments that are found."""
    at = [entry[4] for entry in found]
    published = compact({"contentDate": moment_text(at[3]), "entry": 4, "lei": 3, "publication": 1, "repex": 1, "rr": 1})
    uploads = [(entry, 2, ISSUER, number, at[entry - 1], 3, body, kept[4:-1])
               for number, (entry, body, kept) in enumerate(zip(NUMBERS, BODIES, KEPT), 1)]
    return sorted([(1, 1, ISSUER, 0, at[0], 3, b"", reply_to_accredit(1)[4:-1]), *uploads,
                   (4, 3, "", 1, at[3], 3, b"", published)])


def make(run):
    """A store as the program left it, and one file of it in each form, with what they have to have."""
    left, second, first = (run.folder / f"{name}.db" for name in ("left", "second", "first"))
    done = lines(run.program, b"".join(LINES), "--store", left)
    stores.copy_files(left, run.folder / "read.db")
    entries = right_entries(stores.entries(run.folder / "read.db"))
    run.report.equal("a store is made", (done.returncode, done.stdout.splitlines(True)[4:]), (0, KEPT[2:]))
    stores.copy(run.folder / "read.db", second)
    stores.copy(second, first)
    stores.alter(first, stores.BACK)
    older = run.folder / "older.db"
    older_store.main(older)
    bases = [Base("form 2", second, 2, entries, UPLOADS), Base("form 1", first, 1, entries, UPLOADS),
             Base("rules 1 and 2", older, 1, older_store.ENTRIES, cells=older_store.CELLS)]
    for base in bases[:2]:
        run.report.equal(f"{base.name}: its entries and cells are as documented", (stores.entries(base.file),
                         stores.cells(base.file)), (base.entries, cells_after(UPLOADS)))
    return left, bases


def contents(store):
    """The rows of each table of a store. Its cells are in one list, in whichever table they are."""
    found = {name: sorted(stores.rows(store, f"SELECT * FROM {name}"), key=repr) for name in stores.tables(store)}
    cells = [row if len(row) == 4 else (row[0], row[1] + row[2], *row[3:])
             for name in stores.CELLS for row in found.pop(name, []) if len(row) >= 4]
    return {**found, "cells": sorted(cells, key=repr)}


# ---- refusals


def refuse_change(run, base, change, store):
    """Makes a change to a copy of a store, and opens it."""
    stores.copy(base.file, store)
    stores.alter(store, change.statements.format(cells="cell2" if base.form == 2 else "cell"))
    before = contents(store)
    status, report = 5, b""
    if not change.cause:
        entries = stores.entries(store)
        report = entry_damage(entries, base.entries, change.replayed) or cell_damage(
            stores.cells(store, "cell2" if base.form == 2 else "cell"), base.right_cells(change), len(entries))
        status = 7
    wanted = status, [change.cause] * (status == 5), [stores.WORDS[status]], 2, report
    what = f"{base.name}: {change.what}"
    run.report.equal(f"{what}: status {status}", stores.open_lines(run.program, store), wanted)
    if not run.is_quick or change.what == "no cell is there":
        run.report.equal(f"{what}: the same of serve", stores.open_server(run.program, store),
                         (status, [stores.WORDS[status]], False, b""))
    after = contents(store)
    if base.form == 1:
        # The program may have moved it, and made the tables of form 2.
        before, after = ({**each, "store": []} for each in (before, after))
    run.report.equal(f"{what}: its rows are there still", after, before)


def refuse_changes(run, bases):
    sets = [(bases[0], [*CHANGES, *SECOND]), (bases[1], [*CHANGES, *FIRST]), (bases[2], OLDER)]
    count = 0
    for base, changes in sets:
        for change in changes:
            if not run.is_quick or change.is_quick and base is not bases[1]:
                refuse_change(run, base, change, run.folder / "changed.db")
                count += 1
    run.report.note(f"{count} changes by statements")


# ---- files


def files_of(store):
    """What is put in the place of a store, by name: bytes, or None for a folder."""
    data = store.read_bytes()
    last = len(data) - 4_096
    return {
        "a text": b"This is no database.\n" * 300,
        "a short text": b"hello",
        "half of the file": data[:len(data) // 2],
        "the file without its last page": data[:last],
        "the file with a page of zeros": data[:last] + bytes(4_096),
        "a folder": None,
    }


def refuse_files(run, base):
    """Each of these is refused with status 5 and a cause, and stays as it is."""
    store = run.folder / "file.db"
    for what, data in files_of(base.file).items():
        stores.remove(store)
        if data is None:
            store.mkdir()
        else:
            store.write_bytes(data)
        status, causes, word, after, out = stores.open_lines(run.program, store)
        left = None if store.is_dir() else store.read_bytes()
        run.report.equal(f"{what}: status 5, and it stays as it is", (status, len(causes), word, after, out, left == data),
                         (5, 1, ["KEEPER_FAULT"], 2, b"", True))
        if data is None:
            store.rmdir()
    store.write_bytes(b"")
    run.report.equal("an empty file becomes an empty store", stores.open_lines(run.program, store),
                     (0, [], [], 0, reply_to_status()))
    absent = run.folder / "absent" / "register.db"
    run.report.equal("a store in no folder: status 5, and none is made",
                     (stores.open_lines(run.program, absent)[0], absent.parent.exists()), (5, False))


# ---- earlier histories


def history_of(run, store):
    """How many entries a store is opened with, and what it keeps. None if it isn't opened."""
    done = lines(run.program, b"".join([QUERIES[-1], *QUERIES[:4]]), "--store", store)
    if done.returncode:
        return None, (done.returncode, done.stdout[:200])
    status, *kept = done.stdout.splitlines(True)
    return int(status.partition(b'"entries":')[2].partition(b",")[0]), kept


def kept_after(entries):
    """What is kept of the uploads after so many entries."""
    return [kept if entry <= entries else b"404 NOT_KEPT\n" if entries else b"404 ISSUER_UNKNOWN\n"
            for entry, kept in zip(NUMBERS, KEPT)]


def remove_last_entry(run, base):
    """Nothing is reported if no cell is of the entry, and its upload can be sent again."""
    store = run.folder / "shorter.db"
    stores.copy(base.file, store)
    stores.alter(store, "DELETE FROM entry WHERE seq = 6")
    run.report.equal(f"{base.name}: the last entry is missing, of which no cell is: what is left is an earlier history",
                     history_of(run, store), (5, kept_after(5)))
    again = lines(run.program, LINES[-1], "--store", store)
    run.report.equal(f"{base.name}: and its upload is taken again", (again.returncode, again.stdout), (0, KEPT[-1]))


def cut_log(run, left, cuts):
    """A store that lacks its log, or a part of it, or has one with another byte, is an earlier history."""
    chance, store = random.Random(run.seed), run.folder / "cut.db"
    log = pathlib.Path(f"{left}-wal")
    run.report.holds("the program leaves a log", log.exists())
    data = log.read_bytes().rstrip(b"\0") if log.exists() else b""
    wrong, counts = [], []
    for size in [0, *sorted(chance.randrange(len(data) + 1) for _ in range(cuts)), len(data)]:
        stores.copy_files(left, store)
        os.truncate(f"{store}-wal", size)
        entries, kept = history_of(run, store)
        counts.append(entries)
        wrong += [] if entries is not None and kept == kept_after(entries) else [(size, entries, kept)]
    run.report.equal("a store with a part of its log is an earlier history", wrong[:3], [])
    run.report.equal("the more of its log, the later", (counts, counts[0], counts[-1]), (sorted(counts), 0, 6))
    for _ in range(cuts):
        at = chance.randrange(len(data))
        stores.copy_files(left, store)
        pathlib.Path(f"{store}-wal").write_bytes(data[:at] + bytes([data[at] ^ 1 << chance.randrange(8)]) + data[at + 1:])
        entries, kept = history_of(run, store)
        wrong += [] if entries is not None and kept == kept_after(entries) else [(at, entries, kept)]
    run.report.equal("and so is one with another bit in its log", wrong[:3], [])
    run.report.note(f"{len(counts)} parts of a log, with {', '.join(map(str, sorted(set(counts))))} entries")


# ---- bytes


def change_bytes(run, base, count):
    """A store with a few other bytes is refused, or answers as before."""
    chance, store = random.Random(run.seed), run.folder / "bytes.db"
    data, sent = base.file.read_bytes(), b"".join(QUERIES)
    stores.copy(base.file, store)
    wanted = lines(run.program, sent, "--store", store)
    run.report.equal("a store answers what is asked", (wanted.returncode, wanted.stdout[:len(KEPT[0])]), (0, KEPT[0]))
    statuses, odd = collections.Counter(), []
    for _ in range(count):
        at, changed = chance.randrange(len(data)), bytearray(data)
        changed[at:at + 4] = [byte ^ chance.choice([0, 1, 128, 255]) for byte in data[at:at + 4]]
        stores.remove(store)
        store.write_bytes(changed)
        done = lines(run.program, sent, "--store", store)
        statuses[done.returncode] += 1
        if done.returncode not in stores.WORDS or not done.returncode and done.stdout != wanted.stdout:
            odd.append((at, done.returncode, done.stdout[:300]))
    run.report.equal("a store with other bytes is refused, or answers as before", odd[:3], [])
    run.report.equal("some of them are refused, with both statuses", [statuses[each] > 0 for each in (5, 7)], [True, True])
    counts = ", ".join(f"{statuses[status]} with status {status}" for status in stores.WORDS)
    run.report.note(f"{count} stores with other bytes: {counts}")


def check(run):
    left, bases = make(run)
    refuse_changes(run, bases)
    refuse_files(run, bases[0])
    remove_last_entry(run, bases[0])
    cut_log(run, left, 3 if run.is_quick else CUTS)
    if not run.is_quick:
        remove_last_entry(run, bases[1])
        change_bytes(run, bases[0], FLIPS)
