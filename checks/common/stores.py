"""Stores in files, which Python's `sqlite3` copies, reads and changes from outside."""
from __future__ import annotations

import contextlib
import pathlib
import shutil
import sqlite3
import subprocess

from checks.common.programs import lines, run_command
from checks.common.servers import LISTENS

# Puts the cells of a store of form 2 back into form 1, as an earlier program left them.
BACK = """INSERT INTO cell (kind, name, touched, row)
SELECT kind, lei || rest, touched, row FROM cell2 ORDER BY touched, kind, lei, rest;
DROP TABLE cell2; DROP TABLE store;"""
# The tables that form 2 has and form 1 doesn't.
FORM_TABLE = "CREATE TABLE store (one INTEGER PRIMARY KEY, form INTEGER NOT NULL) STRICT;"
CELL_TABLE = """CREATE TABLE cell2 (
  kind INTEGER NOT NULL,
  lei TEXT NOT NULL,
  rest TEXT NOT NULL,
  touched INTEGER NOT NULL CHECK (touched >= 1),
  row BLOB,
  PRIMARY KEY (kind, lei, rest),
  UNIQUE (touched, kind, lei, rest)
) STRICT;"""
ENDS = ("", "-wal", "-shm")
# The cells of each form, as the columns of form 1.
CELLS = {"cell": "SELECT kind, name, touched, row FROM cell", "cell2": "SELECT kind, lei || rest, touched, row FROM cell2"}
# The words of the statuses with which a program ends after it opened a store, or didn't.
WORDS = {0: "", 5: "KEEPER_FAULT", 7: "STORE_DAMAGED"}
FAILS = "the store fails: "
CANNOT_OPEN = "its file can't be opened, or another program has it open"


def remove(store):
    """Removes the files of a store."""
    for end in ENDS:
        pathlib.Path(f"{store}{end}").unlink(missing_ok=True)


def copy(store, to):
    """Copies a store into one file, with what stands in its log alone, in the place of an earlier one."""
    remove(to)
    with contextlib.closing(sqlite3.connect(store)) as source, contextlib.closing(sqlite3.connect(to)) as target:
        source.backup(target)


def copy_files(store, to):
    """Copies the file of a store and its log as they are, in the place of earlier ones."""
    remove(to)
    for end in ENDS[:2]:
        if pathlib.Path(f"{store}{end}").exists():
            shutil.copyfile(f"{store}{end}", f"{to}{end}")


def alter(store, statements):
    """Changes a store by statements."""
    with contextlib.closing(sqlite3.connect(store)) as database:
        database.executescript(statements)


def rows(store, query):
    """The rows that a query has over a store."""
    with contextlib.closing(sqlite3.connect(store)) as database:
        return database.execute(query).fetchall()


def entries(store):
    """The rows of the entries of a store, in order."""
    return rows(store, "SELECT * FROM entry ORDER BY seq")


def tables(store):
    """The names of the tables that a store has."""
    return [name for name, in rows(store, "SELECT name FROM sqlite_schema WHERE type = 'table' ORDER BY name")]


def cells(store, *forms):
    """The cells of a store, in form 1 and form 2 or in one of them: kind, name, number of the entry that touched it last,
    and row, in order."""
    found = [row for form in forms or CELLS if form in tables(store) for row in rows(store, CELLS[form])]
    return sorted(found, key=lambda row: row[:2])


# ---- programs


def open_lines(program, store):
    """How `lines` ends over a store: the status, the causes, the word, how many lines come after it, and the output."""
    done = lines(program, b"STATUS\n", "--store", store)
    told = done.stderr.decode().splitlines()
    causes = [line.removeprefix(FAILS) for line in told if line.startswith(FAILS)]
    return done.returncode, causes, told[len(causes):len(causes) + 1], len(told[len(causes) + 1:]), done.stdout


def open_server(program, store):
    """How `serve` ends over a store that it can't open: the status, its words, whether it listened, and the output. One
    that doesn't end listens, and has no status."""
    words = "serve", "--port", "0", "--workers", "1", "--connections", "1", "--store", store
    try:
        done = run_command(program, b"", *words, timeout=10)
    except subprocess.TimeoutExpired:
        return None, [], True, b""
    told = done.stderr.decode().splitlines()
    listened = any(line.startswith(LISTENS) for line in told)
    return done.returncode, [line for line in told if line in WORDS.values()], listened, done.stdout
