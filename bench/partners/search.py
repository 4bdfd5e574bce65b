#!/usr/bin/env python3
"""Answers the lines of `leireg search csv COPY` by Python's `csv` and SQLite's FTS5 in memory, for names of ASCII. A line
or a packet that isn't one ends the program.

usage: search.py COPY
"""
import csv
import io
import json
import sqlite3
import sys

PAGE = 50


class Search:
    """The names of a copy in a table of FTS5, and in which row of it each key is."""

    def __init__(self, copy):
        self.names = sqlite3.connect(":memory:")
        self.names.execute("CREATE VIRTUAL TABLE names USING fts5(lei UNINDEXED, name)")
        with open(copy, newline="", encoding="utf-8") as rows:
            read = csv.reader(rows)
            next(read)
            self.names.executemany("INSERT INTO names VALUES (?, ?)", ((row[0], row[1]) for row in read))
        self.rows = dict(self.names.execute("SELECT lei, rowid FROM names"))

    def find(self, page, text):
        words = " ".join(f'"{word}"' for word in text.split())
        found = self.names.execute("SELECT lei, name FROM names WHERE name MATCH ? ORDER BY lei", (words,)).fetchall()
        here = [{"LEI": lei, "LegalName": name} for lei, name in found[PAGE * (page - 1):PAGE * page]]
        return {"matches": len(found), "names": here, "page": page}

    def take(self, packet):
        changes = csv.reader(io.StringIO(packet.decode(), newline=""))
        next(changes)
        for action, lei, name, *_ in changes:
            if lei in self.rows:
                self.names.execute("DELETE FROM names WHERE rowid = ?", (self.rows.pop(lei),))
            if action == "PUT":
                self.rows[lei] = self.names.execute("INSERT INTO names VALUES (?, ?)", (lei, name)).lastrowid
        return {"rows": len(self.rows)}


def main():
    search = Search(sys.argv[1])
    for line in iter(sys.stdin.buffer.readline, b""):
        word, number, *text = line.decode().rstrip("\n").split(" ", 2)
        reply = search.find(int(number), text[0]) if word == "FIND" else search.take(sys.stdin.buffer.read(int(number)))
        print("200", json.dumps(reply, separators=(",", ":"), ensure_ascii=False), flush=True)


if __name__ == "__main__":
    main()
