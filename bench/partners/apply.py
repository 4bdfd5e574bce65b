#!/usr/bin/env python3
"""Applies a delta to a golden copy of `lei` by Python's `csv` or `json`, and prints the copy after it. Nothing is
checked: the files have to be a copy and a delta.

usage: apply.py FORM COPY DELTA
"""
import csv
import json
import sys


def apply_csv(copy, delta, out):
    with open(copy, newline="", encoding="utf-8") as rows, open(delta, newline="", encoding="utf-8") as changes:
        head, *held = csv.reader(rows)
        table = {row[0]: row for row in held}
        for action, *row in list(csv.reader(changes))[1:]:
            table.pop(row[0], None)
            if action == "PUT":
                table[row[0]] = row
    writer = csv.writer(out, quoting=csv.QUOTE_ALL, lineterminator="\n")
    writer.writerow(head)
    writer.writerows(table[key] for key in sorted(table))


def apply_json(copy, delta, out):
    with open(copy, encoding="utf-8") as rows, open(delta, encoding="utf-8") as changes:
        table = {record["LEI"]: record for record in json.load(rows)["records"]}
        later = json.load(changes)
    for change in later["records"]:
        table.pop(change["record"]["LEI"], None)
        if change["action"] == "PUT":
            table[change["record"]["LEI"]] = change["record"]
    after = {"contentDate": later["contentDate"], "publication": later["publication"], "recordCount": len(table),
             "records": [table[key] for key in sorted(table)]}
    out.write(json.dumps(after, separators=(",", ":"), ensure_ascii=False))


def main():
    form, copy, delta = sys.argv[1:]
    {"csv": apply_csv, "json": apply_json}[form](copy, delta, sys.stdout)


if __name__ == "__main__":
    main()
