#!/usr/bin/env python3
"""Reads files by Python's `csv`, and prints how many lines they have in all.

usage: read_csv.py FILE..
"""
import csv
import sys

count = 0
for path in sys.argv[1:]:
    with open(path, newline="", encoding="utf-8") as rows:
        count += sum(1 for _ in csv.reader(rows))
print(count)
