#!/usr/bin/env python3
"""Reads each line of the standard input by `json.loads`, and prints how many there were. Each value is dropped before the
next line is read."""
import json
import sys

count = 0
for line in sys.stdin.buffer:
    json.loads(line)
    count += 1
print(count)
