#!/usr/bin/env python3
"""Runs a command, and prints to the standard error the seconds that it took by the clock, those of the processors, and its
most memory in bytes.

usage: python3 -IS checks/common/spend.py COMMAND..
"""
import os
import sys
import time

start = time.perf_counter()
child = os.posix_spawnp(sys.argv[1], sys.argv[1:], os.environ)
_, status, usage = os.wait4(child, 0)
print(time.perf_counter() - start, usage.ru_utime + usage.ru_stime, usage.ru_maxrss * 1024, file=sys.stderr)
sys.exit(os.waitstatus_to_exitcode(status) != 0)
