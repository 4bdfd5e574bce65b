"""What a check found."""
from __future__ import annotations

import dataclasses
import pathlib


class Report:
    """The lines of a check: each compares what was seen with what should be seen, or notes a count or a time."""

    def __init__(self):
        self.passed = self.failed = 0
        self.notes = []

    def equal(self, what, seen, wanted):
        """Reports whether these are equal, and what was seen if not."""
        good = seen == wanted
        self.passed += good
        self.failed += not good
        print(f"  {'ok  ' if good else 'FAIL'} {what}" + ("" if good else f": {seen!r}, not {wanted!r}"[:2_000]), flush=True)
        return good

    def holds(self, what, holds, seen=""):
        """Reports whether something holds, and what was seen if not."""
        return self.equal(what, True if holds else seen or False, True)

    def note(self, text):
        """Notes what was counted or measured."""
        self.notes.append(text)
        print(f"       {text}", flush=True)


@dataclasses.dataclass
class Run:
    """A run of a check: the program, a folder of its own that is empty at first, whether it is the quick one, the seed of
    what it makes by chance, and its report."""
    program: pathlib.Path
    folder: pathlib.Path
    is_quick: bool
    seed: int
    report: Report


def first_difference(wanted, came):
    """How many of the wanted replies come one after the other at the start of some bytes, and what differs first, or
    nothing."""
    at = 0
    for place, reply in enumerate(wanted):
        if came[at:at + len(reply)] != reply:
            return place, f"reply {place + 1} is in {came[at:at + max(100, len(reply))]!r}"[:400] + f", not {reply!r}"[:400]
        at += len(reply)
    return len(wanted), f"{came[at:]!r} is no reply"[:400] if came[at:] else ""
