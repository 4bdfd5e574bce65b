"""What a work is, and how a program is run once for it: as a command that reads a file, or as one that is asked by lines."""
from __future__ import annotations

import dataclasses
import filecmp
import os
import pathlib
import shutil
import time
from typing import Callable

from checks.common.programs import Spent, Talk, measure, peak, processor_seconds

# All works by name, in the order of the modules of bench/works.
WORKS: dict[str, Work] = {}


class Wrong(Exception):
    """An output isn't what it should be."""


@dataclasses.dataclass(frozen=True)
class Side:
    """One of the two programs of a work. `run` runs it once, which fills a file, and returns what it took. `check` raises
    `Wrong` if that file, or what else the run left, isn't what it should be."""
    run: Callable[[pathlib.Path], Spent]
    check: Callable[[pathlib.Path], None]


@dataclasses.dataclass(frozen=True)
class Trial:
    """A work whose inputs are made: their size in the unit of the work, and its two sides. Each is made for the program that
    is measured, since that may be the partner, too, with other words or another input."""
    size: int
    ours: Callable[[pathlib.Path], Side]
    partner: Callable[[pathlib.Path], Side]


@dataclasses.dataclass(frozen=True)
class Work:
    """A work: what is done, in which unit its size is counted, what its partner is, which commands the partner needs, and
    which ours needs, too. A work of a series is one of several sizes of one kind."""
    name: str
    title: str
    group: str
    unit: str
    partner: str
    make: Callable[[Bench], Trial]
    needs: tuple[str, ...] = ()
    client: tuple[str, ...] = ()
    series: str = ""
    is_long: bool = False

    def size_of_series(self):
        """The size that stands at the end of the name, or 0."""
        last = self.name.rpartition("-")[2]
        return int(last) if last.isdigit() else 0

    def lacks(self):
        """The commands that the partner needs and this machine lacks."""
        return [name for name in self.needs if shutil.which(name) is None]

    def lacks_client(self):
        """The commands that ours needs and this machine lacks."""
        return [name for name in self.client if shutil.which(name) is None]


@dataclasses.dataclass(frozen=True)
class Bench:
    """What a work is made with: a folder in memory that is its own, the yardstick if it is given, and whether its inputs are
    small."""
    folder: pathlib.Path
    yardstick: pathlib.Path | None
    is_quick: bool

    def count(self, number, quick):
        """A number, or another one in a quick run."""
        return quick if self.is_quick else number

    def keep(self, name, pieces):
        """A file of the folder that has these pieces."""
        path = self.folder / name
        with open(path, "wb") as out:
            out.writelines(pieces)
        return path


def add(name, title, group, make, partner, unit="bytes", **more):
    """Adds a work to those that are known."""
    if name in WORKS:
        raise ValueError(f"there are two works {name}")
    WORKS[name] = Work(name, title, group, unit, partner, make, **more)
    if WORKS[name].series and not WORKS[name].size_of_series():
        raise ValueError(f"the name {name} lacks a size")


# ---- checks


def first_difference(path, wanted):
    """Where two files differ, with what stands there."""
    with open(path, "rb") as seen, open(wanted, "rb") as right:
        at = 0
        while True:
            one, other = seen.read(1 << 20), right.read(1 << 20)
            if one != other:
                place = len(os.path.commonprefix([one, other]))
                around = slice(max(0, place - 60), place + 60)
                return f"byte {at + place + 1}: {one[around]!r}, not {other[around]!r}"
            at += len(one)


def is_file(wanted):
    """A check that an output has the bytes of a file."""
    def check(path):
        if not filecmp.cmp(path, wanted, shallow=False):
            raise Wrong(f"the output differs at {first_difference(path, wanted)}")
    return check


def has_lines(count):
    """A check that an output has so many lines, more than none."""
    def check(path):
        with open(path, "rb") as out:
            lines = sum(1 for _ in out)
        if lines != count or not count:
            raise Wrong(f"the output has {lines} lines, not {count}")
    return check


def both(*checks):
    """A check that makes all of these."""
    def check(path):
        for each in checks:
            each(path)
    return check


# ---- runs


def by_command(words, check, source=os.devnull, before=None):
    """A side that is a command, which reads a file. What stands before each run isn't measured."""
    def run(out):
        if before:
            before()
        return measure(words, source, out)
    return Side(run, check)


@dataclasses.dataclass(frozen=True)
class Step:
    """A query to a program that is running, whether its reply is waited for with a watch, and whether the reply may have a
    file."""
    query: bytes
    is_timed: bool = False
    has_file: bool = False


def ask_step(talk, step, out):
    """Asks a step, and writes the reply to a file. Returns the seconds from the query to the end of the reply, and those of
    processors, or none if the step isn't timed."""
    used = processor_seconds(talk.process.pid) if step.is_timed else 0
    begun = time.perf_counter()
    head = talk.ask(step.query)
    text = b""
    if step.has_file and head.startswith(b"200 "):
        text = talk.process.stdout.read(int(head[4:]) + 1)
    took = time.perf_counter() - begun
    out.write(head + text)
    return (took, processor_seconds(talk.process.pid) - used) if step.is_timed else (0, 0)


def by_steps(words, fill, steps, check, before=None, times_opening=False):
    """A side that is a program which answers lines. It gets the lines of a file, if there is one, and then the steps, each
    when the one before it is answered. Its seconds are those of the steps that are timed. If the opening is timed, they
    begin with the start of the program."""
    def run(out):
        if before:
            before()
        begun = time.perf_counter()
        talk = Talk(*words)
        pid = talk.process.pid
        with open(out, "wb") as written, open(fill or os.devnull, "rb") as lines:
            for line in lines:
                ask_step(talk, Step(line), written)
            took = [ask_step(talk, step, written) for step in steps]
            seconds, used = map(sum, zip(*took))
            if times_opening:
                seconds, used = time.perf_counter() - begun, processor_seconds(pid)
            spent = Spent(seconds, used, peak(pid))
            rest, status = talk.close()
            written.write(rest)
        if status:
            raise Wrong(f"{words[0]} ended with status {status}")
        return spent
    return Side(run, check)
