"""The replies of crates/worked_examples/data/search.md, groups.md and mirror.md are those that plain models work out from
docs/FORMATS.md, byte for byte. No program takes part.

A run of another command is left out, and so is one with a fault. `checks/tables --write` writes the files anew: a line that
stands for what the model works out stays as it is written, and any other is replaced."""
import dataclasses
import re
import sys
import unicodedata

from checks.common import sessions
from checks.common.reports import first_difference
from checks.models.grouping import group
from checks.models.mirroring import mirror
from checks.models.searching import is_known, search
from checks.models.sheets import read_sheet

# Each file, and the least number of replies that have to be compared in it.
FILES = {"search.md": 150, "groups.md": 4_000, "mirror.md": 300}
# What each command of these files comes to: its replies and its status.
MODELS = {
    "search": lambda run: search(run.words[1], run.second, run.sent),
    "group": lambda run: group(run.words[1], run.words[2], run.sent, run.second),
    "mirror": lambda run: mirror(run.sent),
}


@dataclasses.dataclass
class Block:
    """A session of a file: its title and place, its runs, and the lines of each. A line is its text and, if it stands for
    bytes that must come back, these bytes."""
    title: str
    at: int
    runs: list = dataclasses.field(default_factory=list)
    lines: list = dataclasses.field(default_factory=list)


def blocks_in(file, known):
    """The sessions of a file."""
    for head, at, lines in sessions.blocks_of(file):
        if head.startswith("session "):
            block = Block(head.removeprefix("session "), at)
            for line in lines:
                sign, data = sessions.add_line(block.runs, line, known)
                if len(block.lines) < len(block.runs):
                    block.lines.append([])
                block.lines[-1].append((line, data if sign == "<" else b""))
            yield block


def work_out(run):
    """The replies and the status of a run by its model, or None if it has none."""
    model = MODELS.get(run.words[0])
    return model(run) if model and not run.left else None


# ---- comparison


def compare(file, known):
    """How many replies are the same, the places that differ, and the runs that were left out."""
    same, places, left = 0, [], []
    for block in blocks_in(file, known):
        for number, run in enumerate(block.runs, 1):
            where = f"{file}, line {block.at}, {block.title!r}, run {number}"
            came = work_out(run)
            if came is None:
                left.append(where)
                continue
            count, difference = first_difference(came[0], run.expected)
            same += count
            if difference or came[1] != run.status:
                places.append(f"{where}: {difference or f'the status is {came[1]}, not {run.status}'}")
    return same, places, left


def unknown_names(file, known):
    """The names and queries of searches whose characters have no meaning in this version of Unicode."""
    found = []
    for block in blocks_in(file, known):
        for run in block.runs:
            copy = read_sheet(run.second, "lei", run.words[1]) if run.words[0] == "search" else None
            names = [row[1] for row in copy.rows.values()] if copy else []
            found += [text for text in [*names, run.sent.decode(errors="replace")] if not is_known(text)]
    return found


# ---- writing


def line_for(data, names):
    """The text of a line for these bytes, with names for characters that can't be seen."""
    text = data.removesuffix(b"\n").decode(errors="surrogateescape").replace("<", "<byte 60>")
    text = re.sub(r"[\0-\x1f\x7f-\x9f\udc80-\udcff]|\\$", lambda found: f"<byte {ord(found[0]) & 0xFF}>", text)
    for meaning, name in names:
        text = text.replace(meaning, f"<{name}>")
    return f"< {text}" + "\\" * (not data.endswith(b"\n"))


def invisible_names(file, known):
    """The texts that a file defines by their bytes alone, the longest first."""
    lines = [line for head, _, lines in sessions.blocks_of(file) if head == "texts" for line in lines]
    found = [re.fullmatch(r"([a-z-]+)=(<byte \d+>)+", line) for line in lines]
    names = [each[1] for each in found if each]
    meanings = [(sessions.bytes_of(f"<{name}>\\", known).decode(), name) for name in names]
    return sorted(meanings, key=lambda each: -len(each[0]))


def units_of(lines):
    """The lines of a run, cut after each whose bytes end a line, and with lines without bytes alone."""
    units = []
    for line, data in lines:
        if data and units and units[-1][-1][1] and not units[-1][-1][1].endswith(b"\n"):
            units[-1].append((line, data))
        else:
            units.append([(line, data)])
    return units


def lines_anew(lines, replies, status, names):
    """The lines of a run with these replies and this status. Remarks at its end are on the run after it."""
    out, left = [], b"".join(replies).splitlines(keepends=True)
    size = max(at for at, (line, _) in enumerate(lines, 1) if not line.startswith("#"))
    for unit in units_of(lines[:size]):
        data = b"".join(data for _, data in unit)
        count = data.count(b"\n") + (data != b"" and not data.endswith(b"\n"))
        came, left = left[:count], left[count:]
        if b"".join(came) == data:
            out += [line for line, _ in unit if not line.startswith("status ")]
        else:
            out += [line_for(each, names) for each in came]
    out += [line_for(each, names) for each in left] + [f"status {status}"] * (status != 0)
    return out + [line for line, _ in lines[size:]]


def write(file, known):
    """Writes a file anew."""
    path, names = sessions.DATA / file, invisible_names(file, known)
    text = path.read_text().splitlines()
    for block in reversed(list(blocks_in(file, known))):
        lines = []
        for run, old in zip(block.runs, block.lines):
            came = work_out(run)
            lines += lines_anew(old, *came, names) if came else [line for line, _ in old]
        text[block.at:block.at + sum(map(len, block.lines))] = lines
    path.write_text("\n".join(text) + "\n")


# ---- the command and the check


def main(words):
    if words not in ([], ["--write"]):
        sys.exit("usage: checks/tables [--write]")
    bad = 0
    for file, fewest in FILES.items():
        known = sessions.known_texts(file)
        same, places, left = compare(file, known)
        print(f"{file}: {same} replies are as they are worked out, {len(places)} runs differ, {len(left)} were left out")
        for place in places:
            print(f"  differs: {place}")
        for place in left:
            print(f"  left out: {place}")
        bad += len(places) + (same < fewest)
        if same < fewest:
            print(f"  {fewest} replies should be compared at least")
        if words:
            write(file, known)
    return int(bad > 0)


def check(run):
    for file, fewest in FILES.items():
        known = sessions.known_texts(file)
        same, places, left = compare(file, known)
        run.report.equal(f"the replies of {file} are as they are worked out", places, [])
        run.report.holds(f"at least {fewest:,} replies of {file} were compared", same >= fewest, same)
        run.report.note(f"{same:,} replies of {file}" + "".join(f"; left out: {place}" for place in left))
    run.report.equal("each character of a search has a meaning in this version of Unicode, so later ones do the same",
                     unknown_names("search.md", sessions.known_texts("search.md")), [])
    run.report.note(f"Unicode {unicodedata.unidata_version} of Python")
