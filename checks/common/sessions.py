"""The worked examples of crates/worked_examples/data, as scripts read them: the sessions of a file with their runs. The
README there says what the form of a session is. Of a run's lines `refuses`, `fails`, `each fault`, `entry` and `cell`,
scripts know that they are there."""
from __future__ import annotations

import calendar
import collections
import dataclasses
import re
import time

from checks.common.inputs import code
from checks.common.programs import ROOT

DATA = ROOT / "crates" / "worked_examples" / "data"
NAME = re.compile(r"<([^<>]+)>")
BLOCK = re.compile(r"^```(.+)\n((?:.*\n)*?)```$", re.M)
# The kinds of lines with bytes, and the field of a run that has them.
SIGNS = {">": "sent", "+": "second", "<": "expected"}
# The lines of a run that scripts don't do as they say.
LEFT = ("refuses", "fails", "entry", "cell")


@dataclasses.dataclass
class Run:
    """A run of the program: its words, the moments of its clock in seconds, the lines that are sent, those of its second
    file, the bytes that come back, the status, the answers and the rules that are changed in its store before it, by the
    number of the entry, and the lines that scripts don't do."""
    words: list[str]
    moments: list[int] = dataclasses.field(default_factory=list)
    sent: bytes = b""
    expected: bytes = b""
    status: int = 0
    changed: dict[int, str] = dataclasses.field(default_factory=dict)
    rules: dict[int, int] = dataclasses.field(default_factory=dict)
    second: bytes = b""
    left: list[str] = dataclasses.field(default_factory=list)

    def moment(self, place):
        """The moment of the request at a place, counted from 0."""
        return self.moments[min(place, len(self.moments) - 1)] if self.moments else 0


def seconds(text):
    return calendar.timegm(time.strptime(text, "%Y-%m-%dT%H:%M:%SZ"))


def filled(text, known):
    """The text with what its names stand for. A byte above 127 is a surrogate, as in Python's file names."""
    def of(found):
        name, *arguments = found[1].split(" ")
        if name == "byte":
            number = int(arguments[0])
            return chr(number if number < 128 else 0xDC00 + number)
        parameters, meaning = known[name, len(arguments)]
        texts = {(parameter, 0): ([], known[word, 0][1] if (word, 0) in known else word)
                 for parameter, word in zip(parameters, arguments)}
        return filled(meaning, collections.ChainMap(texts, known)) if "<" in meaning else meaning
    return NAME.sub(of, text)


def bytes_of(text, known):
    """The bytes that the text of a line stands for."""
    ends = not text.endswith("\\")
    return (filled(text.removesuffix("\\"), known) + "\n" * ends).encode(errors="surrogateescape")


def repeat_line(rest, known):
    """The sign of a line that stands for several, and their bytes: `each FIRST LAST > TEXT`."""
    first, last, sign, text = rest.split(" ", 3)
    return sign, b"".join(bytes_of(text, collections.ChainMap({
        ("NUMBER", 0): ([], str(number)),
        ("LEI", 0): ([], code(number)),
        ("BEFORE", 0): ([], code(max(0, number - 1))),
    }, known)) for number in range(int(first), int(last) + 1))


def texts_in(lines, known):
    """Adds the texts of these lines, by their names and the numbers of their parameters."""
    for line in lines:
        if "=" in line:
            head, meaning = line.split("=", 1)
            name, *parameters = head.split(" ")
            known[name, len(parameters)] = parameters, meaning


def add_line(runs, line, known):
    """Adds a line of a session to its runs. Returns the sign and the bytes of a line that has bytes."""
    word, _, rest = line.partition(" ")
    if word == "$":
        runs.append(Run(['' if each == '""' else each for each in rest.split(" ")[1:]]))
    elif word == "at":
        runs[-1].moments.append(seconds(rest))
    elif word == "status":
        runs[-1].status = int(rest)
    elif word == "changed":
        entry, answer = rest.split(" ", 1)
        runs[-1].changed[int(entry)] = answer
    elif word == "rules":
        entry, rules = rest.split(" ")
        runs[-1].rules[int(entry)] = int(rules)
    elif word in LEFT or line == "each fault":
        runs[-1].left.append(line)
    elif word in SIGNS or word == "each":
        return add_bytes(runs[-1], *(repeat_line(rest, known) if word == "each" else (word, bytes_of(rest, known))))
    elif word and word != "#":
        raise ValueError(f"not read: {line}")
    return None, b""


def add_bytes(run, sign, data):
    setattr(run, SIGNS[sign], getattr(run, SIGNS[sign]) + data)
    return sign, data


def blocks_of(file):
    """The blocks of a file: the words after the backquotes, the number of the first line inside, from 0 on, and the
    lines."""
    text = (DATA / file).read_text()
    return [(found[1], text.count("\n", 0, found.start(2)), found[2].splitlines()) for found in BLOCK.finditer(text)]


def titles_of(file):
    """The titles of the sessions of a file, in order."""
    return [head.removeprefix("session ") for head, _, _ in blocks_of(file) if head.startswith("session ")]


def files_in_order():
    """The files of the worked examples in the order in which the program reads them."""
    return (DATA.parent / "args").read_text().split()[1:]


def known_texts(file):
    """The texts that are known in a file: its own, and those of the files that the program reads before it."""
    files, known = files_in_order(), {}
    for each in files[:files.index(file) + 1]:
        for head, _, lines in blocks_of(each):
            if head == "texts":
                texts_in(lines, known)
    return known


def runs_of(file, title):
    """The runs of the session of this title in a file of the worked examples, if scripts do all that they say."""
    known, runs = known_texts(file), []
    for head, _, lines in blocks_of(file):
        if head == f"session {title}":
            for line in lines:
                add_line(runs, line, known)
    if not runs:
        raise ValueError(f"{file} has no session {title}")
    for left in (line for run in runs for line in run.left):
        raise ValueError(f"not read: {left}")
    return runs
