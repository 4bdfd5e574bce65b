"""Each request for memory that is refused leaves the program as docs/TESTED.md says.

Each reply is the one without a refusal or `500 NO_MEMORY`, and what follows is as if the refused line hadn't come; if that
line is sent again, all others are answered as ever. A program that can't go on ends with status 6 after a prefix of its
output, or with status 5 if it couldn't open the file of its store, or only the connection ends.

The sessions are worked examples: a realistic record, its copy, two publications with their copies and deltas, a copy and
its delta by `apply`, a register without items, and a store with a changed answer. Requests over HTTP are beside them. A
session with 200 records has 401 publications, 400 of them without changes; its 100,000th request for memory is refused, and
then its 5,000th. Memory is refused, and the clock set, by a library that is compiled first from refusals.c and preloaded."""
import collections
import contextlib
import mmap
import os
import pathlib
import socket
import sqlite3
import struct
import subprocess

from checks.common.inputs import accredit, answer_to_status, answer_to_upload, compact, record, upload
from checks.common.programs import Talk, compile_c, take_reply
from checks.common.servers import LISTENS, read_all, send_all
from checks.common.sessions import runs_of

NO_MEMORY = (500, b"NO_MEMORY")
FIVE, SIX = 5, 6
# Of the requests for memory a run with a small count refuses the first of so many.
STEP = 40
SESSIONS = [
    ("uploads.md", "A realistic record, and the same upload again"),
    ("publications.md", "A record is published in CSV"),
    ("deltas.md", "What changed between two publications"),
    ("publications.md", "Two publications, and the copies of each"),
    ("publications.md", "Nothing is published, and then nothing is in what is published"),
]
DAMAGED = ("stores.md", "An answer that was changed in the store is told")
REQUESTS = b"GET /v1/status HTTP/1.1\r\n\r\nGET /nothing HTTP/1.1\r\n\r\n"
RESPONSES = [
    b"HTTP/1.1 200 OK\r\ncontent-type: application/json\r\ncontent-length: 101\r\n\r\n" + answer_to_status(),
    b"HTTP/1.1 404 Not Found\r\ncontent-type: text/plain\r\ncontent-length: 8\r\n\r\nNO_ROUTE",
]
REFUSED = b"HTTP/1.1 500 Internal Server Error\r\ncontent-type: text/plain\r\ncontent-length: 9\r\n\r\nNO_MEMORY"
RECORDS, PUBLICATIONS = 200, 401
# 2025-01-11T00:00:00Z, and a moment up to which a record may be renewed then.
DAY, RENEWAL = 1_736_553_600, "2025-12-31T00:00:00Z"


class Board:
    """What the library is given and gives: the moment, how often memory was asked for, and which request is refused."""

    def __init__(self, run):
        self.program, self.report, self.folder = run.program, run.report, run.folder
        self.step = STEP if run.is_quick else 1
        library = compile_c(pathlib.Path(__file__).with_suffix(".c"), run.folder, "-shared", "-fPIC")
        path = run.folder / "board"
        path.write_bytes(bytes(24))
        with open(path, "r+b") as file:
            self.bytes = mmap.mmap(file.fileno(), 24)
        self.around = os.environ | {"BOARD": str(path), "BOARD_PROGRAM": str(run.program), "LD_PRELOAD": str(library)}

    def write(self, at, number):
        self.bytes[8 * at:8 * at + 8] = struct.pack("q", number)

    def refuse(self, refused, moment=0):
        """Sets the board for a start: which request for memory is refused, or none by 0."""
        for at, number in enumerate((moment, 0, refused)):
            self.write(at, number)

    def start(self, words, refused, moment=0, **more):
        """The program with these words."""
        self.refuse(refused, moment)
        return subprocess.Popen([self.program, *words], env=self.around, **more)

    @property
    def asked(self):
        return struct.unpack("q", self.bytes[8:16])[0]

    def report_outcomes(self, what, asked, outcomes, wrong):
        """Reports what came of the refusals of a session."""
        seen = ", ".join(f"{count} {outcome}" for outcome, count in sorted(outcomes.items()))
        self.report.note(f"{what}: {asked} requests for memory; refused in turn, {seen}")
        self.report.equal(what, wrong, [])
        self.report.holds(f"{what}: some memory is refused", asked > 0 and outcomes, asked)


# ---- lines


def has_file(line):
    return line.startswith((b"COPY", b"DELTA"))


def lines_of(run):
    """The lines of a run, each with the moment of its request."""
    return [(line, run.moment(place)) for place, line in enumerate(run.sent.splitlines())]


def replies_of(run):
    replies, at = [], 0
    for line in run.sent.splitlines():
        reply, at = take_reply(run.expected, at, has_file(line))
        replies.append(reply)
    if at != len(run.expected):
        raise ValueError(f"replies without a line: {run.expected[at:]}")
    return replies


class Session:
    """What a program is sent, line by line, and what it answers before it ends."""

    def __init__(self, board, lines, refused=0, again=False):
        board.refuse(refused)
        talk = Talk(board.program, "lines", env=board.around, stderr=subprocess.DEVNULL)
        self.replies = []
        for line, moment in lines:
            board.write(0, moment)
            reply = talk.ask_reply(line + b"\n", has_file(line))
            if again and reply == NO_MEMORY:
                reply = talk.ask_reply(line + b"\n", has_file(line))
            if reply is None:
                break
            self.replies.append(reply)
        rest, self.status = talk.close()
        self.asked = board.asked
        self.replies += [rest] * (rest != b"")


class Refusals:
    """The refusals of one session, each of which is compared with the session without its line."""

    def __init__(self, board, lines):
        self.board, self.lines = board, lines
        self.whole = Session(board, lines)
        self.without = {}

    def replies_without(self, place):
        if place not in self.without:
            self.without[place] = Session(self.board, self.lines[:place] + self.lines[place + 1:]).replies
        return self.without[place]

    def outcome(self, refused):
        """What came of a refusal, or nothing where it is wrong."""
        came = Session(self.board, self.lines, refused)
        if came.status == SIX:
            return "end the program" if came.replies == self.whole.replies[:len(came.replies)] else None
        if came.status == 0 and came.replies == self.whole.replies:
            return "change nothing"
        if came.status or NO_MEMORY not in came.replies:
            return None
        place = came.replies.index(NO_MEMORY)
        if came.replies[:place] + came.replies[place + 1:] != self.replies_without(place):
            return None
        again = Session(self.board, self.lines, refused, again=True)
        return "are answered NO_MEMORY" if (again.status, again.replies) == (0, self.whole.replies) else None


def check_session(board, file, title):
    for run in runs_of(file, title):
        refusals = Refusals(board, lines_of(run))
        asked = refusals.whole.asked
        board.report.equal(f"{title}: no refusal", (refusals.whole.status, refusals.whole.replies), (0, replies_of(run)))
        outcomes = collections.Counter(refusals.outcome(refused) for refused in range(1, asked + 1, board.step))
        wrong = [f"{outcomes.pop(None)} of them"] if None in outcomes else []
        board.report_outcomes(title, asked, outcomes, wrong)


# ---- what is run at once


def outcomes_at_once(board, words, output, status, what, has_store=False):
    """Runs words with each request for memory refused. Either all is as ever, or the program ends with status 6 after a
    prefix of its output, or with status 5 before any, if the file of its store couldn't be opened."""
    def run(refused):
        process = board.start(words, refused, stdin=subprocess.DEVNULL, stdout=subprocess.PIPE, stderr=subprocess.DEVNULL)
        return process.communicate()[0], process.returncode

    board.report.equal(f"{what}: no refusal", run(0), (output, status))
    asked, outcomes, wrong = board.asked, collections.Counter(), []
    for refused in range(1, asked + 1, board.step):
        came = run(refused)
        if came == (output, status):
            outcomes["change nothing"] += 1
        elif came[1] == SIX and output.startswith(came[0]):
            outcomes["end the program"] += 1
        elif has_store and came == (b"", FIVE):
            outcomes["leave the store unopened"] += 1
        else:
            wrong.append((refused, came))
    board.report_outcomes(what, asked, outcomes, wrong[:3])


def check_damaged_store(board):
    """The change of an answer in a store is reported, or the program ends with status 6."""
    first, second = runs_of(*DAMAGED)
    store = board.folder / "register.db"
    board.start(["lines", "--store", store], 0, first.moment(0), stdin=subprocess.PIPE,
                stdout=subprocess.DEVNULL).communicate(first.sent)
    with contextlib.closing(sqlite3.connect(store)) as database:
        for entry, answer in second.changed.items():
            database.execute("UPDATE entry SET answer = ? WHERE seq = ?", (answer.encode(), entry))
        for entry, rules in second.rules.items():
            database.execute("UPDATE entry SET rules = ? WHERE seq = ?", (rules, entry))
        database.commit()
    outcomes_at_once(board, ["lines", "--store", store], second.expected, second.status, DAMAGED[1], has_store=True)


def check_patched_copy(board):
    """The copy of a first publication, patched by the delta to the second, by the texts of the session of both."""
    texts = {}
    for run in (runs_of(*SESSIONS[3])[0], runs_of(*SESSIONS[2])[0]):
        for (line, _), reply in zip(lines_of(run), replies_of(run)):
            texts.setdefault(line, []).append(reply[1])
    copies, change = texts[b"COPY repex json"], texts[b"DELTA 1 repex json"][-1]
    (board.folder / "copy").write_bytes(copies[0])
    (board.folder / "delta").write_bytes(change)
    words = ["apply", "repex", "json", board.folder / "copy", board.folder / "delta"]
    outcomes_at_once(board, words, copies[-1], 0, "a copy and its delta by apply")


# ---- HTTP


def responses_of(port):
    """What comes back for the requests, to the end of the connection."""
    with socket.create_connection(("127.0.0.1", port), 20) as peer:
        send_all(peer, REQUESTS, ends=True)
        return read_all(peer)


def served(board, refused):
    """What two connections are sent, one after the other, by a server that ends after them, and its status."""
    process = board.start(["serve", "--port", "0", "--workers", "1", "--connections", "2"], refused, stderr=subprocess.PIPE,
                          text=True)
    came, line = [], process.stderr.readline()
    if line.startswith(LISTENS):
        port = int(line.removeprefix(LISTENS))
        came = [responses_of(port), responses_of(port)]
    process.stderr.read()
    return came, process.wait(20)


def outcome_over_http(came, status):
    """What came of a refusal, or nothing where it is wrong."""
    if not came:
        return "end the server before it listens" if status == SIX else None
    changed = [part for part in came if part != b"".join(RESPONSES)]
    if status or len(changed) > 1:
        return None
    if not changed:
        return "change nothing"
    if changed[0] in (REFUSED + RESPONSES[1], RESPONSES[0] + REFUSED):
        return "are answered NO_MEMORY"
    return "end their connection" if changed[0] in (b"", RESPONSES[0]) else None


def check_http(board):
    board.report.equal("over HTTP: no refusal", served(board, 0), ([b"".join(RESPONSES)] * 2, 0))
    asked, outcomes, wrong = board.asked, collections.Counter(), []
    for refused in range(1, asked + 1, board.step):
        came = served(board, refused)
        outcome = outcome_over_http(*came)
        if outcome:
            outcomes[outcome] += 1
        else:
            wrong.append((refused, came))
    board.report_outcomes("two connections over HTTP", asked, outcomes, wrong[:3])


# ---- publications without changes


def publications():
    """The lines that fill a register with records and publish it, 400 times without changes, on one day."""
    records = [record(number, {"Registration.NextRenewalDate": RENEWAL}) for number in range(1_000, 1_000 + RECORDS)]
    lines = [accredit(), upload(1, compact({"records": records})),
             *(f"PUBLISH {number}\n".encode() for number in range(1, PUBLICATIONS + 1))]
    return [(line.rstrip(b"\n"), DAY) for line in lines]


def check_publications(board):
    lines = publications()
    whole = Session(board, lines)
    board.report.note(f"{RECORDS} records and {PUBLICATIONS} publications: {whole.asked:,} requests for memory")
    board.report.holds("they are fewer than 8,000", 0 < whole.asked < 8_000, whole.asked)
    board.report.equal("all records are accepted", whole.replies[1:2],
                       [(200, answer_to_upload(2, 1, ["ACCEPTED"] * RECORDS))])
    board.report.equal("all lines are answered", (whole.status, [status for status, _ in whole.replies]),
                       (0, [200, 200] + [201] * PUBLICATIONS))
    late = Session(board, lines, 100_000)
    board.report.equal("and the same if the 100,000th is refused", late.replies == whole.replies, True)
    early = Session(board, lines, 5_000)
    place = early.replies.index(NO_MEMORY)
    ahead = [(409, f"NUMBER_AHEAD {place - 1}".encode())] * (len(lines) - place - 1)
    board.report.equal("if the 5,000th is refused, its publication is not made, and those after it are ahead",
                       early.replies == whole.replies[:place] + [NO_MEMORY] + ahead, True)


def check(run):
    board = Board(run)
    for file, title in SESSIONS[:1] if run.is_quick else SESSIONS:
        check_session(board, file, title)
    check_damaged_store(board)
    check_patched_copy(board)
    check_http(board)
    if not run.is_quick:
        check_publications(board)
