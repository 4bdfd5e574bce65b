"""A store is the same register at each start, for one program at a time, whatever its form and its rules are.

A second program on an open store ends with status 5, under another name of the file too, and the first one goes on. A store
of form 1, also beside empty tables of form 2, is moved to form 2 with exactly its cells, whether they fill pages of the move
or not, and also if the program is killed while it moves them. A store that is
closed and opened again, by `lines` or by `serve`, returns records, kept answers, copies and deltas as before. A store with
entries by rules 1 and 2 goes on with rules 3. The usage text names these rules and this form."""
import itertools
import json
import os
import random
import subprocess
import time

from checks import older_store
from checks.common import stores
from checks.common.inputs import (FORMS, ISSUER, ISSUERS, TABLES, accredit, as_it_stands, code, compact, exception, moment,
                                  record, records, relationship, reply_to_accredit, reply_to_upload, upload, writings)
from checks.common.programs import Talk, lines, run_command, take_reply, version
from checks.common.servers import Server
from checks.models.sheets import Sheet, delta_to, print_sheet, row_of
from checks.models.storing import cells_after

CELLS, QUICK_CELLS = 350, 110
MOVED, KILLS = 2_000, 30
# How many cells the moved stores have: a page of the move has 100.
COUNTS, QUICK_COUNTS = (0, 1, 99, 100, 101, 200, 250), (0, 100, 101)
FURTHER = {"": "", " beside the table of the form": stores.FORM_TABLE,
           " beside both tables of form 2": stores.FORM_TABLE + stores.CELL_TABLE}


# ---- one program at a time


def refuse_others(run, store, what):
    """Each further program on an open store ends with status 5, whatever name of the file it takes."""
    link, hard = store.with_name("link.db"), store.with_name("hard.db")
    link.symlink_to(store)
    os.link(store, hard)
    for name in (store, link, hard):
        run.report.equal(f"{what}: `lines` on {name.name} ends with status 5", stores.open_lines(run.program, name),
                         (5, [stores.CANNOT_OPEN], ["KEEPER_FAULT"], 2, b""))
        run.report.equal(f"{what}: `serve` on {name.name} ends with status 5", stores.open_server(run.program, name),
                         (5, ["KEEPER_FAULT"], False, b""))
    for name in (link, hard):
        stores.remove(name)


def uploads_of_one(count):
    """Lines that accredit an issuer and upload records, and the replies to them."""
    bodies = [as_it_stands(records(number, 1)) for number in range(1, count + 1)]
    sent = [accredit(), *(upload(number, body) for number, body in enumerate(bodies, 1))]
    replies = [reply_to_accredit(1), *(reply_to_upload(number + 1, number, ["ACCEPTED"]) for number in range(1, count + 1))]
    return list(zip(sent, replies)), bodies


def kept_of_one(count):
    return [reply_to_upload(number + 1, number, ["ACCEPTED"]) for number in range(1, count + 1)]


def start_second_program(run):
    store, (sent, bodies) = run.folder / "open.db", uploads_of_one(6)
    first = Talk(run.program, "lines", "--store", store)
    for query, reply in sent[:3]:
        run.report.equal("the first program answers", first.ask(query), reply)
    refuse_others(run, store, "beside `lines`")
    for query, reply in sent[3:5]:
        run.report.equal("the first program goes on", first.ask(query), reply)
    run.report.equal("and ends with its input", first.close(), (b"", 0))
    with Server(run.program, "--store", store) as server:
        refuse_others(run, store, "beside `serve`")
        for number in (5, 6):
            reply = server.ask("PUT", f"/v1/issuers/{ISSUER}/uploads/{number}", bodies[number - 1])
            run.report.equal("the server goes on", reply, (200, sent[number][1][4:-1].decode()))
    asked = lines(run.program, b"".join(f"KEPT {ISSUER} {number}\n".encode() for number in range(1, 7)), "--store", store)
    run.report.equal("nothing is lost", (asked.returncode, asked.stdout.splitlines(True)), (0, kept_of_one(6)))


# ---- a register


class Filled:
    """A register of two issuers whose uploads are all accepted: the lines that make it with the replies to them, and the
    values of its uploads by the number of the entry. Bodies are written as clients write them, by turns."""

    def __init__(self, seed, count):
        self.sent, self.uploads, self.numbers = [], {}, dict.fromkeys(ISSUERS[:2], 0)
        self.writings = itertools.cycle(writings(random.Random(seed)).values())
        for issuer in self.numbers:
            self.add(accredit(issuer), reply_to_accredit(len(self.sent) + 1, issuer))
        for first in range(1, count + 1, 50):
            self.take(records(first, min(50, count + 1 - first)), ISSUER)
        self.take(records(count + 1, 5, {"Entity.LegalName": 'Société "Ω" \\ ß'}, ISSUERS[1]), ISSUERS[1])
        self.take({"relationships": [relationship(2, 1), relationship(3, 2)], "exceptions": [exception(1)]}, ISSUER)
        self.publish = len(self.sent)
        self.add(b"PUBLISH 1\n", None)
        withdrawn = exception(1, {"Action": "WITHDRAW"})
        self.take({"records": [record(2, {"Entity.LegalName": "Beta"})], "exceptions": [exception(4), withdrawn]}, ISSUER)
        self.add(b"PUBLISH 2\n", None)
        self.take(records(count + 6, 1, None, ISSUERS[1]), ISSUERS[1])

    def add(self, line, reply):
        self.sent.append((line, reply))

    def take(self, value, issuer):
        self.numbers[issuer] += 1
        entry, number = len(self.sent) + 1, self.numbers[issuer]
        self.uploads[entry] = value
        body = next(self.writings)(value)
        verdicts = ["ACCEPTED"] * sum(map(len, value.values()))
        self.add(upload(number, body, issuer), reply_to_upload(entry, number, verdicts, issuer))

    def shows(self):
        """The lines that ask for each record, and the replies to them."""
        cells = cells_after(self.uploads)
        return [(f"SHOW {name}\n".encode(), b"200 " + row + b"\n") for kind, name, _, row in cells if kind == 1]

    def kept(self):
        """The lines that ask for each kept answer, and the replies to them."""
        asked = [(line.split(b" ", 3)[1:3], reply) for line, reply in self.sent if line.startswith(b"UPLOAD ")]
        return [(b"KEPT %s %s\n" % tuple(words), reply) for words, reply in asked]

    def queries(self):
        """The lines that ask for all that is published, and for the status."""
        copies = [f"COPY {table} {form}\n" for table in TABLES for form in FORMS]
        deltas = [f"DELTA {base} {table} {form}\n" for base in (1, 2) for table in TABLES for form in FORMS]
        return [query.encode() for query in [*copies, *deltas, "DELTA last-day lei csv\n", "STATUS\n"]]


def fill(run, filled, store):
    """Makes the register in a store, and asks it before it is closed. Returns the replies to the queries."""
    sent = b"".join([*(line for line, _ in filled.sent), *filled.queries()])
    done = lines(run.program, sent, "--store", store)
    heads = done.stdout.split(b"\n")[:len(filled.sent)]
    wrong = [(line[:40], head) for (line, reply), head in zip(filled.sent, heads)
             if head + b"\n" != reply and not (reply is None and head.startswith(b"201 "))]
    run.report.equal("all uploads are accepted", (done.returncode, wrong[:3], len(heads)), (0, [], len(filled.sent)))
    return done.stdout.split(b"\n", len(filled.sent))[-1]


def ask_all(run, filled, store, what, before):
    """Compares what the register answers over a store with what it has to, and with what it answered before."""
    asked = [*filled.shows(), *filled.kept()]
    done = lines(run.program, b"".join([*(query for query, _ in asked), *filled.queries()]), "--store", store)
    wanted = b"".join(reply for _, reply in asked)
    shown, rest = done.stdout[:len(wanted)], done.stdout[len(wanted):]
    run.report.equal(f"{what}: records and kept answers are as they were uploaded", (done.returncode, shown), (0, wanted))
    return run.report.equal(f"{what}: copies, deltas and the status are as before", rest, before)


# ---- a store that is opened again


def has_all(queries, replies):
    """Whether each of these queries was answered 200, but for the base that no publication is as old as."""
    at, statuses = 0, []
    for query in queries:
        (status, _), at = take_reply(replies, at, query.startswith((b"COPY", b"DELTA")))
        statuses.append(status)
    return statuses == [200] * (len(queries) - 2) + [404, 200] and at == len(replies)


def open_again(run, filled, store, before):
    run.report.holds("each copy and delta is there", has_all(filled.queries(), before))
    for time_again in ("once", "twice"):
        ask_all(run, filled, store, f"opened {time_again}", before)
    repeated = lines(run.program, b"".join(line for line, _ in filled.sent), "--store", store).stdout.splitlines(True)
    wrong = [(line[:40], reply) for (line, reply), came in zip(filled.sent, repeated) if reply and came != reply]
    run.report.equal("uploads that are sent again get their answers", (wrong, len(repeated)), ([], len(filled.sent)))
    with Server(run.program, "--store", store) as server:
        routes = [query.decode().replace("COPY", "/v1/copies").replace("DELTA", "/v1/deltas").replace("STATUS", "/v1/status")
                  .strip().replace(" ", "/") for query in filled.queries()]
        came = [server.ask("GET", route) for route in routes]
    at, wanted = 0, []
    for query in filled.queries():
        (status, text), at = take_reply(before, at, query.startswith((b"COPY", b"DELTA")))
        wanted.append((status, text.decode()))
    run.report.equal("the same over HTTP", came, wanted)


def compare_version(run, store):
    """The usage text names the version, and of a store that this program made the rules of its entries and its form."""
    told = run_command(run.program, b"", "--version").stderr.decode().splitlines()
    [(form,)], rules = stores.rows(store, "SELECT form FROM store"), stores.entries(store)[-1][5]
    run.report.equal("the usage text names the version, the rules of new entries and the form of a new store", told[2:4],
                     [f"leireg {version()}: new entries have rules {rules}, and a new store has form {form}",
                      "usage: leireg COMMAND"])


# ---- the move from form 1


def move(run, filled, second, before):
    """A store of form 1 is moved with exactly its cells, whichever empty tables of form 2 it has."""
    first, cells, entries = run.folder / "first.db", cells_after(filled.uploads), stores.entries(second)
    for what, tables in FURTHER.items():
        stores.copy(second, first)
        stores.alter(first, stores.BACK)
        run.report.equal("a store of form 1 has the cells", (stores.tables(first), stores.cells(first, "cell")),
                         (["cell", "entry"], cells))
        stores.alter(first, tables)
        ask_all(run, filled, first, f"moved with {len(cells)} cells{what}", before)
        compare_moved(run, f"a store that was moved{what}", first, entries, cells)


def move_counts(run):
    """A move keeps each cell, however many they are."""
    for count in QUICK_COUNTS if run.is_quick else COUNTS:
        store, uploads = run.folder / f"count-{count}.db", {2: records(1, count)} if count else {}
        sent = [accredit(), *(upload(1, compact(value)) for value in uploads.values())]
        replies = [reply_to_accredit(1), *(reply_to_upload(2, 1, ["ACCEPTED"] * count) for _ in uploads)]
        done = lines(run.program, b"".join(sent), "--store", store)
        run.report.equal(f"a store of {count} cells is made", (done.returncode, done.stdout.splitlines(True)), (0, replies))
        entries = stores.entries(store)
        stores.alter(store, stores.BACK)
        opened = stores.open_lines(run.program, store)
        run.report.equal(f"a store of {count} cells is opened", opened[:4], (0, [], [], 0))
        compare_moved(run, f"a store of {count} cells", store, entries, cells_after(uploads))


def compare_moved(run, what, store, entries, cells):
    found = stores.rows(store, "SELECT * FROM store"), stores.cells(store, "cell"), len(stores.cells(store, "cell2"))
    run.report.equal(f"{what} has form 2, no cell of form 1, and the number of cells", found, ([(1, 2)], [], len(cells)))
    same = stores.entries(store) == entries, stores.cells(store) == cells
    run.report.equal(f"{what} has the same entries and cells", same, (True, True))


def kill_in_the_move(run):
    """A store has all its cells in form 1 or in form 2 after a kill at any moment, and the next program moves it."""
    store, first, chance = run.folder / "large.db", run.folder / "large-first.db", random.Random(run.seed)
    filled = Filled(run.seed, MOVED)
    before = fill(run, filled, store)
    stores.copy(store, first)
    stores.alter(first, stores.BACK)
    cells, entries = cells_after(filled.uploads), stores.entries(first)
    begun = time.monotonic()
    stores.copy(first, store)
    stores.open_lines(run.program, store)
    taken, forms, wrong = time.monotonic() - begun, [], []
    for _ in range(KILLS):
        stores.copy(first, store)
        program = subprocess.Popen([run.program, "lines", "--store", store], stdin=subprocess.DEVNULL)
        time.sleep(chance.random() * taken)
        program.kill()
        program.wait()
        form = 2 if "store" in stores.tables(store) and stores.rows(store, "SELECT form FROM store") == [(2,)] else 1
        forms.append(form)
        if stores.cells(store, "cell2" if form == 2 else "cell") != cells or stores.cells(store) != cells:
            wrong.append((form, len(stores.cells(store))))
    run.report.equal("a store whose move was killed has all its cells in one form", (wrong, len(forms)), ([], KILLS))
    run.report.note(f"killed {KILLS} times: {forms.count(1)} stores had form 1, {forms.count(2)} form 2")
    ask_all(run, filled, store, "after the last of them", before)
    compare_moved(run, "a store whose move was killed, opened again,", store, entries, cells)


# ---- rules 1 and 2


def csv(rows, is_wide, touched=None):
    """The copy of these records in CSV, or the delta of those that were touched."""
    sheet = Sheet("lei", dict(sorted(row_of("lei", fields) for fields in rows)), is_wide=is_wide)
    return print_sheet(delta_to(sheet, 1, [(touched,)]) if touched else sheet, "csv")


def answers_of(program, store, queries):
    """The replies to these lines over a store, of which those with files are alone with their texts, and the status."""
    done, at, found = lines(program, b"".join(queries), "--store", store), 0, []
    for query in queries:
        reply, at = take_reply(done.stdout, at, query.startswith((b"COPY", b"DELTA")))
        found.append(reply)
    return found, done.returncode


def go_on_with_rules(run):
    """The entries by rules 1 and 2 stay and are answered as before, and those that are made now have rules 3."""
    store = run.folder / "older.db"
    older_store.main(store)
    old = [older_store.RETIRED, older_store.SECOND, older_store.THIRD]
    new = record(4, {"Entity.Event.1.Type": "MERGER", "Entity.Event.1.RecordedDate": moment(-1),
                     "Entity.Event.1.Status": "IN_PROGRESS"})
    bodies = {entry[3]: entry[6] for entry in older_store.ENTRIES if entry[1] == older_store.UPLOAD}
    kept = {entry[3]: (200, entry[7]) for entry in older_store.ENTRIES if entry[1] == older_store.UPLOAD}
    asked = {b"KEPT %s %d\n" % (ISSUER.encode(), number): reply for number, reply in kept.items()}
    asked |= {upload(number, bodies[number]): kept[number] for number in kept}
    asked |= {upload(2, bodies[2] + b" "): (409, b"NUMBER_TAKEN")}
    before = {**asked, b"COPY lei csv\n": (200, csv(old, False)), b"PUBLISH 1\n": (201, older_store.ENTRIES[-1][7])}
    run.report.equal("entries by rules 1 and 2 are answered as before, and a narrow copy",
                     answers_of(run.program, store, list(before)), (list(before.values()), 0))
    taken = {upload(5, compact({"records": [new]})): (200, older_store.answer(7, 5, "ACCEPTED"))}
    found, status = answers_of(run.program, store, [*taken, b"PUBLISH 2\n"])
    at = json.loads(found[-1][1]).get("contentDate")
    publication = compact({"contentDate": at, "entry": 8, "lei": 4, "publication": 2, "repex": 1, "rr": 1})
    run.report.equal("an event is accepted after them", (found, status), ([*taken.values(), (201, publication)], 0))
    after = {**asked, **taken, b"COPY lei csv\n": (200, csv([*old, new], True)),
             b"DELTA 1 lei csv\n": (200, csv([*old, new], True, code(4)))}
    run.report.equal("and then copies and deltas are wide", answers_of(run.program, store, list(after)),
                     (list(after.values()), 0))
    entries = stores.entries(store)
    run.report.equal("the first entries are the same", entries[:6], older_store.ENTRIES)
    run.report.equal("each entry has its rules", [entry[5] for entry in entries], [1, 1, 1, 2, 2, 2, 3, 3])
    compare_moved(run, "the older store", store, entries, sorted([*older_store.CELLS, (1, code(4), 7, compact(new))]))


def check(run):
    start_second_program(run)
    filled, store = Filled(run.seed, QUICK_CELLS if run.is_quick else CELLS), run.folder / "register.db"
    before = fill(run, filled, store)
    compare_version(run, store)
    move(run, filled, store, before)
    move_counts(run)
    if run.is_quick:
        return
    open_again(run, filled, store, before)
    go_on_with_rules(run)
    kill_in_the_move(run)
