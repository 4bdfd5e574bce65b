"""A mirror answers packets as docs/FORMATS.md says, in whatever order they come, and shows what the register published.

A register of some records, relationships and exceptions makes publications, of which each changes some rows. Its copies and
deltas are compared with those that a model makes of what was uploaded. For each seed a mirror gets packets of them in an
order by chance: some twice, some never, some damaged, cut, of a wrong size or of no table. Each reply is compared with that
of a model of the mirror. Each publication that is shown is compared with the register's copies. The seeds are the first ones
with which the model shows at least five publications after the first."""
import collections
import json
import random

from checks.common.inputs import (FORMS, TABLES, accredit, compact, exception, moment, record, relationship,
                                  reply_to_accredit, reply_to_upload, upload, writings)
from checks.common.programs import Talk, run_command
from checks.common.reports import first_difference
from checks.models.mirroring import MOST_PACKETS, Mirror, mirror
from checks.models.sheets import Sheet, delta_to, is_moment, print_sheet, read_sheet, row_of

PUBLICATIONS, QUICK_PUBLICATIONS = 30, 14
HELD, QUICK_HELD = 60, 12
SEEDS, QUICK_SEEDS = 20, 2
# How many publications have to be shown after the first, and how many seeds are tried for each that is taken.
LEAST_MOVES = 5
TRIES = 10
# How far a delta goes at most, the shares of copies and deltas that are sent, and how far these are from their places.
SPAN = 6
COPIES, DELTAS, DISORDER = 0.1, 0.35, 20
# The replies to what isn't a packet of the register, each of which has to come.
REFUSALS = ["400 PATH", "400 TRUNCATED", "404 NOTHING_HELD", "404 NO_ROUTE", "409 NOT_READ", "413 TOO_LONG",
            "507 MIRROR_FULL"]


# ---- the register


class Held:
    """What a register holds by its uploads, all of whose items are accepted: the rows by table and key. Also the keys that
    were touched before each publication and after the one before it, by its number and table."""

    def __init__(self):
        self.rows = {table: {} for table in TABLES}
        self.touched = collections.defaultdict(set)

    def take(self, number, table, fields):
        """Takes an accepted item, before the publication of this number."""
        key, row = row_of(table, fields)
        self.touched[number, table].add(key)
        if "Action" in fields:
            del self.rows[table][key]
        else:
            self.rows[table][key] = row

    def delta(self, after, base):
        numbers = range(base + 1, after.number + 1)
        return delta_to(after, base, set().union(*(self.touched[number, after.table] for number in numbers)))

    def sheet(self, table, number, at):
        """The copy of a table. Annulled relationships aren't in it."""
        rows = {key: row for key, row in sorted(self.rows[table].items()) if not (table == "rr" and "ANNULLED" in row)}
        return Sheet(table, rows, number=number, moment=at)


def change_items(held, number, places, chance):
    """The value of an upload: records with new names, direct parents that end or come back, and exceptions that come and
    go. It is put into what is held."""
    value = {"records": [], "relationships": [], "exceptions": []}
    for place in places:
        value["records"].append(record(place, {"Entity.LegalName": f'Entity "{place}" of {number}, Société ß\\'}))
        if place > 1:
            value["relationships"].append(change_parent(held, place, chance))
        fields = exception(place, {"ExceptionCategory": "ULTIMATE_ACCOUNTING_CONSOLIDATION_PARENT"})
        is_held = row_of("repex", fields)[0] in held.rows["repex"]
        value["exceptions"].append({**fields, "Action": "WITHDRAW"} if is_held and chance.random() < 0.5 else fields)
    for table, items in zip(TABLES, value.values()):
        for item in items:
            held.take(number, table, item)
    return value


def change_parent(held, place, chance):
    """The direct parent of an entity: it is new, is sent again, or ends, and it comes back if it has ended."""
    fields = relationship(place, place // 2, {"Relationship.EndDate": moment(-1)})
    row = held.rows["rr"].get(row_of("rr", fields)[0], ())
    if "PUBLISHED" not in row or chance.random() < 0.3:
        return relationship(place, place // 2)
    return {**fields, "Relationship.RelationshipStatus": "INACTIVE",
            "Registration.RegistrationStatus": chance.choice(["RETIRED", "ANNULLED"])}


class History:
    """A register's publications: its copies by number and table, and the deltas by base, number and table, by the model.
    What the register answered otherwise is in `wrong`."""

    def __init__(self, run, publications, held):
        self.copies, self.deltas, self.wrong, self.compared = {}, {}, [], 0
        self.chance, self.held, self.size = random.Random(run.seed), Held(), held
        self.writings = list(writings(self.chance).values())
        self.register = Talk(run.program, "lines")
        self.entry = self.uploads = 0
        self.expect(accredit(), reply_to_accredit(self.next_entry()))
        for number in range(1, publications + 1):
            self.change(number)
            self.publish(number)
        self.rest = self.register.close()

    def next_entry(self):
        self.entry += 1
        return self.entry

    def expect(self, query, wanted):
        self.same(query[:60], self.register.ask(query), wanted)

    def same(self, what, seen, wanted):
        self.compared += 1
        if seen != wanted:
            self.wrong.append((what, repr(seen)[:200], repr(wanted)[:200]))

    def change(self, number):
        """An upload, whose body is written as one of the clients does. Sometimes there is none."""
        places = range(1, self.size + 1)
        if number > 1:
            places = sorted(self.chance.sample(places, self.chance.randrange(min(8, self.size))))
        if not places:
            return
        value = change_items(self.held, number, places, self.chance)
        self.uploads += 1
        verdicts = ["ACCEPTED"] * sum(map(len, value.values()))
        body = self.chance.choice(self.writings)(value)
        self.expect(upload(self.uploads, body), reply_to_upload(self.next_entry(), self.uploads, verdicts))

    def publish(self, number):
        query = b"PUBLISH %d\n" % number
        status, text = self.register.ask_reply(query) or (0, b"{}")
        at = json.loads(text).get("contentDate", "") if status == 201 else ""
        sheets = {table: self.held.sheet(table, number, at) for table in TABLES}
        counts = {table: len(sheet.rows) for table, sheet in sheets.items()}
        self.same(query, text, compact({"contentDate": at, "entry": self.next_entry(), "publication": number, **counts}))
        self.same("the moment of a publication", is_moment(at), True)
        for table, sheet in sheets.items():
            self.copies[number, table] = sheet
            for form in FORMS:
                self.expect_file(f"COPY {table} {form}\n", sheet, form)
            for base in range(1, number + 1):
                delta = self.held.delta(sheet, base)
                self.deltas[base, number, table] = delta
                self.expect_file(f"DELTA {base} {table} {FORMS[base % 2]}\n", delta, FORMS[base % 2])

    def expect_file(self, query, sheet, form):
        status, text = self.register.ask_reply(query.encode(), True) or (0, b"")
        self.same(query, (status, text), (200, print_sheet(sheet, form)))


# ---- packets


def line_of(sheet, chance, data=None, size=None):
    """The line of a packet and its bytes. After some there is an empty line."""
    data = print_sheet(sheet, "json") if data is None else data
    kind = "DELTA" if sheet.is_delta else "COPY"
    end = b"\n" if size is not None or chance.random() < 0.3 else b""
    return f"{kind} {sheet.table} {len(data) if size is None else size}\n".encode() + data + end


def damaged_bytes(sheet, chance):
    """The bytes of a sheet after a change that leaves no sheet."""
    data = print_sheet(sheet, "json")
    while True:
        at, length = chance.randrange(len(data)), chance.randrange(3)
        piece = chance.choice([b"", b" ", b"\n", b"\xff", b'"', b"0", b"}", b'"LEI":"",', b"\\u0041", b"\r\n"])
        changed = data[:at] + piece + data[at + length:]
        if read_sheet(changed, sheet.table, "json", sheet.is_delta) is None:
            return changed


def refused_lines(sheet, chance):
    """Lines that are refused, or that aren't about packets: each of these for a sheet."""
    data = print_sheet(sheet, "json")
    return [
        line_of(sheet, chance, damaged_bytes(sheet, chance)),
        line_of(sheet, chance, size=len(data) - 1 - chance.randrange(3)),
        line_of(sheet, chance, size=len(data) + 1),
        line_of(sheet, chance, print_sheet(sheet, "csv")),
        f"{'COPY' if sheet.is_delta else 'DELTA'} {chance.choice(TABLES)} {len(data)}\n".encode() + data,
        chance.choice([b"COPY leis 12\n", b"DELTA lei 0\n", b"COPY rr 01\n", b"SHOW\n", b"SHOW lei rr\n", b"SHOW \xff\n"]),
        chance.choice([b"FIND 1 a\n", b"copy lei 12\n", b"\xff lei\n", b"SHOWS lei\r\n"]),
        b"SHOW " + b"x" * 4_092 + b"\n",
    ]


def packets(history, chance):
    """The lines that a mirror gets: the copies of each tenth publication and some others, many deltas, some of these twice,
    and with each tenth of them a line that is refused. They are mostly in order, some far away from their places."""
    sheets = [sheet for (number, _), sheet in history.copies.items() if number % 10 == 1 or chance.random() < COPIES]
    sheets += [sheet for sheet in history.deltas.values()
               if sheet.number - sheet.base < SPAN and (sheet.base == 1 or chance.random() < DELTAS)]
    sheets += chance.sample(sheets, len(sheets) // 4)
    sheets.sort(key=lambda sheet: sheet.number)
    placed = [(at + chance.gauss(0, DISORDER), line_of(sheet, chance)) for at, sheet in enumerate(sheets)]
    for sheet in chance.sample(sheets, max(1, len(sheets) // 10)):
        placed.append((chance.uniform(-1, len(sheets)), chance.choice(refused_lines(sheet, chance))))
    return [line for _, line in sorted(placed)]


def last_line(chance):
    """A line at the end of an input, after which nothing is read as one: of a packet that is cut, or that is too large."""
    words = chance.choice([b"COPY lei 100", b"DELTA rr 536870912", b"COPY repex 536870913", b"DELTA lei 9999999999"])
    return words + chance.choice([b"", b"\n", b"\nSHOW lei\nSHOW rr\n"])


def full_lines(history, chance):
    """Lines that keep as many packets as there is room for, and then one more, a repeated one, one that isn't read, two that
    are no packets, and all that make a publication whole."""
    first = [history.copies[1, table] for table in TABLES]
    waiting = [Sheet("rr", {}, True, True, 100 + at, first[0].moment, 1 + at % 7) for at in range(MOST_PACKETS - 1)]
    lines = [line_of(sheet, chance) for sheet in [*waiting, first[0], first[1], waiting[5], first[2]]]
    lines.append(line_of(waiting[7], chance, damaged_bytes(waiting[7], chance)))
    return [*lines, b"COPY leis 12\n", b"FIND 1 a\n", b"SHOW lei\n"]


def almost_full_lines(history, chance):
    """The same with room for just one packet more, so that the first publication is shown."""
    lines = full_lines(history, chance)
    return [*lines[2:], *(f"SHOW {table}\n".encode() for table in TABLES)]


# ---- a mirror


def with_shows(lines):
    """The lines, and after each with which the model moves on, and at the start, one that asks for each table. Also the
    numbers of the publications that the model shows."""
    model, out, shown = Mirror(), [], []
    shows = [f"SHOW {table}\n".encode() for table in TABLES]
    out += shows
    for line in lines:
        out.append(line)
        list(model.answers(line))
        if model.shown not in [0, *shown[-1:]]:
            shown.append(model.shown)
            out += shows
    return out, shown


def feed(run, what, lines, history):
    """Compares the replies of a mirror that gets these lines with those of the model. Returns how many there are by their
    first words."""
    data = b"".join(lines)
    wanted, status = mirror(data)
    done = run_command(run.program, data, "mirror")
    count, difference = first_difference(wanted, done.stdout)
    run.report.equal(f"{what}: {len(wanted)} replies are those of the model", (difference, done.returncode), ("", status))
    unlike = [reply[:80] for reply in wanted if b"\n{" in reply
              and reply.split(b"\n", 1)[1][:-1] not in history.published]
    run.report.equal(f"{what}: what the model shows was published", unlike, [])
    return collections.Counter("200" if reply.startswith(b"200 ") else reply.decode().strip() for reply in wanted[:count])


def choose_seeds(run, history, count):
    """So many seeds, and for each the lines of its run and the publications that the model shows."""
    chosen = []
    for seed in range(run.seed, run.seed + TRIES * count):
        chance = random.Random(seed)
        lines, shown = with_shows(packets(history, chance))
        if len(shown) > LEAST_MOVES:
            chosen.append((seed, [*lines, last_line(chance)], shown))
        if len(chosen) == count:
            break
    return chosen


def check(run):
    sizes = (QUICK_PUBLICATIONS, QUICK_HELD) if run.is_quick else (PUBLICATIONS, HELD)
    history = History(run, *sizes)
    run.report.equal("the register accepts all items, and publishes what was uploaded", history.wrong[:3], [])
    run.report.equal("and ends with its input", history.rest, (b"", 0))
    run.report.note(f"{history.compared:,} comparisons of the register: {len(history.copies)} copies, {len(history.deltas)} "
                    f"deltas")
    history.published = {print_sheet(sheet, "json") for sheet in history.copies.values()}
    count = QUICK_SEEDS if run.is_quick else SEEDS
    seeds = choose_seeds(run, history, count)
    run.report.equal("seeds with which publications are shown", len(seeds), count)
    kinds = collections.Counter()
    for seed, lines, shown in seeds:
        kinds += feed(run, f"seed {seed}, {len(shown)} publications up to {shown[-1]}", lines, history)
    chance = random.Random(run.seed)
    kinds += feed(run, "no room", full_lines(history, chance) + [b"COPY lei 10\n{"], history)
    kinds += feed(run, "room for one", almost_full_lines(history, chance) + [b"COPY lei 536870913\n{"], history)
    run.report.note("; ".join(f"{kind} {each:,}" for kind, each in sorted(kinds.items())))
    run.report.equal("each refusal came", [kind for kind in REFUSALS if not kinds[kind]], [])
