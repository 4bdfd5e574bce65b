"""Works that show how time and memory grow with what the register holds: uploads, publications, the ledger, relationships
in chains, and walks to successors."""
import itertools

from bench import stores
from bench.inputs import (FIRST, RECORDS, accreditations, bodies, chain_links, csv_line, keep_session, named,
                          rejected_uploads, retired, session, status_after)
from bench.tools import yardstick
from bench.trials import Step, Trial, Wrong, add, by_command, by_steps, is_file
from bench.works.uploads import YARDSTICK, beside_yardstick
from checks.common.inputs import RECORD_NAMES, code, compact, csv_row, record, reply_to_upload, upload
from checks.common.programs import lines as run_lines
from checks.common.stores import alter, copy

SIZES = (35_200, 140_800, 499_200)
PUBLISHED = (1_000, 101_200, 499_200)
ISSUERS = (25_000, 50_000, 100_000)
PUBLICATIONS = 20
CHAIN, LINKED = 200, 5_000
GROUP, SUCCEEDED = 200, 3_800


def uploads_to(count):
    def make(bench):
        trial = beside_yardstick(bench, session(bodies(bench.count(count, 200), bench.count(RECORDS, 50))))
        return Trial(bench.count(count, 200), trial.ours, trial.partner)
    return make


# ---- publications


def publication(number, entry, rows, links=0):
    """The line of a publication of so many records and relationships, and its reply with `now` for its moment."""
    reply = f'201 {{"contentDate":"now","entry":{entry},"lei":{rows},"publication":{number},"repex":0,"rr":{links}}}\n'
    return f"PUBLISH {number}\n".encode(), reply.encode()


def without_moments(check):
    """A check of an output whose moments are replaced by the word `now`."""
    def checked(path):
        plain = path.with_suffix(".plain")
        with open(path, "rb") as out, open(plain, "wb") as written:
            for line in out:
                if line.startswith(b'201 {"contentDate":"'):
                    line = line[:20] + b"now" + line[40:]
                written.write(line)
        check(plain)
        plain.unlink()
    return checked


def publishing(number, entry, rows, is_timed=True):
    """A publication as a step, and its reply without the moment."""
    line, reply = publication(number, entry, rows)
    return Step(line, is_timed), reply


def publications(count, first_is_timed, changes, asks=()):
    """A work of publications over so many records: the first one of all, or later ones, each of one change."""
    def make(bench):
        rows, later = bench.count(count, 100), bench.count(changes, min(changes, 3))
        each = bench.count(RECORDS, 50)
        lines, replies = keep_session(bench, session(bodies(rows, each)))
        number = -(-rows // each)
        steps = [publishing(1, number + 2, rows, first_is_timed)]
        for turn in range(later):
            place = turn * (rows - 1) // max(1, later - 1)
            body = compact({"records": [named(FIRST + place, "Beta")]})
            entry = number + 3 + 2 * turn
            steps.append((Step(upload(number + 1 + turn, body)), reply_to_upload(entry, number + 1 + turn, ["ACCEPTED"])))
            steps.append(publishing(2 + turn, entry + 1, rows, is_timed=turn > 0))
        steps += (each for make_step in asks for each in make_step(bench, rows))
        wanted = bench.keep("wanted", itertools.chain(replies.open("rb"), (reply for _, reply in steps)))
        timed = sum(step.is_timed for step, _ in steps)

        def side(program):
            return by_steps([program, "lines"], lines, [step for step, _ in steps], without_moments(is_file(wanted)))
        return Trial(timed * (rows if first_is_timed or asks else 1), side, lambda _: side(yardstick(bench)))
    return make


def copies_in_csv(bench, rows):
    """Ten golden copies, each with its reply."""
    text = csv_line(RECORD_NAMES).encode()
    text += b"".join(csv_row(RECORD_NAMES, record(FIRST + place)).encode() for place in range(rows))
    reply = b"200 %d\n" % len(text) + text + b"\n"
    return [(Step(b"COPY lei csv\n", is_timed=True, has_file=True), reply)] * bench.count(10, 2)


def first_wide(bench):
    """The first publication after a store is opened whose entries have rules 2, which is the first wide one, beside one over
    the same store with entries by rules 3. One record changed before it."""
    rows, each = bench.count(101_200, 100), bench.count(RECORDS, 50)
    number = -(-rows // each)
    line, _ = publication(1, number + 2, rows)
    lines, replies = keep_session(bench, session(bodies(rows, each)))
    body = compact({"records": [named(FIRST, "Beta")]})
    steps = [Step(upload(number + 1, body)), Step(b"PUBLISH 2\n", is_timed=True)]
    wanted = bench.keep("later", [reply_to_upload(number + 3, number + 1, ["ACCEPTED"]),
                                  publishing(2, number + 4, rows)[1]])

    def side(program, rules):
        original = stores.make(bench, program, lines, replies)
        published = run_lines(program, line, "--store", original).stdout
        if not published.startswith(b"201 "):
            raise Wrong(f"the first publication isn't made: {published[:200]!r}")
        alter(original, f"UPDATE entry SET rules = {rules};")
        store = original.with_suffix(".copy")
        return by_steps([program, "lines", "--store", store], None, steps, without_moments(is_file(wanted)),
                        before=lambda: copy(original, store))
    return Trial(1, lambda program: side(program, 2), lambda program: side(program, 3))


# ---- the ledger


def ledger(count):
    """Accreditations, and an upload of each issuer, whose one item is rejected."""
    def make(bench):
        issuers = bench.count(count, 50)
        trial = beside_yardstick(bench, itertools.chain(accreditations(issuers), rejected_uploads(issuers, issuers)))
        return Trial(2 * issuers, trial.ours, trial.partner)
    return make


def kept(bench):
    """The same, and each answer asked for eight times."""
    issuers = bench.count(100_000, 50)
    first = list(itertools.chain(accreditations(issuers), rejected_uploads(issuers, issuers)))
    asked = [(f"KEPT {code(place + 1)} 1\n".encode(), first[issuers + place][1]) for place in range(issuers)] * 8
    lines, wanted = keep_session(bench, first + asked)
    by_wc = bench.keep("counted", [b"%d\n" % (len(first) + len(asked))])
    return Trial(
        lines.stat().st_size,
        lambda program: by_command([program, "lines"], is_file(wanted), lines),
        lambda _: by_command(["wc", "-l"], is_file(by_wc), lines))


# ---- relationships and successors


def held_session(bench, records):
    """Lines that put these records, in two uploads, with their replies."""
    half = (len(records) + 1) // 2
    return list(session((compact({"records": part}), len(part)) for part in (records[:half], records[half:])))


def last_upload(bench, before, bodies_of):
    """A trial of uploads after some lines, of which the last one is timed, beside the yardstick. An upload is a kind of item
    and its items, which are all accepted."""
    lines, replies = keep_session(bench, before)
    pairs = []
    for place, (kind, items) in enumerate(bodies_of):
        entry, number = len(before) + 1 + place, len(before) + place
        pairs.append((upload(number, compact({kind: items})), reply_to_upload(entry, number, ["ACCEPTED"] * len(items))))
    steps = [Step(line, is_timed=place == len(pairs)) for place, (line, _) in enumerate(pairs, 1)]
    wanted = bench.keep("wanted", itertools.chain(replies.open("rb"), (reply for _, reply in pairs)))

    def side(program):
        return by_steps([program, "lines"], lines, steps, is_file(wanted))
    return Trial(len(bodies_of[-1][1]), side, lambda _: side(yardstick(bench)))


def relationships(is_known):
    """Direct parents in chains of 200. They come from the upper ends, when each walk follows what the same upload added, or,
    if the register has them already, from the lower ends."""
    def make(bench):
        count = bench.count(LINKED, 40)
        links = chain_links(count, bench.count(CHAIN, 10))
        before = held_session(bench, [record(number) for number in range(count + 1)])
        uploads = [links, links[::-1]] if is_known else [links]
        return last_upload(bench, before, [("relationships", each) for each in uploads])
    return make


def successor_records(bench, most):
    return [retired(number, most, bench.count(GROUP, 10)) for number in range(bench.count(SUCCEEDED, 40))]


def successors(most):
    """Retired records that name at most so many of those before them in their groups of 200."""
    def make(bench):
        before = held_session(bench, [record(number) for number in range(bench.count(SUCCEEDED, 40))])
        return last_upload(bench, before, [("records", successor_records(bench, most))])
    return make


def replayed(most):
    """A store with such an upload is opened, beside one whose records name one successor, by rules 1."""
    def make(bench):
        count = bench.count(SUCCEEDED, 40)
        first = held_session(bench, [record(number) for number in range(count)])

        def side(program, named_at_most, rules):
            body = compact({"records": successor_records(bench, named_at_most)})
            pairs = [*first, (upload(3, body), reply_to_upload(4, 3, ["ACCEPTED"] * count))]
            lines, replies = keep_session(bench, pairs, f"at-most-{named_at_most}")
            store = stores.make(bench, program, lines, replies)
            alter(store, f"UPDATE entry SET rules = {rules};")
            size = sum(len(line.split(b" ", 3)[3]) - 1 for line, _ in pairs[1:])
            return stores.opening(bench, program, store, status_after(4, size, count))
        return Trial(count, lambda program: side(program, most, 3), lambda program: side(program, 1, 1))
    return make


for size in SIZES:
    add(f"uploads-to-{size}", f"uploads of 4,400 new records up to {size:,}", "growth", uploads_to(size), unit="records",
        series="uploads of new records", **YARDSTICK)
for size in PUBLISHED:
    add(f"publications-{size}", f"19 publications of one change each among {size:,}", "growth",
        publications(size, False, PUBLICATIONS), unit="publications", series="publications of one change", **YARDSTICK)
add("publication-101200", "the first publication of 101,200 records", "growth", publications(101_200, True, 0),
    unit="records", series="a publication of all", **YARDSTICK)
add("publication-copy", "ten golden copies of 101,200 records in CSV, in lines", "growth",
    publications(101_200, False, 0, [copies_in_csv]), unit="records", **YARDSTICK)
add("publication-wide", "the first wide publication after a store of rules 2 is opened, 101,200 records", "growth",
    first_wide, "the same by rules 3", unit="publications")
for size in ISSUERS:
    add(f"ledger-{size}", f"{size:,} accreditations, and an upload of each issuer", "growth", ledger(size), unit="entries",
        series="accreditations and uploads", **YARDSTICK)
add("kept", "100,000 accreditations, an upload of each issuer, and 800,000 KEPT", "growth", kept, "wc -l", needs=("wc",))
add("relationships-upper", "5,000 direct parents in chains of 200, from the upper ends", "growth", relationships(False),
    unit="items", **YARDSTICK)
add("relationships-lower", "5,000 direct parents in chains of 200, once more, from the lower ends", "growth",
    relationships(True), unit="items", **YARDSTICK)
for most in (1, 5):
    add(f"successors-{most}", f"3,800 retired records with at most {most} successors", "growth", successors(most),
        unit="items", **YARDSTICK)
    add(f"successors-{most}-replayed", f"opening a store of 3,800 records with at most {most} successors, by rules 3",
        "growth", replayed(most), "one successor at most, by rules 1", unit="items")
