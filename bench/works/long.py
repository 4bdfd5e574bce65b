"""Works that are run only by their names or by `--long`: the largest registers and stores, and what becomes of time and
memory there."""
import itertools

from bench import stores
from bench.inputs import accreditations, keep_session, named, rejected_uploads, status_after
from bench.tools import yardstick
from bench.trials import Side, Trial, add, by_command, is_file
from bench.works.growth import publication, publications, without_moments
from bench.works.store import with_status
from bench.works.uploads import YARDSTICK
from checks.common.inputs import (ISSUERS, RECORD_NAMES, RELATIONSHIP_NAMES, accredit, code, compact, csv_line, csv_row,
                                  relationship, reply_to_accredit, reply_to_upload, upload)
from checks.common.programs import Spent

PART = 4
BLOCK = 100


# ---- stores of many entries


def entries(count):
    """Accreditations, and an upload of each issuer: so many entries in all, with their replies."""
    return itertools.chain(accreditations(count // 2), rejected_uploads(count // 2, count // 2))


def status_of(count):
    size = sum(len(line.split(b" ", 3)[3]) - 1 for line, _ in rejected_uploads(1, 0))
    return status_after(count, count // 2 * size, 0, issuers=count // 2)


def made_store(bench, program, count):
    """A side that opens a store of so many entries."""
    lines, wanted = keep_session(bench, entries(count), f"entries-{count}")
    store = stores.make(bench, program, lines, wanted)
    lines.unlink()
    return stores.opening(bench, program, store, status_of(count))


def times(side, factor):
    """A side whose time counts so many times."""
    def run(out):
        spent = side.run(out)
        return Spent(spent.seconds * factor, spent.processors * factor, spent.memory)
    return Side(run, side.check)


def whole_store(bench):
    count = bench.count(1_000_000, 40)
    return Trial(count, lambda program: made_store(bench, program, count),
                 lambda program: times(made_store(bench, program, count // PART), PART))


def part_of_store(bench):
    count = bench.count(1_000_000, 40) // PART
    lines, wanted = keep_session(bench, entries(count))
    asked, replies = with_status(bench, lines, wanted, status_of(count))
    return Trial(count, lambda program: made_store(bench, program, count),
                 lambda program: by_command([program, "lines"], is_file(replies), asked))


# ---- the requests of `demo`, for more records than it takes


def block_numbers(count):
    """The numbers of each block, and its issuer."""
    for place, first in enumerate(range(1, count + 1, BLOCK)):
        yield range(first, min(first + BLOCK, count + 1)), ISSUERS[place % 2]


def demo_record(number, issuer):
    authority = str(number - (number % 10 == 0))
    return named(number, f"Entity {number}", issuer, authority)


def verdict_of_record(number):
    return f"C19 AUTHORITY_KEY_TAKEN {code(number - 1)}" if number % 10 == 0 else "ACCEPTED"


def verdict_of_link(number):
    if number % 10 == 0:
        return "C32 START_UNKNOWN"
    return "C33 END_UNKNOWN" if number // 2 % 10 == 0 else "ACCEPTED"


def demo_uploads(count):
    """The uploads of records and those of relationships: issuer, body and verdicts."""
    of_records, of_links = [], []
    for numbers, issuer in block_numbers(count):
        made = [demo_record(number, issuer) for number in numbers]
        of_records.append((issuer, compact({"records": made}), [verdict_of_record(number) for number in numbers]))
        linked = [number for number in numbers if number > 1]
        made = [relationship(number, number // 2, issuer=issuer) for number in linked]
        of_links.append((issuer, compact({"relationships": made}), [verdict_of_link(number) for number in linked]))
    return of_records, of_links


def copy_of(names, rows):
    text = csv_line(names).encode() + b"".join(csv_row(names, row).encode() for row in rows)
    return b"200 %d\n" % len(text) + text + b"\n"


def held_records(count):
    return (demo_record(number, issuer) for numbers, issuer in block_numbers(count) for number in numbers if number % 10)


def demo_session(count):
    """The lines of the requests of `demo`, but for its deltas, with their replies without moments."""
    entry, numbers, first = itertools.count(1), dict.fromkeys(ISSUERS[:2], 0), []
    of_records, of_links = demo_uploads(count)
    rows = count - count // 10
    links = sum(verdicts.count("ACCEPTED") for _, _, verdicts in of_links)
    for issuer in ISSUERS[:2]:
        yield accredit(issuer), reply_to_accredit(next(entry), issuer)
    for number, (uploads, held) in enumerate(((of_records, 0), (of_links, links)), 1):
        for issuer, body, verdicts in uploads:
            numbers[issuer] += 1
            pair = (upload(numbers[issuer], body, issuer),
                    reply_to_upload(next(entry), numbers[issuer], verdicts, issuer))
            first += [pair] if uploads is of_records else []
            yield pair
        yield publication(number, next(entry), rows, held)
        if uploads is of_records:
            yield b"COPY lei csv\n", copy_of(RECORD_NAMES, held_records(count))
            yield b"COPY rr csv\n", copy_of(RELATIONSHIP_NAMES, ())
    yield from first


def demo_lines(bench):
    count = bench.count(400_000, 200)
    lines, wanted = keep_session(bench, demo_session(count))
    check = without_moments(is_file(wanted))
    return Trial(count, lambda program: by_command([program, "lines"], check, lines),
                 lambda _: by_command([yardstick(bench), "lines"], check, lines))


LONG = {"is_long": True}
add("store-1000000", "opening a store of 500,000 accreditations and as many uploads", "long", whole_store,
    "four times a quarter of it", unit="entries", series="opening a store of small entries", **LONG)
add("store-250000", "opening a store of 125,000 accreditations and as many uploads", "long", part_of_store,
    "taking them without a store", unit="entries", series="opening a store of small entries", **LONG)
add("publication-500000", "the first publication of 500,000 records", "long", publications(500_000, True, 0), unit="records",
    series="a publication of all", **YARDSTICK, **LONG)
add("demo-400000", "the requests of demo for 400,000 records, in lines", "long", demo_lines, unit="records", **YARDSTICK,
    **LONG)
