"""What the works send and what they should get back. Everything is made from a counter, and nothing by chance."""
from __future__ import annotations

import itertools

from checks.common import inputs
from checks.common.inputs import (AUTHORITY_ID, ISSUER, RECORD_NAMES, RELATIONSHIP_NAMES, SUCCESSORS, accredit, code,
                                  compact, csv_line, csv_row, record, records, relationship, reply_to_accredit,
                                  reply_to_status, reply_to_upload, upload)

FIRST = 1_000
RECORDS = 4_400
MAX_BODY = 4_194_304
MOMENT = "2025-01-11T00:00:00Z"


class Turns:
    """What takes the place of chance: each sample is in another order, which follows from how many there were before."""

    def __init__(self):
        self.count = 0

    def sample(self, items, count):
        self.count += 1
        return sorted(items, key=lambda item: (sum(item.encode()) * 31 * self.count + len(item)) % 101)[:count]


def writings():
    """How clients write a body, by name."""
    return inputs.writings(Turns())


# ---- uploads


def record_count(write, most=RECORDS):
    """How many records a body has room for in this writing, at most so many."""
    one, two = (len(write(records(999_000, count))) for count in (1, 2))
    return min(most, 1 + (MAX_BODY - one) // (two - one))


def bodies(count, each, write=compact):
    """The bodies of uploads of so many new records in all, with so many in each, and how many each has."""
    for start in range(0, count, each):
        here = min(each, count - start)
        yield write(records(FIRST + start, here)), here


def session(made):
    """The lines of an accreditation and of uploads of these bodies, with the replies that they should get if each of the
    items of a body is accepted."""
    yield accredit(), reply_to_accredit(1)
    for number, (body, count) in enumerate(made, 1):
        yield upload(number, body), reply_to_upload(number + 1, number, ["ACCEPTED"] * count)


def keep_session(bench, pairs, name="lines"):
    """The files of the lines and of their replies."""
    lines, wanted = bench.folder / name, bench.folder / f"{name}-wanted"
    with open(lines, "wb") as sent, open(wanted, "wb") as came:
        for line, reply in pairs:
            sent.write(line)
            came.write(reply)
    return lines, wanted


def odd_body(first, count):
    """A body of new records, of which the one in the middle is written as few clients do: its names are in reverse order, a
    name and a text have escapes, and a name occurs twice."""
    made = [compact(record(number)) for number in range(first, first + count)]
    odd = dict(reversed(named(first + count // 2, "Soci\u00e9t\u00e9").items()))
    text = inputs.by_default(odd).decode()
    made[count // 2] = text.replace('"LEI"', '"LEI": "none", "L\\u0045I"').encode()
    return b'{"records":[' + b",".join(made) + b"]}"


# ---- copies and deltas


def named(number, name, issuer=ISSUER, authority=None):
    """The fields of a record of this number and name. Its number at its authority is its own, if none is given."""
    return record(number, {"Entity.LegalName": name, AUTHORITY_ID: authority or str(number)}, issuer)


def changed_places(count, changes):
    """The places of so many changes among so many rows, and whether each drops its row: each tenth does."""
    return {place * (count // changes): place % 10 == 9 for place in range(changes)}


def csv_files(count, changes, name=lambda place: "Alpha", other=lambda place: "Beta"):
    """The pieces of a copy of so many records in CSV, of a delta of so many changes, and of the copy after it."""
    places = changed_places(count, changes)
    key = [""] * (len(RECORD_NAMES) - 1)

    def row(place, text):
        return csv_row(RECORD_NAMES, named(FIRST + place, text)).encode()

    head = csv_line(RECORD_NAMES).encode()
    copy = itertools.chain([head], (row(place, name(place)) for place in range(count)))
    delta = itertools.chain([csv_line(["Delta.Action", *RECORD_NAMES]).encode()], (
        csv_line(["DROP", code(FIRST + place), *key]).encode() if is_drop else b'"PUT",' + row(place, other(place))
        for place, is_drop in places.items()))
    after = itertools.chain([head], (
        row(place, other(place) if place in places else name(place)) for place in range(count) if not places.get(place)))
    return copy, delta, after


def json_head(publication, count, base=None):
    start = f'"fromPublication":{base},' if base else ""
    return (f'{{"contentDate":"{MOMENT}",{start}"publication":{publication},"recordCount":{count},"records":[').encode()


def json_list(head, made):
    """The pieces of a file in JSON with these records or changes."""
    yield head
    for place, text in enumerate(made):
        yield b"," + text if place else text
    yield b"]}"


def json_files(count, changes):
    """The same in JSON."""
    places = changed_places(count, changes)

    def row(place, text):
        return compact(named(FIRST + place, text))

    def change(place, is_drop):
        fields = {"LEI": code(FIRST + place)} if is_drop else named(FIRST + place, "Beta")
        return compact({"action": "DROP" if is_drop else "PUT", "record": fields})

    left = (row(place, "Beta" if place in places else "Alpha") for place in range(count) if not places.get(place))
    return (json_list(json_head(1, count), (row(place, "Alpha") for place in range(count))),
            json_list(json_head(2, changes, base=1), itertools.starmap(change, places.items())),
            json_list(json_head(2, count - sum(places.values())), left))


def empty_copy():
    return b"".join(json_list(json_head(1, 0), ()))


def empty_delta():
    return b"".join(json_list(json_head(2, 0, base=1), ()))


FORM_FILES = {"csv": csv_files, "json": json_files}


# ---- groups


def link_rows(links):
    """The lines of a copy of `rr` with these direct parents, from entity to entity."""
    yield csv_line(RELATIONSHIP_NAMES).encode()
    for start, end in links:
        yield csv_row(RELATIONSHIP_NAMES, relationship(start, end)).encode()


def entity_rows(count):
    """The lines of a copy of `lei` with the entities from 0 on."""
    yield csv_line(RECORD_NAMES).encode()
    for number in range(count):
        yield csv_row(RECORD_NAMES, named(number, f"Entity {number}")).encode()


def group_report(count, parent, depth_of, disagrees):
    """The lines of a report on entity 0, whose group has all others. Depths don't fall from entity to entity."""
    yield f"GROUP {code(0)} Entity 0\n".encode()
    for number in range(1, count):
        yield f"{depth_of(number)} {code(number)} {code(parent(number))} Entity {number}\n".encode()
    yield f"members {count - 1}\n".encode()
    if disagrees:
        yield from (f"DISAGREES {code(number)} - {code(0)}\n".encode() for number in range(1, count))
    yield f"disagreements {count - 1 if disagrees else 0}\n".encode()


# ---- relationships and successors


def retired(number, most, group):
    """A record that names at most so many of those before it in its group. The first of a group stays as it is."""
    place = number % group
    if place == 0:
        return record(number)
    before = range(number - 1, number - 1 - min(most, place), -1)
    return record(number, {"Entity.EntityStatus": "INACTIVE", "Registration.RegistrationStatus": "RETIRED",
                           SUCCESSORS: " ".join(map(code, before))})


def chain_links(count, length):
    """Chains of direct parents of this length, from the upper ends down. The number before an entity is its parent, and the
    last entity is that of the first of each chain."""
    return [relationship(number, number - 1 if number % length else count) for number in range(count)]


# ---- demo


def demo_summary(count):
    """What `demo` writes, by docs/FORMATS.md and docs/RULES.md."""
    held = {number for number in range(1, count + 1) if number % 10}
    links = [(number, number // 2) for number in range(2, count + 1) if number in held and number // 2 in held]
    unknown_starts = sum(number not in held for number in range(2, count + 1))
    unknown_ends = count - 1 - unknown_starts - len(links)
    blocks = -(-count // 100)
    size = len(csv_line(RELATIONSHIP_NAMES)) + len(links) * len(csv_row(RELATIONSHIP_NAMES, relationship(2, 1)))
    return "".join(f"{line}\n" for line in (
        f"entries {2 + 2 * blocks + 2}", f"accepted {len(held) + len(links)}", f"rejected C19 {count - len(held)}",
        f"rejected C32 {unknown_starts}", f"rejected C33 {unknown_ends}", f"repeats {blocks}", "publications 2",
        f"lei {len(held)}", f"rr {len(links)}", "delta lei 0", f"delta rr {len(links)}", f"applied rr csv {size}",
    )).encode()


# ---- stores


def status_after(entries, kept, held, issuers=1):
    """The reply to STATUS of a register with so many entries, kept bytes and held records."""
    return reply_to_status(entries=entries, issuers=issuers, keptBytes=kept, records=held)


def accreditations(count):
    """The lines of so many accreditations, with their replies."""
    for entry in range(1, count + 1):
        yield accredit(code(entry)), reply_to_accredit(entry, code(entry))


def rejected_uploads(count, before):
    """A line of an upload of one item for each of so many issuers, with its reply. The item lacks nearly all fields.
    `before` is how many entries there are."""
    body = compact({"records": [{"LEI": ISSUER}]})
    for place in range(1, count + 1):
        yield (upload(1, body, code(place)),
               reply_to_upload(before + place, 1, ["C02 FIELD_MISSING Entity.LegalName"], code(place)))
