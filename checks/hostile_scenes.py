"""Scenes of hostile sessions: rows of uploads that reach what chance alone seldom does, such as long chains, circles and
transfers. Each takes the maker of a session, and has entities of its own."""
from __future__ import annotations

from checks.common.inputs import (AUTHORITY_ID, ISSUERS, SUCCESSORS, as_it_stands, code, exception, moment, record,
                                  relationship)
from checks.hostile_bodies import FULL, many

CHAIN = 200
STATUS = "Registration.RegistrationStatus"
RETIRED = {STATUS: "RETIRED", "Entity.EntityStatus": "INACTIVE"}
TYPE = "Relationship.RelationshipType"
DIRECT, ULTIMATE = "IS_DIRECTLY_CONSOLIDATED_BY", "IS_ULTIMATELY_CONSOLIDATED_BY"
INACTIVE = {"Relationship.RelationshipStatus": "INACTIVE"}


def put(maker, issuer, **members):
    maker.send(issuer, maker.items.write(members))


def entities(maker, count):
    """New entities, whose records the four issuers upload in turn. Returns their numbers and their issuers."""
    first = max(maker.items.numbers, default=0) + 100_000
    numbers = list(range(first, first + count))
    maker.items.numbers.update(numbers[:3] + numbers[-3:])
    owners = {number: ISSUERS[number % len(ISSUERS)] for number in numbers}
    for issuer in ISSUERS:
        if mine := [record(number, issuer=issuer) for number in numbers if owners[number] == issuer]:
            put(maker, issuer, records=mine)
    return numbers, owners


def relate(maker, owners, pairs, others=None):
    """Relationships of these pairs of a start and an end, by the issuers of the starts in turn."""
    for issuer in ISSUERS:
        if mine := [relationship(start, end, others, issuer) for start, end in pairs if owners[start] == issuer]:
            put(maker, issuer, relationships=mine)


def long_chain(maker):
    """Direct parents across issuers in a chain of 200 links, put in no order, then what would make it longer or a circle."""
    numbers, owners = entities(maker, CHAIN + 2)
    relate(maker, owners, maker.chance.sample(list(zip(numbers[1:], numbers[2:])), CHAIN))
    for start, end in [(-1, 1), (0, 1), (-1, 0), (CHAIN // 2, 0)]:
        relate(maker, owners, [(numbers[start], numbers[end])])


def circles(maker):
    """A circle of direct parents across issuers, which isn't closed, and one of ultimate parents, which is."""
    numbers, owners = entities(maker, maker.chance.choice([2, 3, 7]))
    pairs = list(zip(numbers, [*numbers[1:], numbers[0]]))
    relate(maker, owners, maker.chance.sample(pairs, len(pairs)))
    relate(maker, owners, pairs, {TYPE: ULTIMATE})
    relate(maker, owners, [(numbers[0], numbers[0])])


def exceptions_beside_parents(maker):
    """Parents of both kinds and the exceptions of their categories give way to each other."""
    (start, end, other), owners = entities(maker, 3)
    for category, kind in (("DIRECT", DIRECT), ("ULTIMATE", ULTIMATE)):
        about = {"ExceptionCategory": f"{category}_ACCOUNTING_CONSOLIDATION_PARENT"}
        stands, withdrawal = exception(start, about), exception(start, about | {"Action": "WITHDRAW"})
        put(maker, owners[start], exceptions=[stands])
        relate(maker, owners, [(start, end)], {TYPE: kind})
        put(maker, owners[start], exceptions=[withdrawal, withdrawal])
        relate(maker, owners, [(start, end), (start, other)], {TYPE: kind})
        put(maker, owners[start], exceptions=[stands])
        put(maker, owners[end], exceptions=[stands])
        relate(maker, owners, [(start, end)], {TYPE: kind, STATUS: "ANNULLED"})
        relate(maker, owners, [(start, end)], {TYPE: kind, STATUS: "ANNULLED", **INACTIVE})
        put(maker, owners[start], exceptions=[stands])
        relate(maker, owners, [(start, other)], {TYPE: kind, **INACTIVE})


def transfers(maker):
    """A record goes from one issuer to another, which others try to take, and so does one with a relationship."""
    (first, second), owners = entities(maker, 2)
    giver, receiver, third, _ = [owners[first], *(issuer for issuer in ISSUERS if issuer != owners[first])]
    relate(maker, owners, [(first, second)])
    leaving = {STATUS: "PENDING_ARCHIVAL", "Register.TransferTo": receiver}
    for issuer, others in [(receiver, {}), (giver, {STATUS: "PENDING_TRANSFER"}), (giver, leaving), (third, {}), (giver, {}),
                           (receiver, {}), (giver, {}),
                           (giver, {STATUS: "LAPSED", "Registration.NextRenewalDate": moment(-5)}),
                           (receiver, {STATUS: "PENDING_TRANSFER"}), (receiver, {STATUS: "PENDING_ARCHIVAL"})]:
        put(maker, issuer, records=[record(first, others, issuer)])
    for issuer in (giver, receiver):
        put(maker, issuer, relationships=[relationship(first, second, {STATUS: "ISSUED"}, issuer)])


def successors(maker):
    """Records name successors up to 200 levels and back, by one issuer."""
    issuer = maker.chance.choice(ISSUERS)
    numbers, _ = entities(maker, 3 * len(ISSUERS))
    mine = [number for number in numbers if ISSUERS[number % len(ISSUERS)] == issuer]

    def retired(number, ends, others=None):
        return record(number, {**RETIRED, SUCCESSORS: " ".join(map(code, ends)), **(others or {})}, issuer)
    put(maker, issuer, records=[
        retired(mine[0], mine[1:]), retired(mine[1], mine[2:]), retired(mine[2], mine[:1]), retired(mine[2], mine[:2]),
        retired(mine[2], [mine[2]]), retired(mine[2], [1]), retired(mine[0], [mine[1], mine[1]]),
        retired(mine[0], numbers[:6]),
        record(mine[0], {SUCCESSORS: code(mine[1])}, issuer), record(mine[0], {STATUS: "DUPLICATE"}, issuer)])
    row = list(range(max(numbers) + 1, max(numbers) + CHAIN + 3))
    maker.items.numbers.update(row[:3] + row[-3:])
    links = [retired(start, [end]) for start, end in zip(row[1:], row)]
    put(maker, issuer, records=[record(number, None, issuer) for number in row])
    put(maker, issuer, records=[*links, retired(row[0], [row[1]]), retired(row[0], [row[-1]])])


def authority_keys(maker):
    """A key is taken, freed and taken again."""
    (first, second), owners = entities(maker, 2)
    key = {AUTHORITY_ID: f"k{first}"}
    for issuer, number, others in [(owners[first], first, {}), (owners[second], second, {}), (owners[first], first, RETIRED),
                                   (owners[second], second, {}), (owners[first], first, {})]:
        put(maker, issuer, records=[record(number, key | others, issuer)])


def wrong_items(maker):
    """Items that fail checks which nothing else here reaches."""
    (first, second), owners = entities(maker, 2)
    issuer, other = owners[first], owners[second]
    put(maker, issuer, records=[
        record(first, {"Registration.NextRenewalDate": moment(500)}, issuer),
        record(first, {"Entity.Event.1.Type": "MERGER", "Entity.Event.1.Status": "IN_PROGRESS"}, issuer),
        record(first, {"Entity.Event.1.Type": "MERGER", "Entity.Event.1.Status": "COMPLETED",
                       "Entity.Event.1.RecordedDate": moment(-10)}, issuer),
        record(first, {"Registration.InitialRegistrationDate": moment(-5)}, issuer),
        record(first, {"Registration.InitialRegistrationDate": "2025-01-10T08:59:59Z"}, issuer),
        record(first, {"Registration.LastUpdateDate": "2025-01-10T09:00:01Z"}, issuer), record(first, None, issuer),
        record(first, {STATUS: "RETIRED"}, issuer), record(first, {STATUS: "PENDING_ARCHIVAL"}, issuer),
        record(first, {"Register.TransferTo": issuer}, issuer),
        record(first, {"Entity.EntityCreationDate": moment(9)}, issuer),
        record(first, {"LEI": code(first)[:-1] + "0"}, issuer), record(first, {"Entity.EntityCategory": "FUND"}, other),
        record(first + 50_000, {STATUS: "LAPSED", "Registration.NextRenewalDate": moment(-5)}, issuer)])
    put(maker, issuer, relationships=[
        relationship(first, second, {TYPE: "IS_SUBFUND_OF"}, issuer),
        relationship(first, second, {STATUS: "LAPSED"}, issuer),
        relationship(first, 9, None, issuer), relationship(9, first, None, issuer),
        relationship(second, first, None, issuer),
        relationship(first, second, {"Relationship.EndDate": "2025-01-10T08:59:59Z"}, issuer)],
        exceptions=[exception(9), exception(second), exception(first, {"Action": "DROP"}), exception(first, {"Action": ""})])


def full_bodies(maker):
    """Bodies of as many items as an upload may have, and of one more."""
    issuer = maker.chance.choice(ISSUERS)
    maker.send(issuer, as_it_stands(many(FULL + 1, maker.chance)))
    put(maker, issuer, **many(FULL, maker.chance))
    maker.send(issuer, maker.items.too_many())


SCENES = [long_chain, circles, exceptions_beside_parents, transfers, successors, authority_keys, wrong_items, full_bodies]
