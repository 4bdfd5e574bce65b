"""Items and bodies of hostile issuers, made from a seed: valid ones, nearly valid ones and damaged ones."""
from __future__ import annotations

from checks.common.inputs import (AUTHORITY_ID, ISSUERS, SUCCESSORS, as_it_stands, code, exception, moment, record,
                                  relationship, writings)

# Each status with how often it is tried, the status of its entity, and the days from today to its renewal. No date here is
# right on one day and wrong on the next.
STATUSES = [("ISSUED", 8, "ACTIVE", 100), ("ISSUED", 1, "ACTIVE", 500), ("LAPSED", 2, "ACTIVE", -10),
            ("LAPSED", 1, "ACTIVE", 100),
            ("PENDING_TRANSFER", 3, "ACTIVE", 100), ("PENDING_ARCHIVAL", 3, "ACTIVE", 100), ("RETIRED", 2, "INACTIVE", 100),
            ("DUPLICATE", 1, "NULL", 100), ("ANNULLED", 1, "NULL", 100), ("ISSUED", 1, "INACTIVE", 100)]
# The types of an event, one of which is none, and its statuses.
EVENT_TYPES = ["CHANGE_LEGAL_NAME", "CHANGE_LEGAL_ADDRESS", "CHANGE_HQ_ADDRESS", "CHANGE_LEGAL_FORM", "MERGER",
               "LIQUIDATION", "DISSOLUTION", "BANKRUPTCY", "SALE"]
EVENT_STATUSES = ["IN_PROGRESS", "COMPLETED", "COMPLETED", "WITHDRAWN_CANCELLED"]
RELATIONSHIPS = ["IS_DIRECTLY_CONSOLIDATED_BY", "IS_DIRECTLY_CONSOLIDATED_BY", "IS_ULTIMATELY_CONSOLIDATED_BY",
                 "IS_INTERNATIONAL_BRANCH_OF", "IS_FEEDER_TO", "IS_SUBFUND_OF", "IS_FUND-MANAGED_BY"]
REGISTRATIONS = ["PUBLISHED", "PUBLISHED", "ISSUED", "LAPSED", "RETIRED", "ANNULLED"]
# Two of the names differ by normalization alone.
NAMES = ["Alpha", "Société \"Bleue\", S.A.", "Caf\u00e9", "Cafe\u0301", "β", "a\\b", "名前", "\U0001f600", "x" * 500,
         "é" * 501,
         " ", "-", "a\x7fb", "a/b"]
MOMENTS = ["2025-01-10T09:00:00+01:00", "20250110T0900Z", "2025-01-10 09Z", "2025-01-10t09:00:60,5z",
           "+002025-01-10T09:00Z[UTC]",
           "2025-01-10T09:00:00", "2025-02-29T00:00:00Z", "0000-12-31T23:00:00-01:00", "0000-12-31T23:00:00Z",
           "2025-01-10T24:00Z"]
# Values where texts belong.
VALUES = [0, -1, 1.5, 1e300, True, False, None, [], {}, ["x"], {"LEI": "x"}, [[[]]]]
DAMAGED = [
    b"", b" ", b"{}", b"[]", b"null", b'"x"', b"1", b'{"records":[]}', b'{"records":[1]}', b'{"records":{}}',
    b'{"records":null}',
    b'{"records":[],"x":1}', b'{"Records":[{}]}', b'{"records":[{}],"":[]}', b'{"records":[[{}]]}',
    b'{"r\\u0065cords":[{}]}',
    b'{"records":[{"LEI":01}]}', b'{"records":[{"LEI":-}]}', b'{"records":[{"LEI":NaN}]}',
    b'{"records":[{"LEI":-Infinity}]}',
    b'{"records":[{"LEI":1e400}]}', b'{"records":[{"LEI":1e400,"LEI":""}]}', b'{"records":1,"records":[{}]}',
    b'{"records":[{"LEI":"\\ud800"}]}', b'{"records":[{"LEI":"\\udc00\\ud800"}]}', b'{"records":[{"LEI":"\\ud83d\\ude00"}]}',
    b'{"records":[{"\\ud800":"x"}]}', b'{"records":[{"LEI":"\xed\xa0\x80"}]}', b'{"records":[{"LEI":"\xc0\xaf"}]}',
    b'{"records":[{"LEI":"\xf4\x90\x80\x80"}]}', b'\xef\xbb\xbf{"records":[{}]}', b'{"records":[{"LEI":"\x01"}]}',
    b'{"records":[{"LEI":"\x7f"}]}', b'{"records":[{"LEI":"\\x41"}]}', b'{"records":[{"LEI":\'x\'}]}',
    b'{"records":[{LEI:"x"}]}',
    b'{"records":[{},]}', b'{"records":[{}]}}', b'{"records":[{}]}\x00', b'{"records":[{"":""}]}',
    b'{"records":[{"\\n\\"":"x"}]}',
]
FULL = 5_000


def lists_in_lists(levels, is_dropped):
    """A body of lists in lists with so many levels in all, where an item belongs or in a member that is dropped."""
    if is_dropped:
        return b'{"records":' + b"[" * (levels - 1) + b"]" * (levels - 1) + b',"records":[{}]}'
    return b'{"records":[' + b"[" * (levels - 2) + b"]" * (levels - 2) + b"]}"


def many(count, chance):
    """A body of so many empty items of the three kinds."""
    first, second = sorted(chance.randrange(count + 1) for _ in range(2))
    return {"records": [{}] * first, "relationships": [{}] * (second - first), "exceptions": [{}] * (count - second)}


class Items:
    """Makes items and bodies by chance. The numbers of entities go on slowly, so that there are always new ones. Most
    entities belong to the issuer of the same place in the list of issuers."""

    def __init__(self, chance):
        self.chance = chance
        self.writings = list(writings(chance).values())
        self.first = 1_000
        self.numbers = set()

    def entity(self, issuer=None):
        """The number of an entity, mostly one of the issuer's."""
        number = self.first + self.chance.randrange(40)
        if issuer is not None and self.chance.random() < 0.85:
            number += ISSUERS.index(issuer) - number % len(ISSUERS)
        self.numbers.add(number)
        return number

    def record(self, issuer):
        """A record that is valid, or nearly so."""
        status, _, entity, days = self.chance.choices(STATUSES, [row[1] for row in STATUSES])[0]
        number = self.entity(issuer)
        others = {
            "Entity.EntityCategory": self.chance.choice(["GENERAL", "GENERAL", "BRANCH", "FUND"]),
            "Entity.EntityStatus": entity,
            "Entity.LegalName": self.chance.choice(NAMES),
            "Registration.NextRenewalDate": moment(days),
            "Registration.RegistrationStatus": status,
        }
        if self.chance.random() < 0.1:
            others[AUTHORITY_ID] = self.chance.choice(["7", ""])
        if self.chance.random() < 0.1:
            others["Entity.EntityCreationDate"] = self.chance.choice([moment(50), *MOMENTS])
        if status in ("RETIRED", "DUPLICATE") and self.chance.random() < 0.7:
            others[SUCCESSORS] = " ".join(code(self.entity()) for _ in range(self.chance.choice([1, 1, 2, 5, 6])))
        if status == "PENDING_ARCHIVAL" and self.chance.random() < 0.9:
            others["Register.TransferTo"] = self.chance.choice(ISSUERS)
        if self.chance.random() < 0.25:
            others.update(self.event())
        manager = issuer if self.chance.random() < 0.95 else self.chance.choice(ISSUERS)
        return self.nearly(record(number, others, manager))

    def event(self):
        """The fields of an event, of which some are absent or have wrong dates."""
        fields = {
            "Entity.Event.1.Type": self.chance.choice(EVENT_TYPES),
            "Entity.Event.1.EffectiveDate": moment(self.chance.choice([-50, -50, 0, 50])),
            "Entity.Event.1.RecordedDate": moment(self.chance.choice([-10, -10, -10, 0, 50])),
            "Entity.Event.1.Status": self.chance.choice(EVENT_STATUSES),
        }
        return {name: text for name, text in fields.items() if self.chance.random() < 0.9}

    def relationship(self, issuer):
        registration = self.chance.choice(REGISTRATIONS)
        ends = registration in ("RETIRED", "ANNULLED") or self.chance.random() < 0.2
        others = {
            "Registration.RegistrationStatus": registration,
            "Relationship.RelationshipStatus": "INACTIVE" if ends and self.chance.random() < 0.9 else "ACTIVE",
            "Relationship.RelationshipType": self.chance.choice(RELATIONSHIPS),
        }
        if self.chance.random() < 0.2:
            others["Relationship.EndDate"] = moment(self.chance.choice([-3_000, 50]))
        return self.nearly(relationship(self.entity(issuer), self.entity(), others, issuer))

    def exception(self, issuer):
        category = self.chance.choice(["DIRECT", "ULTIMATE"])
        others = {"ExceptionCategory": f"{category}_ACCOUNTING_CONSOLIDATION_PARENT",
                  "ExceptionReason": self.chance.choice(["NON_CONSOLIDATING", "NATURAL_PERSONS", "NO_LEI"])}
        if self.chance.random() < 0.4:
            others |= {"Action": "WITHDRAW", "ExceptionReason": self.chance.choice(["", "NO_LEI"])}
        return self.nearly(exception(self.entity(issuer), others))

    def nearly(self, fields):
        """The fields, of which one in seven items has one changed."""
        if self.chance.random() < 0.85:
            return fields
        name = self.chance.choice(list(fields))
        change = self.chance.randrange(5)
        if change == 0:
            del fields[name]
        elif change == 1:
            fields[name] = self.chance.choice(["", *MOMENTS])
        elif change == 2:
            fields[name] += self.chance.choice(["x", " ", "\t", "é"])
        elif change == 3:
            fields[name + "x"] = self.chance.choice(["x", ""])
        else:
            fields[name] = fields[name][:-1] + "0"
        return fields

    # ---- bodies

    def value(self, issuer):
        count = self.chance.choice([1, 1, 2, 3, 8])
        members = {"records": [self.record(issuer) for _ in range(count)]}
        if self.chance.random() < 0.5:
            members["relationships"] = [self.relationship(issuer) for _ in range(count)]
        if self.chance.random() < 0.4:
            members["exceptions"] = [self.exception(issuer) for _ in range(count)]
        if self.chance.random() < 0.03:
            item = self.chance.choice(members["records"])
            item[self.chance.choice(list(item))] = self.chance.choice(VALUES)
        return members

    def write(self, value):
        """A body as some client writes it."""
        return self.chance.choice(self.writings)(value)

    def body(self, issuer):
        """A body that can be read, in some form."""
        return self.with_repeat(issuer) if self.chance.random() < 0.08 else self.write(self.value(issuer))

    def with_repeat(self, issuer):
        """A body with a record of which one name occurs twice, once with an escape. The earlier value may be anything."""
        item = self.record(issuer)
        name = self.chance.choice(list(item))
        again = f'"\\u{ord(name[0]):04x}{name[1:]}":'.encode()
        fields = as_it_stands(item)[1:-1]
        if self.chance.random() < 0.5:
            return b'{"records":[{' + again + as_it_stands(self.chance.choice(VALUES)) + b"," + fields + b"}]}"
        return b'{"records":[{' + fields + b"," + again + as_it_stands(self.chance.choice(["x", "", item[name]])) + b"}]}"

    def damage(self, body):
        """The body with a damage, so that it may be no upload any more. It has no byte that ends a line."""
        at = self.chance.randrange(len(body))
        change = self.chance.randrange(9)
        if change == 0:
            return body[:at]
        if change == 1:
            return body[:at] + self.byte() + body[at + 1:]
        if change == 2:
            return body[:at] + self.byte() + body[at:]
        if change == 3:
            return body[:at] + body[at + 1:]
        if change == 4:
            return body + self.chance.choice([b"}", b" x", b"\x00", body])
        if change == 5:
            return lists_in_lists(self.chance.choice([126, 127, 128, 129, 200, 20_000]), self.chance.random() < 0.5)
        if change == 6 and self.chance.random() < 0.1:
            return self.too_many()
        return self.chance.choice(DAMAGED)

    def too_many(self):
        """A body of one item too many, of which one may be no item."""
        value = many(FULL + 1, self.chance)
        if self.chance.random() < 0.3:
            value["exceptions"] = [*value["exceptions"], 1]
        return as_it_stands(value)

    def byte(self):
        while True:
            byte = self.chance.randrange(256)
            if byte not in (10, 13):
                return bytes([byte])
