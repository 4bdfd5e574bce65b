"""What is held, golden copies of it and deltas between them: docs/RULES.md and docs/FORMATS.md."""
from checks.common.inputs import compact, csv_line, csv_row
from checks.model import rules
from checks.model.fields import KINDS, NAMES, moment_of, moment_text

SHEETS = {"lei": "records", "rr": "relationships", "repex": "exceptions"}
KEYS = {"relationships": 3, "exceptions": 2}
COLUMNS = {**NAMES, "exceptions": NAMES["exceptions"][:4]}
CHECKS = {"records": rules.record_fails, "relationships": rules.relationship_fails, "exceptions": rules.exception_fails}


def key_fields(kind, key):
    """The fields of a key. That of a record is its LEI alone."""
    return dict(zip(COLUMNS[kind], [key] if kind == "records" else key))


class Table:
    """The rows that are held, by key, each as its fields that are present."""

    def __init__(self, most_records=500_000):
        self.records, self.relationships, self.exceptions = {}, {}, {}
        self.most_records = most_records
        self.changes = []  # The kind and the key of each item that was accepted.

    def active_end(self, start, kind):
        """The end of the ACTIVE relationship of this start and type, or None."""
        return next((end for (first, other, end), row in self.relationships.items()
                     if (first, other) == (start, kind) and row["Relationship.RelationshipStatus"] == "ACTIVE"), None)

    def judge(self, kind, item, uploader, today):
        """The verdict on an item. One that is accepted changes the table."""
        for verdict in rules.itself_fails(kind, item):
            return verdict
        moments = [name for name, _, shape, _ in KINDS[kind] if shape == "moment"]
        row = {name: moment_of(text) if name in moments else text for name, text in item.items() if text}
        for verdict in CHECKS[kind](self, row, uploader, today):
            return verdict
        key = row["LEI"] if kind == "records" else tuple(row[name] for name in COLUMNS[kind][:KEYS[kind]])
        if row.pop("Action", "PUT") == "WITHDRAW":
            del getattr(self, kind)[key]
        else:
            getattr(self, kind)[key] = row
        self.changes.append((kind, key))
        return "ACCEPTED"


class Publication:
    """A publication with its number, its moment and the rows of its sheets."""

    def __init__(self, number, moment, table):
        self.number, self.moment, self.changes = number, moment, list(table.changes)
        self.sheets = {kind: dict(getattr(table, kind)) for kind in COLUMNS}
        self.sheets["relationships"] = {key: row for key, row in table.relationships.items()
                                        if row["Registration.RegistrationStatus"] != "ANNULLED"}


def in_json(publication, records, more):
    return compact({"contentDate": moment_text(publication.moment), "publication": publication.number,
                    "recordCount": len(records), "records": records, **more})


def copy(publication, sheet, form):
    """The golden copy of a sheet of a publication."""
    kind = SHEETS[sheet]
    rows = [row for _, row in sorted(publication.sheets[kind].items())]
    if form == "json":
        return in_json(publication, rows, {})
    return "".join([csv_line(COLUMNS[kind]), *(csv_row(COLUMNS[kind], row) for row in rows)]).encode()


def delta(base, publication, sheet, form):
    """What changed in a sheet from one publication to another: the keys of the items that were accepted in between, even if
    one changed back."""
    kind = SHEETS[sheet]
    keys = sorted({key for other, key in publication.changes[len(base.changes):] if other == kind})
    now = publication.sheets[kind]
    changes = [("PUT", now[key]) if key in now else ("DROP", key_fields(kind, key)) for key in keys]
    if form == "json":
        return in_json(publication, [{"action": action, "record": row} for action, row in changes],
                       {"fromPublication": base.number})
    names = ["Delta.Action", *COLUMNS[kind]]
    return "".join([csv_line(names), *(csv_row(names, {"Delta.Action": action, **row}) for action, row in changes)]).encode()
