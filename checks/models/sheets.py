"""Golden copies and deltas of the three tables, in CSV and in JSON, as docs/FORMATS.md describes them: how they are read,
printed, made and applied. Bytes are read by what they seem to say and printed again. They are a copy or a delta if that
gives the same bytes."""
from __future__ import annotations

import dataclasses
import datetime
import json
import re

from checks.common.inputs import EXCEPTION_NAMES, RECORD_NAMES, RELATIONSHIP_NAMES, csv_line

NAMES = {"lei": RECORD_NAMES, "rr": RELATIONSHIP_NAMES, "repex": EXCEPTION_NAMES}
# How many texts of a row are its key.
KEY_SIZES = {"lei": 1, "rr": 3, "repex": 2}
# How many columns a narrow file of `lei` has.
NARROW = 28
# The greatest number of a publication.
MOST = 1_000_000
ACTION = "Delta.Action"
FIELD = re.compile('"([^"]*(?:""[^"]*)*)"([,\n])')
MOMENT = re.compile(r"(\d{4})-(\d\d)-(\d\d)T(\d\d):(\d\d):(\d\d)Z", re.ASCII)


@dataclasses.dataclass(frozen=True)
class Sheet:
    """A golden copy, or a delta. Each row is a tuple of all its texts by the tuple of its key. In a delta the row of a key
    that is dropped is None. What a file in CSV doesn't say is 0 or empty."""
    table: str
    rows: dict
    is_delta: bool = False
    is_wide: bool = True
    number: int = 0
    moment: str = ""
    base: int = 0


def row_of(table, fields):
    """The row of an item, by its key."""
    row = tuple(fields.get(name, "") for name in NAMES[table])
    return row[:KEY_SIZES[table]], row


# ---- printing


def csv_text(sheet):
    names = NAMES[sheet.table][:None if sheet.is_wide else NARROW]
    lines = [csv_line([ACTION] * sheet.is_delta + names)]
    for key, row in sheet.rows.items():
        texts = (row or key) + ("",) * len(names)
        action = ["DROP" if row is None else "PUT"] * sheet.is_delta
        lines.append(csv_line([*action, *texts[:len(names)]]))
    return "".join(lines)


def json_text(value):
    """Compact JSON with the members in the order in which they stand."""
    return json.dumps(value, separators=(",", ":"), ensure_ascii=False)


def json_record(table, texts):
    """The object of a row, or of the texts at its start."""
    return dict(sorted((name, text) for name, text in zip(NAMES[table], texts) if text))


def json_sheet(sheet):
    records = [json_record(sheet.table, row or key) for key, row in sheet.rows.items()]
    if sheet.is_delta:
        actions = ["DROP" if row is None else "PUT" for row in sheet.rows.values()]
        records = [{"action": action, "record": record} for action, record in zip(actions, records)]
    base = {"fromPublication": sheet.base} if sheet.is_delta else {}
    return json_text({"contentDate": sheet.moment, **base, "publication": sheet.number, "recordCount": len(records),
                      "records": records})


def print_sheet(sheet, form):
    return (csv_text(sheet) if form == "csv" else json_sheet(sheet)).encode()


# ---- reading


def csv_fields(text):
    """The texts of each line, or None if a field isn't quoted or a line doesn't end."""
    lines, at = [[]], 0
    while at < len(text):
        found = FIELD.match(text, at)
        if not found:
            return None
        lines[-1].append(found[1].replace('""', '"'))
        at = found.end()
        if found[2] == "\n":
            lines.append([])
    return lines[:-1] if not lines[-1] else None


def csv_sheet(text, table, is_delta):
    lines, names = csv_fields(text), NAMES[table]
    if not lines:
        return None
    width = len(lines[0]) - is_delta
    widths = (NARROW, len(names)) if table == "lei" else (len(names),)
    if width not in widths or lines[0] != [ACTION] * is_delta + names[:width]:
        return None
    rows = {}
    for line in lines[1:]:
        row = tuple(line[is_delta:]) + ("",) * (len(names) - width)
        rows[row[:KEY_SIZES[table]]] = None if is_delta and line[0] == "DROP" else row
    return Sheet(table, rows, is_delta, width == len(names))


def is_moment(text):
    """Whether a text is a moment in printed form."""
    found = isinstance(text, str) and MOMENT.fullmatch(text)
    if not found:
        return False
    try:
        return datetime.datetime(*map(int, found.groups())).year < 9_999
    except ValueError:
        return False


def is_record(value):
    return isinstance(value, dict) and all(isinstance(text, str) for text in value.values())


def sheet_from_json(text, table, is_delta):
    value = json.loads(text)
    if not isinstance(value, dict) or not isinstance(value.get("records"), list) or not is_moment(value.get("contentDate")):
        return None
    numbers = [value.get(name) for name in ["publication"] + ["fromPublication"] * is_delta]
    if not all(type(number) is int and 1 <= number <= MOST for number in numbers):
        return None
    rows = {}
    for each in value["records"]:
        fields = each.get("record") if is_delta and isinstance(each, dict) else each
        if not is_record(fields):
            return None
        key, row = row_of(table, fields)
        rows[key] = None if is_delta and each.get("action") == "DROP" else row
    return Sheet(table, rows, is_delta, True, numbers[0], value["contentDate"], numbers[-1] if is_delta else 0)


def read_sheet(data, table, form, is_delta=False):
    """The copy or the delta that these bytes are, or None if they are none."""
    try:
        sheet = (csv_sheet if form == "csv" else sheet_from_json)(data.decode(), table, is_delta)
        is_read = sheet is not None and list(sheet.rows) == sorted(sheet.rows) and print_sheet(sheet, form) == data
    except (ValueError, RecursionError):
        # It isn't UTF-8, no JSON, or has a half of a surrogate pair.
        return None
    return sheet if is_read else None


# ---- deltas


def sheet_after(copy, delta):
    """The copy after a delta."""
    rows = {**copy.rows, **delta.rows}
    rows = {key: rows[key] for key in sorted(rows) if rows[key] is not None}
    return Sheet(copy.table, rows, False, delta.is_wide, delta.number, delta.moment)


def delta_to(after, base, touched):
    """The delta to a copy from the publication of another number: each key that was touched in between, with its row now."""
    rows = {key: after.rows.get(key) for key in sorted(touched)}
    return Sheet(after.table, rows, True, after.is_wide, after.number, after.moment, base)
