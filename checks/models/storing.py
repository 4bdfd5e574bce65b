"""What a store has, and what the program reports of a damaged one, by docs/FORMATS.md, "The stored tables" and "Damage"."""
from __future__ import annotations

import datetime

from checks.common.inputs import compact
from checks.models.sheets import row_of

KINDS = {1: "ACCREDIT", 2: "UPLOAD", 3: "PUBLISH"}
# The member of a body and the table of each kind of cell.
MEMBERS = {1: ("records", "lei"), 2: ("relationships", "rr"), 3: ("exceptions", "repex")}
PAGE = 16
EPOCH = datetime.datetime(1970, 1, 1)


def moment_text(seconds):
    """A moment in printed form, or the seconds of one out of range."""
    try:
        moment = EPOCH + datetime.timedelta(seconds=seconds)
    except OverflowError:
        return str(seconds)
    return f"{moment.isoformat()}Z" if moment.year < 9_999 else str(seconds)


def entry_line(entry):
    """The line of an entry, given as a row of its table."""
    number, kind, office, own, moment, rules, _, answer = entry
    return f"{number} {KINDS.get(kind, kind)} {office or '-'} {own} {moment_text(moment)} {rules} ".encode() + answer


def cell_line(cell):
    """The line of a cell, given as a row of form 1, or of none."""
    if cell is None:
        return b"none"
    kind, name, touched, row = cell
    return f"{kind} {name} {touched} ".encode() + (b"-" if row is None else row)


def damage(number, kept, replayed):
    """The three lines of a difference."""
    return b"STORE_DAMAGED %d\nkept %s\nreplayed %s\n" % (number, kept, replayed)


def differs(entry, right, replayed):
    """Whether an entry isn't the right one. Another body is a difference only if the replay makes something else of it."""
    return entry != right if replayed else (*entry[:6], entry[7]) != (*right[:6], right[7])


def entry_damage(kept, right, replayed=None):
    """The report of the first entry that isn't the right one, or None if there is none. What the replay makes is the right
    entry by itself."""
    found = {entry[0]: entry for entry in kept}
    for number in range(1, max(found, default=0) + 1):
        if number not in found:
            return damage(number, b"none", b"NOT_AN_ENTRY")
        if number > len(right) or differs(found[number], right[number - 1], replayed):
            return damage(number, entry_line(found[number]), replayed or entry_line(right[number - 1]))
    return None


def pages(cells, entries):
    """The cells that the first entries touched last, those that the next ones did, and so on, and at last those of none."""
    firsts = range(1, entries + 1, PAGE)
    for first in firsts:
        yield [cell for cell in cells if first <= cell[2] <= min(first + PAGE - 1, entries)]
    yield [cell for cell in cells if cell[2] > entries]


def cell_damage(kept, right, entries):
    """The report of the first cell that isn't the right one, or None. Both are rows of form 1 by kind and name."""
    for kept_page, right_page in zip(pages(kept, entries), pages(right, entries)):
        for at in range(max(len(kept_page), len(right_page))):
            cell = kept_page[at] if at < len(kept_page) else None
            other = right_page[at] if at < len(right_page) else None
            if cell != other:
                return damage((cell or other)[2], cell_line(cell), cell_line(other))
    return None


def cells_after(uploads):
    """The cells after uploads all of whose items are accepted: their values, by the numbers of their entries. That of an
    exception that was withdrawn has no row."""
    cells = {}
    for touched, value in uploads.items():
        for kind, (member, table) in MEMBERS.items():
            for item in value.get(member, []):
                row = None if item.get("Action") == "WITHDRAW" else compact(item)
                cells[kind, " ".join(row_of(table, item)[0])] = touched, row
    return [(*key, *cells[key]) for key in sorted(cells)]
