"""What `leireg mirror` answers, by docs/FORMATS.md."""
from __future__ import annotations

import dataclasses

from checks.common.inputs import TABLES
from checks.models.packets import answer_lines, number_in
from checks.models.sheets import Sheet, print_sheet, read_sheet, sheet_after

MOST_PACKETS = 64
MOST_BYTES = 536_870_912


@dataclasses.dataclass(frozen=True)
class Packet:
    """A copy or a delta that was read, and its number of bytes."""
    sheet: Sheet
    size: int

    @property
    def key(self):
        """What packets that are alike have in common."""
        return self.sheet.is_delta, self.sheet.table, self.sheet.number, self.sheet.base


class Mirror:
    """The number of the publication that is shown, or 0, its copies by table, and the packets that are kept, in order."""

    def __init__(self):
        self.shown, self.copies, self.kept = 0, {}, []

    def answers(self, data):
        return answer_lines(data, {
            b"SHOW": self.show,
            b"COPY": lambda *line: self.take(False, *line),
            b"DELTA": lambda *line: self.take(True, *line),
        })

    def show(self, text, _has_end, _source):
        words = text.split(" ")
        if len(words) != 2 or words[1] not in TABLES:
            return b"400 PATH"
        if not self.shown:
            return b"404 NOTHING_HELD"
        copy = print_sheet(self.copies[words[1]], "json")
        return b"200 %d\n" % len(copy) + copy

    def take(self, is_delta, text, has_end, source):
        words = text.split(" ")
        size = number_in(words[2], 10) if len(words) == 3 and words[1] in TABLES else None
        if size is None:
            return b"400 PATH"
        data = source.packet(size) if has_end else None
        if size > MOST_BYTES:
            return b"413 TOO_LONG"
        if data is None:
            return b"400 TRUNCATED"
        sheet = read_sheet(data, words[1], "json", is_delta)
        if sheet is None:
            return b"409 NOT_READ"
        return self.keep(Packet(sheet, size))

    def keep(self, packet):
        if packet.sheet.number > self.shown and packet.key not in [kept.key for kept in self.kept]:
            if len(self.kept) >= MOST_PACKETS or sum(kept.size for kept in self.kept) + packet.size > MOST_BYTES:
                return b"507 MIRROR_FULL"
            self.kept.append(packet)
            self.move_on()
        return b"200 %d %d" % (self.shown, len(self.kept))

    def move_on(self):
        """Goes to the latest publication that can be shown, as often as there is one."""
        while ready := [number for number in {kept.sheet.number for kept in self.kept} if self.is_ready(number)]:
            self.copies = {table: self.copy_of(max(ready), table) for table in TABLES}
            self.shown = max(ready)
            self.kept = [kept for kept in self.kept if kept.sheet.number > self.shown]

    def sheets_of(self, number, table):
        """The kept copies of a table in a publication, and then the deltas to it from what is shown or from before it."""
        sheets = [kept.sheet for kept in self.kept if (kept.sheet.number, kept.sheet.table) == (number, table)]
        return [*(sheet for sheet in sheets if not sheet.is_delta),
                *(sheet for sheet in sheets if sheet.is_delta and 1 <= sheet.base <= self.shown)]

    def is_ready(self, number):
        return all(self.sheets_of(number, table) for table in TABLES)

    def copy_of(self, number, table):
        """The copy of a table in a publication that can be shown."""
        sheet = self.sheets_of(number, table)[0]
        return sheet_after(self.copies[table], sheet) if sheet.is_delta else sheet


def mirror(data):
    """The replies of a run over these bytes, and its status."""
    return list(Mirror().answers(data)), 0
