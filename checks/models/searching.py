"""What `leireg search FORM COPY` answers, by docs/FORMATS.md.

Normalization and folding are those of Python's `unicodedata` and `str.casefold`, by the version of Unicode that
`unicodedata.unidata_version` names. They are stable: in each later version, a text whose characters have a meaning in an
earlier one comes to the same."""
from __future__ import annotations

import unicodedata

from checks.common.inputs import compact
from checks.models.packets import answer_lines, number_in
from checks.models.sheets import NAMES, read_sheet, sheet_after

PAGE = 50
MOST_WORDS = 8
MOST_PAGE, MOST_DELTA = 1_000_000, 1_073_741_824
NAME = NAMES["lei"].index("Entity.LegalName")


def is_separator(character):
    """Whether words are cut at a character: white space, and what is ASCII and neither a letter nor a digit."""
    return character.isspace() or character.isascii() and not character.isalnum()


def words_of(text):
    folded = unicodedata.normalize("NFKC", text).casefold()
    return "".join(" " if is_separator(each) else each for each in folded).split(" ")


def words_in(text):
    """The words of a text, none of them empty."""
    return [word for word in words_of(text) if word]


def is_known(text):
    """Whether each character of a text has a meaning in this version of Unicode, so that others come to the same."""
    return all(unicodedata.category(character) != "Cn" for character in text)


class Search:
    """A search over a copy that was read."""

    def __init__(self, copy, form):
        self.copy, self.form = copy, form
        self.find_words()

    def find_words(self):
        self.words = {key: set(words_in(row[NAME])) for key, row in self.copy.rows.items()}

    def answers(self, data):
        return answer_lines(data, {b"FIND": self.find, b"TAKE": self.take})

    def find(self, text, _has_end, _source):
        words = text.split(" ", 2)
        page = number_in(words[1], 7) if len(words) == 3 else None
        if page is None or page > MOST_PAGE:
            return b"400 PATH"
        wanted = words_in(words[2])
        if not wanted:
            return b"400 NO_WORD"
        if len(wanted) > MOST_WORDS:
            return b"400 TOO_MANY_WORDS"
        found = [key for key, words in self.words.items() if words.issuperset(wanted)]
        names = [{"LEI": key[0], "LegalName": self.copy.rows[key][NAME]} for key in found[PAGE * (page - 1):PAGE * page]]
        return b"200 " + compact({"matches": len(found), "names": names, "page": page})

    def take(self, text, has_end, source):
        words = text.split(" ")
        size = number_in(words[1], 10) if len(words) == 2 else None
        if size is None or size > MOST_DELTA:
            return b"400 PATH"
        data = source.packet(size) if has_end else None
        if data is None:
            return b"400 TRUNCATED"
        delta = read_sheet(data, "lei", self.form, True)
        if delta is None:
            return b"409 DELTA_NOT_READ"
        if self.form == "json" and delta.base != self.copy.number:
            return b"409 WRONG_BASE %d %d" % (self.copy.number, delta.base)
        if self.copy.is_wide and not delta.is_wide:
            return b"409 OLDER_DELTA"
        self.copy = sheet_after(self.copy, delta)
        self.find_words()
        return b"200 " + compact({"rows": len(self.copy.rows)})


def search(form, copy, data):
    """What a run over the bytes of a copy and of an input writes, and its status."""
    sheet = read_sheet(copy, "lei", form)
    if sheet is None:
        return [b"refused COPY_NOT_READ\n"], 2
    return list(Search(sheet, form).answers(data)), 0
