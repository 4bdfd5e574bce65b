"""`search` and `group` answer as plain models do, over copies that are made by chance.

The names have characters of many scripts, of each kind of white space, marks, ligatures and compatibility characters, and
each of them has a meaning in the version of Unicode of the model. The queries have words of the names in another case and
another normalization form, or any words. Deltas are taken between them, some of which are refused. The groups have
parents, ultimate parents and branches by chance, among them circles and entities without a row."""
import random
import sys
import unicodedata

from checks.common.inputs import code
from checks.common.programs import run_command
from checks.common.reports import first_difference
from checks.models.grouping import DIRECT, ULTIMATE, group
from checks.models.searching import is_known, search, words_in
from checks.models.sheets import Sheet, print_sheet, row_of

COPIES, QUICK_COPIES = 100, 6
ROWS, QUERIES, ENTITIES = 120, 60, 30
MOMENT = "2025-01-11T00:00:00Z"
SPACES = [chr(number) for number in (9, 11, 12, 13, 32, 0x85, 0xA0, 0x1680, *range(0x2000, 0x200B), 0x2028, 0x2029, 0x202F,
                                     0x205F, 0x3000)]
# What folding, normalization and the cut of words are particular about.
PARTICULAR = "ßẞſıİIiKÅÅΣσςΐΰŉǰևﬁﬃﬆⅷⅧ™²½㎏ａＡ１－＿､ΆὌᾳᾼΆꭰᏸᲐაՖ̣́̈͜𐐀𐐨𝐀𝒜한한ﺷﷺـ\u00ad\u200b\u200d\u180e\u061c'’-_.,&\x7f\x1f"
# The last character from which names are made: the planes after it have few that fold or decompose.
LAST = 0x1FFFF
ACTIONS = [str.upper, str.lower, str.swapcase, str.title, str.casefold, str,
           *(lambda text, form=form: unicodedata.normalize(form, text) for form in ("NFC", "NFD", "NFKC", "NFKD"))]


def character(chance):
    """A character that isn't the half of a surrogate pair and has a meaning."""
    kind = chance.randrange(4)
    if kind == 0:
        return chr(chance.choice([*range(0x30, 0x3A), *range(0x41, 0x5B), *range(0x61, 0x7B)]))
    if kind == 1:
        return chance.choice(PARTICULAR)
    while True:
        found = chr(chance.randrange(0x21, LAST if kind == 2 else 0x2000))
        if is_known(found) and unicodedata.category(found) not in ("Cs", "Co"):
            return found


def text_of(chance, letters):
    """Some words of a few letters, with white space or punctuation between them."""
    words = ["".join(chance.choice(letters) for _ in range(chance.randrange(1, 4))) for _ in range(chance.randrange(1, 5))]
    return "".join(word + chance.choice([" ", " ", *SPACES, "-", ", ", "."]) for word in words)[:-1]


def sheet_of(table, items, number, base=0):
    """A copy, or a delta if there is a base: some of its rows, by chance, are dropped."""
    rows = dict(sorted(row_of(table, fields) for fields in items))
    return Sheet(table, rows, base > 0, True, number, MOMENT, base)


class Found:
    """What is different, and how many replies and lines are the same."""

    def __init__(self):
        self.wrong, self.count = [], 0

    def compare(self, what, wanted, status, done):
        """Compares a run with what the model says of its replies and its status."""
        count, difference = first_difference(wanted, done.stdout)
        self.wrong += [] if (difference, done.returncode) == ("", status) else [(what, difference, done.returncode, status)]
        self.count += count


# ---- searches


def query_of(chance, names, letters):
    """A line that asks for words of a name, or for others."""
    text = chance.choice(names) if chance.random() < 0.8 else text_of(chance, letters)
    words = [word for word in (words_in(text) if chance.random() < 0.5 else text.split()) if word] or [text]
    words = chance.sample(words, chance.randrange(1, len(words) + 1)) * chance.choice([1, 1, 1, 2])
    text = chance.choice(ACTIONS)(chance.choice([" ", *SPACES]).join(words))
    return f"FIND {chance.choice([1, 1, 1, 2, 3])} {text}".replace("\n", " ").encode() + b"\n"


def packet_of(chance, form, number, letters):
    """The line of a delta from a publication to the next one, and the delta, which isn't always one."""
    items = [{"LEI": code(chance.randrange(2 * ROWS)), "Entity.LegalName": text_of(chance, letters)} for _ in range(20)]
    sheet = sheet_of("lei", items, number + 1, number)
    rows = {key: row if chance.random() < 0.7 else None for key, row in sheet.rows.items()}
    is_wide = form == "json" or chance.random() < 0.5
    data = print_sheet(Sheet("lei", rows, True, is_wide, number + 1, MOMENT, number), form)
    at = chance.randrange(len(data))
    data = chance.choice([data, data, data, data[:at] + data[at + 1:]])
    return b"TAKE %d\n" % len(data) + data


def compare_search(run, chance, found):
    """A search over a copy, with deltas between its queries."""
    letters, form = [character(chance) for _ in range(40)], chance.choice(["csv", "json"])
    names = [text_of(chance, letters) for _ in range(ROWS)]
    items = [{"LEI": code(number), "Entity.LegalName": name} for number, name in enumerate(names)]
    is_wide = form == "json" or chance.random() < 0.5
    copy = print_sheet(Sheet("lei", sheet_of("lei", items, 1).rows, False, is_wide, 1, MOMENT), form)
    sent = [query_of(chance, names, letters) for _ in range(QUERIES)]
    for place in range(10, QUERIES, 10):
        sent[place] = packet_of(chance, form, chance.choice([1, place // 10]), letters)
    path = run.folder / "copy"
    path.write_bytes(copy)
    data = b"".join(sent)
    done = run_command(run.program, data, "search", form, path)
    found.compare(f"search {form}", *search(form, copy, data), done)


# ---- groups


def compare_group(run, chance, found):
    """A report on a group of a graph."""
    letters, form = [character(chance) for _ in range(20)], chance.choice(["csv", "json"])
    entities = [{"LEI": code(number), "Entity.LegalName": text_of(chance, letters)} for number in range(ENTITIES)
                if chance.random() < 0.9]
    relationships = [{
        "Relationship.StartNode": code(chance.randrange(ENTITIES)),
        "Relationship.RelationshipType": chance.choice([DIRECT, DIRECT, ULTIMATE, "IS_INTERNATIONAL_BRANCH_OF"]),
        "Relationship.EndNode": code(chance.randrange(chance.choice([5, ENTITIES]))),
        "Relationship.RelationshipStatus": chance.choice(["ACTIVE", "ACTIVE", "ACTIVE", "INACTIVE"]),
    } for _ in range(chance.randrange(2 * ENTITIES))]
    copies = [print_sheet(sheet_of("lei", entities, 1), form),
              print_sheet(sheet_of("rr", relationships, chance.choice([1] * 9 + [2])), form)]
    paths = [run.folder / "lei", run.folder / "rr"]
    for path, data in zip(paths, copies):
        path.write_bytes(data)
    for who in ["ALL", *(code(chance.randrange(ENTITIES)) for _ in range(2))]:
        done = run_command(run.program, b"", "group", who, form, *paths)
        found.compare(f"group {who} {form}", *group(who, form, *copies), done)


def check(run):
    chance = random.Random(run.seed)
    searches, groups = Found(), Found()
    count = QUICK_COPIES if run.is_quick else COPIES
    for _ in range(count):
        compare_search(run, chance, searches)
        compare_group(run, chance, groups)
    run.report.equal("searches are answered as by the model", searches.wrong[:3], [])
    run.report.holds("enough of them", searches.count >= count * QUERIES, searches.count)
    run.report.equal("groups are reported as by the model", groups.wrong[:3], [])
    run.report.holds("enough of them", groups.count >= count * ENTITIES // 3, groups.count)
    run.report.note(f"{searches.count:,} replies to searches, {groups.count:,} lines on groups, "
                    f"Unicode {unicodedata.unidata_version} of Python {sys.version.partition(' ')[0]}")
