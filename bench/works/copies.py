"""Works over golden copies and deltas in files: `apply`, searches, a mirror, and reports on groups."""
from bench.inputs import (FIRST, FORM_FILES, csv_files, empty_copy, empty_delta, entity_rows, group_report, json_files,
                          link_rows)
from bench.tools import in_python, yardstick
from bench.trials import Step, Trial, add, by_command, by_steps, is_file
from checks.common.inputs import code, compact

ROWS, CHANGES = 101_200, 1_012
NAMES, QUICK_NAMES = 100_000, 2_000
TAKEN = 5_000
FINDS = 200


def keep_files(bench, made):
    """The files of a copy, of a delta, and of the copy after it."""
    return [bench.keep(name, pieces) for name, pieces in zip(("copy", "delta", "after"), made)]


# ---- apply


def apply(form, partner):
    """A work of `apply lei`. `partner` makes the words of the other program, which writes the same."""
    def make(bench):
        made = FORM_FILES[form](bench.count(ROWS, 200), bench.count(CHANGES, 20))
        copy, delta, after = keep_files(bench, made)
        return Trial(
            copy.stat().st_size,
            lambda program: by_command([program, "apply", "lei", form, copy, delta], is_file(after)),
            lambda _: by_command(partner(bench, form, copy, delta), is_file(after)))
    return make


def by_yardstick(bench, form, copy, delta):
    return [yardstick(bench), "apply", "lei", form, copy, delta]


def by_python(_, form, copy, delta):
    return in_python("apply", form, copy, delta)


# ---- search


def town(place, rows):
    """The number of a town. A trade has a hundred names, which are all of one town."""
    return place % min(200, rows // 100)


def name(place, rows):
    """Four words: one that all have, one of 200 towns, one of a hundredth of the rows, and a number."""
    return f"Company Town{town(place, rows)} Trade{place % (rows // 100)} {place}"


def found(places, rows):
    """The reply to a FIND of these places."""
    shown = [{"LEI": code(FIRST + place), "LegalName": name(place, rows)} for place in places[:50]]
    return b"200 " + compact({"matches": len(places), "names": shown, "page": 1}) + b"\n"


def finds(words, count, rows):
    """FIND of so many texts in turn, with their replies. Each text has a trade, which a hundred names have."""
    for turn in range(count):
        trade = turn * 7 % (rows // 100)
        places = list(range(trade, rows, rows // 100))
        yield Step(f"FIND 1 {words(trade, rows)}\n".encode(), is_timed=True), found(places, rows)


def search_trial(bench, rows, steps, changes=10, size=None):
    """A trial of a search over a copy of so many names, with these steps and their replies. The packet of a delta may be one
    of the steps, as None. Without a size the opening is timed, and the size is that of the copy."""
    copy, delta, _ = keep_files(bench, csv_files(rows, changes, lambda place: name(place, rows),
                                                 lambda place: f"Changed {name(place, rows)}"))
    packet = delta.read_bytes()
    take = Step(b"TAKE %d\n" % len(packet) + packet, is_timed=True), b'200 {"rows":%d}\n' % (rows - changes // 10)
    # The first reply shows that the search is open.
    asked = [(Step(b"FIND 1 nobody\n"), b'200 {"matches":0,"names":[],"page":1}\n')]
    asked += [each or take for each in steps]
    wanted = bench.keep("wanted", (reply for _, reply in asked))

    def side(words):
        return by_steps(words, None, [step for step, _ in asked], is_file(wanted), times_opening=size is None)
    return Trial(size or copy.stat().st_size, lambda program: side([program, "search", "csv", copy]),
                 lambda _: side(in_python("search", copy)))


def opening(rows):
    return lambda bench: search_trial(bench, bench.count(rows, QUICK_NAMES), [])


def finding(words):
    def make(bench):
        rows, count = bench.count(NAMES, QUICK_NAMES), bench.count(FINDS, 10)
        return search_trial(bench, rows, list(finds(words, count, rows)), size=count)
    return make


def taking(rows):
    def make(bench):
        changes = bench.count(TAKEN, 100)
        return search_trial(bench, bench.count(rows, QUICK_NAMES), [None], changes, size=changes)
    return make


# ---- mirror


def mirror(rows):
    """A mirror that holds a publication takes a delta, beside `apply` of the same files. What it shows then is compared."""
    def make(bench):
        changes = bench.count(TAKEN, 100)
        copy, delta, after = keep_files(bench, json_files(bench.count(rows, 500), changes))
        packet, held = delta.read_bytes(), copy.read_bytes()
        steps = [
            Step(b"COPY rr %d\n" % len(empty_copy()) + empty_copy()),
            Step(b"COPY repex %d\n" % len(empty_copy()) + empty_copy()),
            Step(b"COPY lei %d\n" % len(held) + held),
            Step(b"DELTA rr %d\n" % len(empty_delta()) + empty_delta()),
            Step(b"DELTA repex %d\n" % len(empty_delta()) + empty_delta()),
            Step(b"DELTA lei %d\n" % len(packet) + packet, is_timed=True),
            Step(b"SHOW lei\n", has_file=True)]
        replies = [b"200 0 1\n", b"200 0 2\n", b"200 1 0\n", b"200 1 1\n", b"200 1 2\n", b"200 2 0\n"]
        shown = after.read_bytes()
        wanted = bench.keep("wanted", [*replies, b"200 %d\n" % len(shown), shown, b"\n"])

        return Trial(
            changes,
            lambda program: by_steps([program, "mirror"], None, steps, is_file(wanted)),
            lambda program: by_command([program, "apply", "lei", "json", copy, delta], is_file(after)))
    return make


# ---- groups


def tree(number):
    return (number - 1) // 10


def tree_depth(number):
    depth = 0
    while number:
        number, depth = tree(number), depth + 1
    return depth


def before(number):
    return number - 1


def itself(number):
    return number


def group(who, rows, parent, depth, is_circle=False):
    """A report on the group of entity 0, or on all, over so many entities, beside reading both copies by Python's csv."""
    def make(bench):
        count = bench.count(rows, 300)
        links = [(number, parent(number)) for number in range(1, count)]
        if is_circle:
            links.insert(0, (0, count - 1))
        entities, relations = bench.keep("lei", entity_rows(count)), bench.keep("rr", link_rows(links))
        report = [b"disagreements 0\n"] if who == "ALL" else group_report(count, parent, depth, not is_circle)
        wanted = bench.keep("wanted", report)
        lines = bench.keep("lines", [b"%d\n" % (count + 1 + len(links) + 1)])
        return Trial(
            count,
            lambda program: by_command([program, "group", who, "csv", entities, relations], is_file(wanted)),
            lambda _: by_command(in_python("read_csv", entities, relations), is_file(lines)))
    return make


# ---- all of them


def add_large(rows, is_long):
    """The works that are taken in two sizes."""
    million, more = f"{rows:,}", {"is_long": is_long}
    add(f"search-opening-{rows}", f"opening a search of {million} names", "copies", opening(rows), "csv and FTS5",
        series="opening a search", **more)
    add(f"search-take-{rows}", f"a delta of 5,000 changes into a search of {million}", "copies", taking(rows),
        "csv and FTS5", unit="changes", series="a delta into a search", **more)
    add(f"mirror-{rows}", f"a delta of 5,000 changes into a mirror of {million} rows", "copies", mirror(rows),
        "apply of the same files", unit="changes", series="a delta into a mirror", **more)
    for shape, who, parent, depth, is_circle in (
            ("tree", code(0), tree, tree_depth, False), ("chain", code(0), before, itself, False),
            ("circle", "ALL", before, itself, True)):
        what = "all" if who == "ALL" else "the group"
        add(f"group-{shape}-{rows}", f"a report on {what} of a {shape} of {million} entities", "copies",
            group(who, rows, parent, depth, is_circle), "csv, which reads both copies", unit="rows",
            series=f"a report on a {shape}", **more)


for kind in FORM_FILES:
    title = f"apply in {kind.upper()}, 1,012 changes of 101,200 records"
    add(f"apply-{kind}", title, "copies", apply(kind, by_yardstick), "yardstick", needs=("rustc",))
    add(f"apply-{kind}-python", title, "copies", apply(kind, by_python), f"Python's {kind}")
add("find-rare", "200 FIND of two rare words, 100 found", "copies",
    finding(lambda trade, rows: f"town{town(trade, rows)} trade{trade}"), "csv and FTS5", unit="queries")
add("find-common", "200 FIND of a common and a rare word", "copies", finding(lambda trade, _: f"company trade{trade}"),
    "csv and FTS5", unit="queries")
add_large(NAMES, is_long=False)
add_large(500_000, is_long=True)
