"""Works over a store in a file. It lies in memory, so that no disk is waited for."""
import dataclasses
import itertools

from bench import stores
from bench.inputs import accreditations, bodies, keep_session, named, session, status_after
from bench.trials import Trial, Wrong, add, both, by_command, is_file
from checks.common.inputs import compact
from checks.common.stores import BACK, alter, remove, rows
from checks.older_store import TABLES

COMMITS = 1_000
MOMENT = 1_736_553_600
HISTORY = 200
CELLS = 140_800


# ---- commits


def has_entries(store, count):
    """A check that a store has so many entries."""
    def check(_):
        (found,), = rows(store, "SELECT count(*) FROM entry")
        if found != count:
            raise Wrong(f"the store has {found} entries, not {count}")
    return check


def script(pairs):
    """The statements that insert the entries of accreditations, each in a transaction of its own. The journal and the
    flushes are those of the register's store."""
    yield f"PRAGMA journal_mode=WAL; PRAGMA synchronous=FULL; PRAGMA locking_mode=EXCLUSIVE; {TABLES}\n".encode()
    for entry, (line, reply) in enumerate(pairs, 1):
        lei, answer = line.split()[1].decode(), reply[4:-1].hex()
        row = f"{entry}, 1, '{lei}', 0, {MOMENT}, 3, x'', x'{answer}'"
        yield f"BEGIN; INSERT INTO entry VALUES ({row}); COMMIT;\n".encode()
    yield b"SELECT count(*) FROM entry;\n"


def commits(bench):
    count = bench.count(COMMITS, 20)
    lines, wanted = keep_session(bench, accreditations(count))
    statements = bench.keep("statements", script(accreditations(count)))
    printed = bench.keep("printed", [b"wal\nexclusive\n%d\n" % count])
    store, other = bench.folder / "new.db", bench.folder / "other.db"
    return Trial(
        count,
        lambda program: by_command([program, "lines", "--store", store], both(is_file(wanted), has_entries(store, count)),
                                   lines, before=lambda: remove(store)),
        lambda _: by_command(["sqlite3", other], both(is_file(printed), has_entries(other, count)),
                             statements, before=lambda: remove(other)))


# ---- opening


def with_status(bench, lines, wanted, status):
    """The files of these lines and replies, with a question for the status at the end."""
    asked = bench.keep("lines-and-status", itertools.chain(lines.open("rb"), [b"STATUS\n"]))
    return asked, bench.keep("replies-and-status", itertools.chain(wanted.open("rb"), [status]))


def opening(pairs, status):
    """A work that opens a store with these entries, beside taking them without a store."""
    def make(bench):
        lines, wanted = keep_session(bench, pairs(bench))
        came = status(bench)
        asked, replies = with_status(bench, lines, wanted, came)
        return Trial(
            lines.stat().st_size,
            lambda program: stores.opening(bench, program, stores.make(bench, program, lines, wanted), came),
            lambda program: by_command([program, "lines"], is_file(replies), asked))
    return make


def history_bodies(bench):
    """Uploads that change the same tenth of their records again and again, by other names."""
    each, groups = bench.count(1_000, 20), bench.count(10, 2)
    for upload in range(1, bench.count(HISTORY, 6) + 1):
        first, name = 1 + upload % groups * each, f"{upload} ".ljust(60, "x")
        yield compact({"records": [named(number, name) for number in range(first, first + each)]}), each


def history_status(bench):
    made = [body for body, _ in history_bodies(bench)]
    return status_after(len(made) + 1, sum(map(len, made)), bench.count(10, 2) * bench.count(1_000, 20))


def cell_bodies(bench):
    return bodies(bench.count(CELLS, 200), bench.count(4_400, 50))


def cell_status(bench):
    made = list(cell_bodies(bench))
    return status_after(len(made) + 1, sum(len(body) for body, _ in made), sum(count for _, count in made))


# ---- the move from form 1


def is_moved(store, cells):
    """A check that a store has form 2, with so many cells."""
    def check(_):
        found = rows(store, "SELECT form, (SELECT count(*) FROM cell), (SELECT count(*) FROM cell2) FROM store")
        if found != [(2, 0, cells)]:
            raise Wrong(f"form, cells of form 1 and cells of form 2 are {found}, not {[(2, 0, cells)]}")
    return check


def move(bench):
    count = bench.count(CELLS, 200)
    lines, wanted = keep_session(bench, session(cell_bodies(bench)))

    def side(program, goes_back):
        original = stores.make(bench, program, lines, wanted)
        if goes_back:
            alter(original, BACK)
        store = original.with_suffix(".copy")
        opened = stores.opening(bench, program, store, cell_status(bench), original)
        return dataclasses.replace(opened, check=both(opened.check, is_moved(store, count)))
    return Trial(count, lambda program: side(program, True), lambda program: side(program, False))


add("commits", "1,000 commits of accreditations", "store", commits, "the sqlite3 shell", unit="entries", needs=("sqlite3",))
add("store-history", "opening a store of 200 uploads of 1 MB that change 10,000 records", "store",
    opening(lambda bench: session(history_bodies(bench)), history_status), "taking them without a store")
add("store-cells", "opening a store of 140,800 records", "store",
    opening(lambda bench: session(cell_bodies(bench)), cell_status), "taking them without a store")
add("store-move", "opening and moving a store of form 1 with 140,800 cells", "store", move, "opening it in form 2",
    unit="cells")
