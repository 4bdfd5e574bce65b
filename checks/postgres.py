"""PostgreSQL follows a register by examples/into_postgres, and has its golden copies byte for byte.

A register makes ten publications, in which rows of all three tables come, change and go. `leireg-files` exports each.
`into_postgres` takes it into a PostgreSQL of the check's own, and `export_from_postgres.sql` writes the three tables,
which are compared with the register's copies in CSV. A further run changes no row. Runs and sessions of the database
are killed, two run at once, and files are taken away, damaged, or another table's: the database then has one whole
publication. The types of columns, the index by words and the keys are tried by queries. The code of examples/pandas.md
reads the same copies and the store. It needs Debian's packages postgresql and python3-pandas."""
import contextlib
import csv
import hashlib
import io
import json
import os
import pathlib
import random
import re
import shutil
import signal
import subprocess
import sys
import time

from checks.common import stores
from checks.common.file_servers import Files
from checks.common.inputs import (EXCEPTION_NAMES, ISSUER, RECORD_NAMES, RELATIONSHIP_NAMES, SUCCESSORS, TABLES,
                                  compact, exception, moment, record, relationship)
from checks.common.programs import ROOT
from checks.common.servers import Server
from checks.files import export, finish, start
from checks.mirrors import Held, change_items

PUBLICATIONS, QUICK_PUBLICATIONS = 10, 5
HELD, QUICK_HELD = 40, 10
KILLS, QUICK_KILLS = 12, 3
WAIT = 60
INTO, EXPORT_QUERY = ROOT / "examples/into_postgres", ROOT / "examples/export_from_postgres.sql"
PANDAS_PAGE = ROOT / "examples/pandas.md"
BLOCK = re.compile(r"^```python\n(.*?)^```$", re.M | re.S)
FIRST_SPECIAL = 1_001
ODD_NAME = 'Ünïcode "Ω" \\N \\. {a,b}, 株式会社 😀'


# ---- PostgreSQL


class Postgres:
    """A PostgreSQL of the check's own, on a socket in its folder. It refuses to run as root, so root runs it as another
    user. As a context it is ended at the end."""

    def __init__(self, folder):
        programs = sorted(pathlib.Path("/usr/lib/postgresql").glob("*/bin/postgres"))
        found = shutil.which("postgres") or (programs and programs[-1])
        if not found or not shutil.which("psql"):
            raise RuntimeError("PostgreSQL isn't there: it comes by Debian's package postgresql")
        self.user = {"user": "postgres", "group": "postgres", "extra_groups": []} if os.getuid() == 0 else {}
        self.folder = folder
        folder.mkdir()
        if self.user:
            folder.parent.chmod(0o711)
            shutil.chown(folder, "postgres", "postgres")
        self.words = ["--host", str(folder), "--username", "check", "--dbname", "postgres"]
        self.command(pathlib.Path(found).with_name("initdb"), "--pgdata", folder / "data", "--auth", "trust",
                     "--username", "check", "--encoding", "UTF8", "--locale", "C.UTF-8", "--no-sync").wait(WAIT)
        self.process = self.command(found, "-D", folder / "data", "-c", "listen_addresses=", "-c",
                                    f"unix_socket_directories={folder}", "-c", "fsync=off", "-c", "shared_buffers=16MB")
        try:
            self.wait()
        except BaseException:
            self.end()
            raise

    def command(self, *words):
        with open(self.folder.parent / "postgres.log", "ab") as log:
            return subprocess.Popen(list(map(str, words)), cwd="/", stdin=subprocess.DEVNULL, stdout=log, stderr=log,
                                    **self.user)

    def wait(self):
        """Waits until the database answers, also after it recovered, and no session of a run is left."""
        end = time.monotonic() + WAIT
        while self.process.poll() is None and time.monotonic() < end:
            if self.ask("SELECT count(*) FROM pg_locks WHERE locktype = 'advisory'") == "0":
                return
            time.sleep(0.05)
        raise RuntimeError(f"PostgreSQL doesn't answer: {(self.folder.parent / 'postgres.log').read_text()[-2_000:]}")

    def psql(self, *words, **more):
        return subprocess.run(["psql", "-XqAt", "-v", "ON_ERROR_STOP=1", *self.words, *words], stdin=subprocess.DEVNULL,
                              capture_output=True, text=True, **more)

    def ask(self, query):
        """What a query answers, or the message of its fault."""
        done = self.psql("-c", query)
        return (done.stdout if done.returncode == 0 else done.stderr).rstrip("\n")

    def publication(self):
        """The number of the publication that the database has, or 0."""
        if self.ask("SELECT to_regclass('leireg.publication')") == "":
            return 0
        return int(self.ask("SELECT coalesce(max(number), 0) FROM leireg.publication"))

    def is_empty(self):
        """Whether the tables have no rows, or aren't there."""
        return not any(self.psql("-c", f"SELECT 1 FROM leireg.{table} LIMIT 1").stdout for table in TABLES)

    def tables(self, folder):
        """The three tables as the page's query exports them."""
        folder.mkdir(exist_ok=True)
        done = self.psql("-f", EXPORT_QUERY, cwd=folder)
        if done.returncode:
            return [done.stderr]
        return [(folder / f"{table}.csv").read_bytes() for table in TABLES]

    def versions(self):
        """Where each row is and which transaction wrote it."""
        return [self.ask(f"SELECT xmin, ctid FROM leireg.{table} ORDER BY ctid")
                for table in (*TABLES, "publication")]

    def __enter__(self):
        return self

    def __exit__(self, *_):
        self.end()

    def end(self):
        if self.process.poll() is None:
            self.process.send_signal(signal.SIGINT)
        self.process.wait(WAIT)


# ---- the register


def special_items(number):
    """Items for each publication that show what columns have to hold: successors, an event, the first and the last
    moment, absent fields, and texts with what SQL, COPY and CSV write in their own ways."""
    odd = {"Entity.LegalName": f"{ODD_NAME} {number}", "Entity.LegalAddress.Country": "NA",
           "Entity.LegalAddress.Region": "null", "Entity.LegalAddress.City": "\\\\",
           "Entity.LegalAddress.PostalCode": "007", "Entity.EntityCreationDate": "0001-01-01T00:00:00Z"}
    event = {"Entity.Event.1.Type": "MERGER", "Entity.Event.1.EffectiveDate": "9998-12-31T23:59:59Z",
             "Entity.Event.1.RecordedDate": moment(-2), "Entity.Event.1.Status": "IN_PROGRESS"}
    retired = {"Entity.EntityStatus": "INACTIVE", "Registration.RegistrationStatus": "RETIRED",
               "Registration.LastUpdateDate": moment(-1)}
    first = FIRST_SPECIAL
    items = [record(first, odd), record(first + 1, event if number % 2 else {}), record(first + 2), record(first + 3)]
    succeeds = f"{items[2]['LEI']} {items[0]['LEI']}"
    if number == 1:
        return items
    return [*items[:3], record(first + 3, {**retired, **({SUCCESSORS: succeeds} if number % 3 else {})})]


class Register:
    """A server that makes publications, and what it answered at each: the copies in CSV by number."""

    def __init__(self, run, server):
        self.server, self.run, self.number, self.copies, self.odd = server, run, 0, {}, []
        self.chance, self.held = random.Random(run.seed), Held()
        self.size = QUICK_HELD if run.is_quick else HELD
        self.url = f"http://127.0.0.1:{server.port}"
        self.ask("PUT", f"/v1/issuers/{ISSUER}")

    def ask(self, method, path, body=None):
        status, text = self.server.ask(method, path, body)
        if status not in (200, 201):
            self.odd.append((path, status, text[:200]))
        return text

    def publish(self, folder):
        """Uploads changes, publishes them, and exports the publication into a folder."""
        self.number += 1
        places = range(1, self.size + 1)
        if self.number > 1:
            places = self.chance.sample(places, 6)
        value = change_items(self.held, self.number, places, self.chance)
        value["records"] += special_items(self.number)
        value["relationships"].append(come_and_go(self.number))
        value["exceptions"].append(exception_comes_and_goes(self.number))
        answer = self.ask("PUT", f"/v1/issuers/{ISSUER}/uploads/{self.number}", compact(value))
        self.odd += [verdict for verdict in json.loads(answer)["items"] if verdict != "ACCEPTED"]
        self.ask("PUT", f"/v1/publications/{self.number}")
        self.copies[self.number] = [self.ask("GET", f"/v1/copies/{table}/csv").encode() for table in TABLES]
        status, written = export(self.url, folder)
        if status:
            self.odd.append(written)


def come_and_go(number):
    """A relationship that is annulled in every second publication, so that the copy lacks it."""
    ended = {"Relationship.RelationshipStatus": "INACTIVE", "Relationship.EndDate": moment(-1),
             "Registration.RegistrationStatus": "ANNULLED"}
    return relationship(FIRST_SPECIAL, FIRST_SPECIAL + 1, {} if number % 2 else ended)


def exception_comes_and_goes(number):
    fields = exception(FIRST_SPECIAL + 1, {"ExceptionReference": f"N/A, \\t {number}"})
    return fields if number % 2 else {**fields, "Action": "WITHDRAW"}


# ---- runs


def take(postgres, source, seconds=120):
    """A run of into_postgres: its status and what it wrote."""
    return finish(start([INTO, source, *postgres.words]), seconds)


def is_whole(postgres, register, folder):
    """Whether the database has all of one publication, or nothing yet, and which."""
    number = postgres.publication()
    return number, postgres.tables(folder) == register.copies[number] if number else postgres.is_empty()


def check_history(run, postgres, register, folder):
    """Follows each publication."""
    last = QUICK_PUBLICATIONS if run.is_quick else PUBLICATIONS
    wrong, out = [], run.folder / "out"
    for number in range(1, last + 1):
        register.publish(folder)
        status, written = take(postgres, folder)
        if number == 1:
            shutil.copytree(folder, run.folder / "early")
        if (status, is_whole(postgres, register, out)) != (0, (number, True)):
            wrong.append((number, status, written[-500:], is_whole(postgres, register, out)))
    run.report.equal("the register takes all items, and publishes them", register.odd[:3], [])
    run.report.equal(f"the database has the register's copies after each of {last} publications", wrong[:2], [])
    kinds = [json.loads(path.read_text())["records"] for table in TABLES for path in folder.glob(f"{table}/*-*.json")]
    drops = sum(change["action"] == "DROP" for changes in kinds for change in changes)
    run.report.holds("rows were dropped", drops > 0)
    run.report.note(f"{last} publications, {sum(map(len, kinds))} changes, of which {drops} drop a row")
    before = postgres.versions()
    status, written = take(postgres, folder)
    run.report.equal("a further run changes no row", (status, written, postgres.versions() == before),
                     (0, f"the database has publication {last}\n", True))


def check_queries(run, postgres, register):
    """The columns with their types and comments, the keys, and the index by words."""
    lei = record(FIRST_SPECIAL)["LEI"]
    ask = postgres.ask
    for table, names in zip(TABLES, (RECORD_NAMES, RELATIONSHIP_NAMES, EXCEPTION_NAMES)):
        columns = ask("SELECT col_description(attrelid, attnum), format_type(atttypid, atttypmod) FROM pg_attribute "
                      f"WHERE attrelid = 'leireg.{table}'::regclass AND attnum > 0 ORDER BY attnum")
        fields = [line.split("|") for line in columns.splitlines()]
        moments = [name for name, kind in fields if kind == "timestamp with time zone"]
        run.report.equal(f"{table} has a column for each field, and moments are moments",
                         ([name for name, _ in fields], moments),
                         (names, [name for name in names if name.endswith("Date")]))
    run.report.equal("the first moment is a moment, and an absent field is NULL",
                     ask("SELECT extract(year FROM creation_date AT TIME ZONE 'UTC'), legal_name_language IS NULL, "
                         f"legal_address_region FROM leireg.lei WHERE lei = '{lei}'"), "1|t|null")
    retired, successor = record(FIRST_SPECIAL + 3)["LEI"], record(FIRST_SPECIAL + 2)["LEI"]
    wanted = f"{{{successor},{lei}}}" if register.number % 3 else ""
    run.report.equal("successors are an array",
                     ask(f"SELECT successors FROM leireg.lei WHERE lei = '{retired}'"), wanted)
    words = "to_tsvector('simple', legal_name) @@ plainto_tsquery('simple', 'ünïcode 株式会社')"
    run.report.equal("an entity is found by words of its name",
                     ask(f"SELECT lei FROM leireg.lei WHERE {words}"), lei)
    explain = f"EXPLAIN SELECT lei FROM leireg.lei WHERE {words}"
    plan = postgres.psql("-c", "SET enable_seqscan = off", "-c", explain).stdout
    run.report.holds("and by way of the index", "lei_words" in plan, plan)
    keys = ask("SELECT string_agg(a.attname, ' ' ORDER BY a.attnum) FROM pg_constraint c JOIN pg_attribute a "
               "ON a.attrelid = c.conrelid AND a.attnum = ANY (c.conkey) WHERE c.contype = 'p' "
               "AND c.conrelid::regclass::text LIKE 'leireg.%' AND a.attname <> 'one' GROUP BY c.conrelid "
               "ORDER BY min(c.conrelid::regclass::text)")
    run.report.equal("the keys are those of the formats", keys.splitlines(),
                     ["lei", "lei category", "start_node relationship_type end_node"])


def check_missing(run, postgres, register, folder):
    """Takes away a delta of each table in turn: it is named, and the copies are taken. Without the copies, too, nothing
    is taken, and the copy that is needed is named."""
    out = run.folder / "out"
    for table in TABLES[:1] if run.is_quick else TABLES:
        register.publish(folder)
        base, number = register.number - 1, register.number
        delta, copy = f"{table}/{base}-{number}.json", f"{table}/{number}.json"
        (folder / delta).rename(run.folder / "away")
        (folder / copy).rename(run.folder / "copy")
        status, written = take(postgres, folder)
        run.report.holds(f"without the delta and the copy of {table} nothing is taken, and both are named",
                         (status, is_whole(postgres, register, out)) == (1, (base, True))
                         and delta in written and copy in written, written)
        (run.folder / "copy").rename(folder / copy)
        status, written = take(postgres, folder)
        run.report.holds(f"without the delta of {table} the copies are taken, and it is named",
                         (status, is_whole(postgres, register, out)) == (0, (number, True))
                         and delta in written, written)
        (run.folder / "away").rename(folder / delta)


def check_http(run, postgres, register, folder):
    """Takes a publication from a server, by its deltas, and then another one whose delta the server doesn't have."""
    for what, lost, how in (("", None, "the deltas"), (", which lacks a delta", "gone", "its copies")):
        register.publish(folder)
        path = f"rr/{register.number - 1}-{register.number}.json"
        with Files(folder, lambda asked, _: lost if asked.strip("/") == path else None) as server:
            status, written = take(postgres, server.url)
        run.report.holds(f"from a server{what} a publication is taken by {how}",
                         (status, is_whole(postgres, register, run.folder / "out")) == (0, (register.number, True))
                         and f"took publication {register.number} by {how}" in written
                         and (path in written) == bool(lost), written)


def changed_files(folder, base, number):
    """Wrong files by what is wrong with them: the path, its bytes, and whether its SHA-256 is listed."""
    lei, rr = (folder / f"{table}/{base}-{number}.json" for table in ("lei", "rr"))
    data = lei.read_bytes()
    return {
        "another table's": (lei, rr.read_bytes(), True),
        "cut": (lei, data[:-10], True),
        "a changed byte": (lei, data.replace(b"Paris", b"Pariz", 1), False),
        "no JSON": (lei, data.replace(b'"record":', b'"record";', 1), True),
        "a wrong count": (lei, re.sub(rb'"recordCount":(\d+)', rb'"recordCount":1\1', data, count=1), True),
        "another base": (lei, data.replace(b'"fromPublication":%d,' % base, b'"fromPublication":%d,' % number), True),
        "a moment that is none": (lei, data.replace(b'-01-10T09:00:00Z"', b'-01-32T09:00:00Z"', 1), True),
        "a third kind of change": (lei, data.replace(b'"action":"PUT"', b'"action":"ADD"', 1), True),
    }


def check_wrong_files(run, postgres, register, folder):
    """Each wrong file is refused, and the database is as it was."""
    register.publish(folder)
    number, base = register.number, register.number - 1
    listing = folder / f"publication/{number}.json"
    listed, before = listing.read_text(), postgres.versions()
    for what, (path, wrong, is_listed) in changed_files(folder, base, number).items():
        data = path.read_bytes()
        path.write_bytes(wrong)
        if is_listed:
            listing.write_text(listed.replace(hashlib.sha256(data).hexdigest(), hashlib.sha256(wrong).hexdigest()))
        status, written = take(postgres, folder)
        path.write_bytes(data)
        listing.write_text(listed)
        run.report.equal(f"a file that is wrong ({what}) is refused, and no row has changed",
                         (wrong != data, status, "Traceback" in written, postgres.versions() == before),
                         (True, 1, False, True))
    status, written = take(postgres, folder)
    run.report.equal("then the right file is taken", (status, is_whole(postgres, register, run.folder / "out")),
                     (0, (number, True)))


def check_kills(run, postgres, register, folder, early):
    """Kills runs and sessions of the database, of which some start from nothing and take copies, and some from an early
    publication, and take deltas."""
    odd, left, out = [], [], run.folder / "out"
    for place in range(QUICK_KILLS if run.is_quick else KILLS):
        postgres.ask("DROP SCHEMA leireg CASCADE")
        if place % 2:
            take(postgres, early)
        process = start([INTO, folder, *postgres.words])
        is_of_session = place % 3 == 2
        if is_of_session:
            kill_session(postgres, process)
        _, written = finish(process, 120 if is_of_session else register.chance.uniform(0.05, 0.4))
        postgres.wait()
        number, whole = is_whole(postgres, register, out)
        left.append(number)
        if not whole or "Traceback" in written:
            odd.append((place, number, written))
    run.report.equal("a run that is killed, or whose session is, leaves a whole publication or none", odd[:2], [])
    run.report.note(f"the publications that runs left that were killed on the way to {register.number}: {left}")
    status, written = take(postgres, folder)
    run.report.equal("and the next run takes the latest", (status, is_whole(postgres, register, out)),
                     (0, (register.number, True)))


def kill_session(postgres, process):
    """Kills the session of a run with signal 9 as soon as there is one."""
    end = time.monotonic() + WAIT
    while time.monotonic() < end and process.poll() is None:
        pid = postgres.ask("SELECT pid FROM pg_locks WHERE locktype = 'advisory' AND granted LIMIT 1")
        if pid.isdigit():
            with contextlib.suppress(ProcessLookupError):
                os.kill(int(pid), signal.SIGKILL)
            return


def check_two(run, postgres, register, folder):
    """Two runs at once over a new publication and from nothing."""
    for what, statement in (("a new publication", "SELECT 1"), ("nothing", "DROP SCHEMA leireg CASCADE")):
        register.publish(folder)
        postgres.ask(statement)
        runs = [start([INTO, folder, *postgres.words]) for _ in range(2)]
        ends = [finish(each) for each in runs]
        took = sum(written.count("took ") for _, written in ends)
        run.report.equal(f"of two runs at once over {what}, one takes it",
                         ([status for status, _ in ends], took, is_whole(postgres, register, run.folder / "out")),
                         ([0, 0], 1, (register.number, True)))


# ---- pandas


def check_pandas(run, register, store):
    """Runs each block of the page by itself over the copies and the store, and prints what it read."""
    pythons = [sys.executable, "/usr/bin/python3"]
    python = next((each for each in pythons if os.path.exists(each) and subprocess.run(
        [each, "-c", "import pandas"], capture_output=True).returncode == 0), None)
    if not python:
        raise RuntimeError("pandas isn't there: it comes by Debian's package python3-pandas")
    folder = run.folder / "pandas"
    folder.mkdir()
    for table, data in zip(TABLES, register.copies[register.number]):
        (folder / f"{table}.csv").write_bytes(data)
    (folder / "lei.json").write_text(register.ask("GET", "/v1/copies/lei/json"))
    stores.copy_files(store, folder / "register.db")
    blocks = BLOCK.findall(PANDAS_PAGE.read_text())
    ends = ['print(table.to_csv(index=False), end="")', 'print(table.to_csv(index=False), end="")',
            'print(len(entries), entries["body"].iloc[1])', 'print(len(cells), cells["row"].notna().sum())']
    run.report.equal("examples/pandas.md has four blocks of at most five lines",
                     (len(blocks), max(block.count("\n") for block in blocks) <= 5), (len(ends), True))
    wanted_rows = list(csv.reader(io.StringIO(register.copies[register.number][0].decode())))
    outputs = [subprocess.run([python, "-c", block + last], cwd=folder, capture_output=True, text=True)
               for block, last in zip(blocks, ends)]
    run.report.equal("no block fails", [done.stderr for done in outputs if done.returncode], [])
    came_rows = list(csv.reader(io.StringIO(outputs[0].stdout)))
    run.report.equal("a copy in CSV has each text", came_rows == wanted_rows, True)
    names, *rows = csv.reader(io.StringIO(outputs[1].stdout))
    came = {row[names.index("LEI")]: dict(zip(names, row)) for row in rows}
    wanted = {row[0]: dict(zip(wanted_rows[0], row)) for row in wanted_rows[1:]}
    came = {lei: {name: row.get(name, "") for name in wanted_rows[0]} for lei, row in came.items()}
    run.report.equal("a copy in JSON has each text", came == wanted, True)
    entries, cells = stores.entries(folder / "register.db"), stores.cells(folder / "register.db")
    body = next(bytes(value) for value in entries[1] if isinstance(value, bytes))
    run.report.equal("the store's entries have their bodies as text",
                     outputs[2].stdout, f"{len(entries)} {body.decode()}\n")
    run.report.equal("the store's cells have their rows", outputs[3].stdout,
                     f"{len(cells)} {sum(row is not None for *_, row in cells)}\n")


def check(run):
    store, folder = run.folder / "register.db", run.folder / "publish"
    with Server(run.program, "--store", store) as server, Postgres(run.folder / "postgres") as postgres:
        register = Register(run, server)
        check_history(run, postgres, register, folder)
        check_queries(run, postgres, register)
        check_missing(run, postgres, register, folder)
        check_http(run, postgres, register, folder)
        check_wrong_files(run, postgres, register, folder)
        check_two(run, postgres, register, folder)
        check_kills(run, postgres, register, folder, run.folder / "early")
        check_pandas(run, register, store)
