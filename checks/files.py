"""Publications leave as files that never change, and followers of any servers of them show the register's copies.

A register makes publications in which all three tables change. `leireg-files` exports most of them, and each file is
compared with that of a model. So it is after an export was killed, after a response broke off, and if the register
publishes in the middle of an export. Eight followers run over three servers of these files: one is stale, one loses a
third of what it is asked for, and one is nginx behind a slow proxy. Some followers are killed. Whatever they show at
any time is one publication, and at the end the register's latest. Further followers meet deltas that are gone or broken
off, and servers that lie. A copy of the store, and a replay of its entries, serve the same copies as the register."""
import concurrent.futures
import contextlib
import hashlib
import json
import os
import random
import re
import shutil
import signal
import subprocess
import threading

from checks.common import stores
from checks.common.file_servers import Between, Files, SlowProxy, nginx
from checks.common.inputs import FORMS, ISSUER, TABLES, answer_to_accredit, answer_to_upload, compact
from checks.common.nginx import PROGRAM
from checks.common.programs import ROOT
from checks.common.servers import Server
from checks.mirrors import Held, change_items
from checks.models.sheets import is_moment, print_sheet

PUBLICATIONS, QUICK_PUBLICATIONS = 16, 6
HELD, QUICK_HELD = 40, 10
# Each fourth publication isn't exported, from the third one on.
SKIPPED = range(3, 1_000, 4)
# The share of requests that one of the servers loses, the bytes a second of another, and what of the runs are killed.
LOSSES, RATE, KILLS = 1 / 3, 300_000, 0.4
# How many followers run at once, how often one runs at most at the end, and how often an export is killed.
AT_ONCE, TRIES = 3, 80
KILLED_EXPORTS, QUICK_KILLED_EXPORTS = 20, 3
EXPORT, FOLLOW = ROOT / "packaging/bin/leireg-files", ROOT / "packaging/bin/leireg-follow"
REPLAY = ROOT / "examples/replay_entries"


# ---- scripts


def start(command, **variables):
    """A script in a group of its own, so that all that it started can be killed with it."""
    environment = {name: value for name, value in os.environ.items() if not name.lower().endswith("_proxy")}
    return subprocess.Popen(list(map(str, command)), env={**environment, **variables}, stdin=subprocess.DEVNULL,
                            stdout=subprocess.PIPE, stderr=subprocess.STDOUT, text=True, start_new_session=True)


def finish(process, seconds=120):
    """The status of a script and what it wrote. It is killed after so many seconds."""
    with process:
        try:
            written, _ = process.communicate(timeout=seconds)
        except subprocess.TimeoutExpired:
            os.killpg(process.pid, signal.SIGKILL)
            written, _ = process.communicate()
        return process.returncode, written


def export(url, folder, seconds=120, **variables):
    return finish(start([EXPORT, folder], LEIREG_URL=url, **variables), seconds)


def tree(folder):
    """The bytes of each file below a folder, by its path. What is hidden isn't meant for others."""
    paths = [path for path in folder.rglob("*") if path.is_file()]
    named = {str(path.relative_to(folder)): path.read_bytes() for path in paths}
    return {path: data for path, data in named.items() if not path.startswith(".")}


# ---- the register


class Publisher:
    """A register that makes publications, with the files that a model makes of them. What it answers otherwise than the
    model is in `wrong`."""

    def __init__(self, run, server):
        self.server, self.wrong, self.chance = server, [], random.Random(run.seed)
        self.held, self.size = Held(), QUICK_HELD if run.is_quick else HELD
        self.copies, self.shown = {}, {}
        self.number, self.exported = 0, []
        self.expect(f"/v1/issuers/{ISSUER}", None, (200, answer_to_accredit(1).decode()))

    @property
    def url(self):
        return f"http://127.0.0.1:{self.server.port}"

    def expect(self, path, body, wanted):
        came = self.server.ask("PUT", path, body)
        if came != wanted:
            self.wrong.append((path, came, wanted))

    def publish(self):
        """Changes some of what is held and adds an entity, in an upload of the publication's number, and publishes."""
        self.number += 1
        places = range(1, self.size + 1)
        if self.number > 1:
            places = [*self.chance.sample(places, 4), self.size + self.number]
        value = change_items(self.held, self.number, places, self.chance)
        verdicts = ["ACCEPTED"] * sum(map(len, value.values()))
        wanted = 200, answer_to_upload(2 * self.number, self.number, verdicts).decode()
        self.expect(f"/v1/issuers/{ISSUER}/uploads/{self.number}", compact(value), wanted)
        status, text = self.server.ask("PUT", f"/v1/publications/{self.number}")
        at = json.loads(text)["contentDate"] if status == 201 else ""
        sheets = {table: self.held.sheet(table, self.number, at) for table in TABLES}
        counts = {table: len(sheet.rows) for table, sheet in sheets.items()}
        wanted = {"contentDate": at, "entry": 2 * self.number + 1, "publication": self.number, **counts}
        if not is_moment(at) or text.encode() != compact(wanted):
            self.wrong.append((self.number, text, wanted))
        self.copies[self.number] = sheets
        self.shown[self.number] = in_short(print_sheet(sheet, "json") for sheet in sheets.values())

    def latest(self):
        """What a follower has to show: the number of the latest publication, and the copies that the register gives."""
        return self.number, in_short(ask_copies(self.server))

    def note_export(self):
        """Notes that the latest publication was exported."""
        bases = sorted({self.exported[-1][0], self.number - 1}) if self.exported else []
        self.exported.append((self.number, bases))

    def files(self):
        """The tree of all that was exported."""
        found, publications = {}, []
        for number, bases in self.exported:
            sheets = self.copies[number]
            about = {"contentDate": sheets["lei"].moment, "deltasFrom": bases, "publication": number,
                     "counts": {table: len(sheet.rows) for table, sheet in sheets.items()}}
            packets = {f"{table}/{number}.json": sheet for table, sheet in sheets.items()}
            packets |= {f"{table}/{base}-{number}.json": self.held.delta(sheet, base)
                        for table, sheet in sheets.items() for base in bases}
            packets = {path: print_sheet(sheet, "json") for path, sheet in sorted(packets.items())}
            listed = [{"bytes": len(data), "path": path, "sha256": hashlib.sha256(data).hexdigest()}
                      for path, data in packets.items()]
            found |= packets | {f"publication/{number}.json": compact({**about, "files": listed})}
            publications.append(about)
        return found | {"manifest.json": compact({"latest": self.number, "publications": publications})}


def in_short(tables):
    """What stands for three tables: as long as it is equal, they are."""
    return [hashlib.sha256(data).hexdigest()[:16] for data in tables]


def ask_copies(server, form="json"):
    """The three copies that a register gives."""
    return [server.ask("GET", f"/v1/copies/{table}/{form}")[1].encode() for table in TABLES]


def first_odd(seen, wanted):
    """The first path whose file differs or is only in one of two trees, or nothing."""
    odd = [path for path in sorted({*seen, *wanted}) if seen.get(path) != wanted.get(path)]
    return [(path, seen.get(path, b"none")[:200], wanted.get(path, b"none")[:200]) for path in odd[:1]]


# ---- followers


class Follower:
    """A folder that follows some servers. It has the publications that were seen in it, and whatever was none."""

    def __init__(self, run, folder, urls, publisher):
        self.folder, self.command, self.publisher = folder, [FOLLOW, *urls, folder], publisher
        self.program, self.seen, self.odd, self.kills = str(run.program), set(), [], 0

    def run(self, seconds=120):
        """Runs once, and is killed after so many seconds. Returns the status and what was written."""
        status, written = finish(start(self.command, LEIREG_PROGRAM=self.program), seconds)
        self.kills += status == -signal.SIGKILL
        self.look()
        return status, written

    def look(self):
        """What is shown, as its number and its tables in short. What was replaced twice meanwhile can't be read."""
        with contextlib.suppress(FileNotFoundError):
            number = int(os.readlink(self.folder / "latest"))
            tables = in_short((self.folder / str(number) / f"{table}.json").read_bytes() for table in TABLES)
            self.seen.add(number)
            if tables != self.publisher.shown.get(number):
                self.odd.append((number, tables))
            return number, tables
        return 0, []

    def catch_up(self):
        """Runs until it has the latest publication that its servers have. Says whether it got there."""
        return any(self.run()[0] == 0 for _ in range(TRIES))


def watch(followers, is_over):
    """Looks at what followers show, again and again."""
    while not is_over.wait(0.02):
        for follower in followers:
            follower.look()


def loses_a_third(seed):
    """Loses a third of all requests by chance: of these some aren't found, and the others are cut off."""
    def loses(path, times):
        drawn = random.Random(f"{seed} {path} {times}").random()
        return None if drawn > LOSSES else "gone" if drawn < LOSSES / 2 else "cut"
    return loses


def check_history(run, publisher):
    """Publishes, exports and follows at the same time. Returns the folder of all files, and a stale one."""
    last = QUICK_PUBLICATIONS if run.is_quick else PUBLICATIONS
    folder, stale = run.folder / "publish", run.folder / "stale"
    run.report.equal("before the first publication there is nothing to export",
                     (export(publisher.url, folder)[0], tree(folder)), (0, {}))
    publisher.publish()
    publisher.note_export()
    run.report.equal("the first publication is exported", export(publisher.url, folder)[0], 0)
    shutil.copytree(folder, stale)
    with contextlib.ExitStack() as servers:
        old, losing = servers.enter_context(Files(stale)), servers.enter_context(Files(folder, loses_a_third(run.seed)))
        address = f"unix:{run.folder / 'nginx' / 'socket'}"
        servers.enter_context(nginx(run.folder / "nginx", folder, address))
        slow = f"{servers.enter_context(SlowProxy(address, RATE)).url}/publish"
        sets = [[slow], [losing.url], [old.url, slow], [losing.url, old.url], [losing.url, slow], [slow, losing.url],
                [old.url, losing.url, slow], [slow, old.url, losing.url]]
        followers = [Follower(run, run.folder / f"follower-{place}", urls, publisher)
                     for place, urls in enumerate(sets, 1)]
        is_over = threading.Event()
        watcher = threading.Thread(target=watch, args=(followers, is_over))
        watcher.start()
        try:
            let_follow(run, publisher, followers, folder, stale, last)
            with concurrent.futures.ThreadPoolExecutor(AT_ONCE) as pool:
                ends = list(pool.map(Follower.catch_up, followers))
        finally:
            is_over.set()
            watcher.join()
    report_followers(run, publisher, followers, ends)
    return folder, stale


def let_follow(run, publisher, followers, folder, stale, last):
    """Makes the publications up to the last one. Meanwhile followers run, of which some are killed."""
    statuses, odd = [], []
    with concurrent.futures.ThreadPoolExecutor(AT_ONCE) as pool:
        while publisher.number < last:
            chosen = publisher.chance.sample(followers, 4)
            limits = [publisher.chance.uniform(0.02, 0.6) if publisher.chance.random() < KILLS else 120 for _ in chosen]
            running = [pool.submit(follower.run, limit) for follower, limit in zip(chosen, limits)]
            publisher.publish()
            if publisher.number not in SKIPPED:
                publisher.note_export()
                statuses.append(export(publisher.url, folder))
                odd += first_odd(tree(folder), publisher.files())
            if publisher.number == 2 * last // 3:
                shutil.rmtree(stale)
                shutil.copytree(folder, stale)
            concurrent.futures.wait(running)
    run.report.equal("each export ends well and writes nothing", statuses, [(0, "")] * len(statuses))
    run.report.equal("the files are those of the model, and none is another one later", odd[:1], [])
    run.report.equal("another run changes nothing",
                     (export(publisher.url, folder), first_odd(tree(folder), publisher.files())), ((0, ""), []))
    run.report.note(f"{last} publications, of which {len(statuses) + 1} are exported as {len(tree(folder))} files")


def report_followers(run, publisher, followers, ends):
    report = run.report
    report.equal("each of the eight followers comes to its end", ends, [True] * len(followers))
    number, tables = publisher.latest()
    shown = [follower.look() for follower in followers]
    report.equal("and shows the register's copies", shown, [(number, tables)] * len(followers))
    linked = [in_short((follower.folder / f"{table}.json").read_bytes() for table in TABLES) for follower in followers]
    report.equal("also by the links to its tables", linked, [tables] * len(followers))
    report.equal("whatever was shown at any time was one publication",
                 [odd for follower in followers for odd in follower.odd[:1]], [])
    kills, seen = sum(follower.kills for follower in followers), sum(len(follower.seen) for follower in followers)
    has_happened = kills > 2 and seen > 2 * len(followers)
    report.holds("some were killed, and some publications were seen", has_happened, (kills, seen))
    report.note(f"the followers were killed {kills} times, and were seen to show {seen} publications")


# ---- servers that lose and lie


def lead(run, publisher, folder, *servers, begun=None):
    """A follower of some servers, which begins with what another one shows."""
    if begun:
        shutil.copytree(begun, folder, symlinks=True)
    return Follower(run, folder, [server.url for server in servers], publisher)


def other_digit(path):
    """Changes the last digit of a file."""
    text = path.read_text()
    at = max(place for place, character in enumerate(text) if character.isdigit())
    path.write_text(f"{text[:at]}{9 - int(text[at])}{text[at + 1:]}")


def list_anew(folder, number, path):
    """Lets the list of a publication say what a file has now."""
    listed = folder / "publication" / f"{number}.json"
    value, data = json.loads(listed.read_text()), (folder / path).read_bytes()
    for file in value["files"]:
        if file["path"] == path:
            file.update(bytes=len(data), sha256=hashlib.sha256(data).hexdigest())
    listed.write_bytes(compact(value))


def check_losses(run, publisher, folder, begun):
    """A follower of an earlier publication, after which one is exported, meets deltas that are gone or broken off."""
    last, wanted, before = publisher.number, publisher.latest(), int(os.readlink(begun / "latest"))
    deltas, copies = re.compile(rf"/\w+/\d+-{last}\.json"), [f"/{table}/{last}.json" for table in TABLES]

    def loses(kind):
        return lambda path, times: kind if deltas.fullmatch(path) else None

    with Files(folder, loses("gone")) as gone, Files(folder, loses("cut")) as cut, Files(folder) as good:
        follower = lead(run, publisher, run.folder / "gone", gone, begun=begun)
        run.report.equal("where deltas are gone, a follower begins anew from the copies",
                         (follower.run()[0], follower.look(), [gone.asked[path] for path in copies]),
                         (0, wanted, [1] * 3))
        follower = lead(run, publisher, run.folder / "cut", cut, begun=begun)
        run.report.equal("where they break off, it waits",
                         (follower.run()[0], follower.look()[0], [cut.asked[path] for path in copies]),
                         (1, before, [0] * 3))
        follower = lead(run, publisher, run.folder / "cut", good)
        run.report.equal("and goes on at the next run, by deltas",
                         (follower.run(), follower.look(), [good.asked[path] for path in copies]),
                         ((0, ""), wanted, [0] * 3))
        asked = sum(good.asked.values())
        run.report.equal("then it asks for the manifest alone",
                         (follower.run(), sum(good.asked.values()) - asked), ((0, ""), 1))


def check_stale(run, publisher, stale):
    """A follower of the latest publication gets a server that doesn't have it."""
    with Files(stale) as old:
        follower = lead(run, publisher, run.folder / "cut", old)
        run.report.equal("a stale server changes nothing",
                         (follower.run(), follower.look()), ((0, ""), publisher.latest()))


def check_lies(run, publisher, folder, begun):
    """Servers have another digit in a copy, in a delta, or in a delta whose SHA-256 fits. A follower has one in a table
    of its own."""
    last, wanted, base = publisher.number, publisher.latest(), int(os.readlink(begun / "latest"))
    changed = {"copy": f"lei/{last}.json", "delta": f"lei/{base}-{last}.json", "list": f"rr/{base}-{last}.json"}
    for name, path in changed.items():
        shutil.copytree(folder, run.folder / f"lies-{name}")
        other_digit(run.folder / f"lies-{name}" / path)
    list_anew(run.folder / "lies-list", last, f"rr/{base}-{last}.json")
    with contextlib.ExitStack() as servers:
        good, copy, delta, listed = [servers.enter_context(Files(each)) for each in (
            folder, run.folder / "lies-copy", run.folder / "lies-delta", run.folder / "lies-list")]
        follower = lead(run, publisher, run.folder / "new", copy)
        status, written = follower.run()
        run.report.equal("a copy with another digit is noticed",
                         (status, follower.look()[0], "another SHA-256" in written), (1, 0, True))
        follower = lead(run, publisher, run.folder / "new", copy, good)
        run.report.equal("and another server has it right", (follower.run()[0], follower.look()), (0, wanted))
        for server, what in ((delta, "a delta with another digit"), (listed, "one that its list confirms")):
            follower = lead(run, publisher, run.folder / f"of-{server.folder.name}", server, begun=begun)
            run.report.equal(f"{what} is noticed, and the copies are taken",
                             (follower.run()[0], follower.look(), server.asked[f"/lei/{last}.json"]), (0, wanted, 1))
        follower = lead(run, publisher, run.folder / "damaged", good, begun=begun)
        other_digit(run.folder / "damaged" / "lei.json")
        run.report.equal("a damaged table of one's own doesn't last", (follower.run()[0], follower.look()), (0, wanted))


# ---- exports that are killed or overtaken


def check_killed_exports(run, publisher, stale):
    """An export is killed at any time. Each file with its final name is whole, and the next run makes the others."""
    chance, odd, whole, kills = random.Random(run.seed), [], {}, 0
    times = QUICK_KILLED_EXPORTS if run.is_quick else KILLED_EXPORTS
    for place in range(times):
        folder = run.folder / f"killed-{place}"
        shutil.copytree(stale, folder)
        before = tree(folder)
        killed = export(publisher.url, folder, chance.uniform(0.05, 0.4))[0]
        partly = tree(folder)
        kills += killed == -signal.SIGKILL
        done = export(publisher.url, folder)
        whole = whole or tree(folder)
        odd += [(killed, done)] if done != (0, "") else []
        odd += first_odd(tree(folder), whole)
        odd += [path for path, data in partly.items() if data not in (whole.get(path), before.get(path))]
        shutil.rmtree(folder)
    run.report.equal("exports that are killed leave whole files", odd[:1], [])
    run.report.holds(f"of {times} some were killed", kills, kills)
    copies = [whole[f"{table}/{publisher.number}.json"] for table in TABLES]
    run.report.equal("the files are the register's copies", in_short(copies), publisher.latest()[1])


def check_two_at_once(run, publisher, stale):
    """Two exports into one folder at a time, and then two followers."""
    folder = run.folder / "twice"
    shutil.copytree(stale, folder)
    exports = [start([EXPORT, folder], LEIREG_URL=publisher.url) for _ in range(2)]
    run.report.equal("two exports at once end well", [finish(each) for each in exports], [(0, "")] * 2)
    with Files(folder) as files:
        follower = Follower(run, run.folder / "both", [files.url], publisher)
        follows = [start(follower.command, LEIREG_PROGRAM=follower.program) for _ in range(2)]
        run.report.equal("and so do two followers of one folder", [finish(each) for each in follows], [(0, "")] * 2)
    run.report.equal("which show the register's copies", follower.look(), publisher.latest())


def check_overtaken(run, publisher, folder):
    """A response breaks off, and the next export is overtaken by a publication in its middle."""
    def breaks(path):
        return "cut" if path == "/v1/copies/rr/json" else ""

    def overtakes(path):
        if path == "/v1/copies/rr/json" and publisher.number == number:
            publisher.publish()
        return ""

    publisher.publish()
    number, before = publisher.number, tree(folder)
    with Between(publisher.server.port, breaks) as between:
        status, written = export(between.url, folder)
    run.report.equal("a response that breaks off is reported, and nothing is exported",
                     (status, "/v1/copies/rr/json" in written, tree(folder) == before), (1, True, True))
    with Between(publisher.server.port, overtakes) as between:
        status = export(between.url, folder)
    publisher.note_export()
    run.report.equal("an export that is overtaken exports the later publication",
                     (status, publisher.number, first_odd(tree(folder), publisher.files())), ((0, ""), number + 1, []))


def check_old_copies(run, publisher, folder, stale):
    """Only the copies of the last publications are kept, if that is asked for."""
    shutil.copytree(folder, run.folder / "short")
    status = export(publisher.url, run.folder / "short", LEIREG_COPIES="2")
    kept = [f"lei/{number}.json" for number, _ in publisher.exported[-2:]]
    copies = [path for path in sorted(tree(run.folder / "short")) if re.fullmatch(r"lei/\d+\.json", path)]
    run.report.equal("old copies are removed if that is asked for", (status, copies), ((0, ""), sorted(kept)))
    status, written = export(publisher.url, run.folder / "short", LEIREG_COPIES="0")
    run.report.equal("and a wrong number is refused", (status, "usage:" in written), (1, True))
    with Files(stale) as old, Files(folder) as whole:
        follower = Follower(run, run.folder / "later", [old.url, whole.url], publisher)
        run.report.equal("a new follower shows the latest publication", (follower.run()[0], follower.look()),
                         (0, publisher.latest()))


# ---- another machine


def without_moment(data):
    """A copy in JSON without its moment."""
    return re.sub(rb'^{"contentDate":"[^"]*"', b"{", data)


def check_copied_store(run, publisher, store, folder):
    """The register's server is killed, and another one over a copy of the store and its log goes on. Returns the copy of
    the store, and the register's copies by their forms."""
    copied, before = run.folder / "copied.db", ask_copies(publisher.server)
    publisher.server.end(signal.SIGKILL)
    stores.copy_files(store, copied)
    with Server(run.program, "--store", copied) as second, Files(folder) as files:
        run.report.equal("a copy of the store serves the same copies", in_short(ask_copies(second)), in_short(before))
        publisher.server = second
        publisher.publish()
        publisher.note_export()
        run.report.equal("its next publication is exported into the same folder",
                         (export(publisher.url, folder), first_odd(tree(folder), publisher.files())), ((0, ""), []))
        follower = lead(run, publisher, run.folder / "later", files)
        run.report.equal("a follower of the first register gets it by deltas",
                         (follower.run(), follower.look(), files.asked[f"/lei/{publisher.number}.json"]),
                         ((0, ""), publisher.latest(), 0))
        return copied, {form: ask_copies(second, form) for form in FORMS}


def check_replay(run, publisher, store, copies, folder):
    """The entries of a store are sent to an empty register, which goes on."""
    with Server(run.program) as other:
        check_other_register(run, other, folder, "the register has 0 publications, and the folder")
        url, count = f"http://127.0.0.1:{other.port}", 2 * publisher.number + 1
        run.report.equal("a replay of the entries gets the same answers",
                         finish(start([REPLAY, store], LEIREG_URL=url)),
                         (0, f"{count} entries have the answers that they had\n"))
        run.report.equal("and serves the same copies in CSV",
                         in_short(ask_copies(other, "csv")), in_short(copies["csv"]))
        run.report.equal("and in JSON but for their moment", in_short(map(without_moment, ask_copies(other))),
                         in_short(map(without_moment, copies["json"])))
        (folder / "manifest.json").unlink()
        check_other_register(run, other, folder, "is there with other bytes")
        publisher.server = other
        publisher.publish()
        run.report.equal("and goes on", publisher.wrong[:1], [])
        stores.alter(store, "UPDATE entry SET answer = CAST(replace(answer, 'ACCEPTED', 'C20') AS BLOB) WHERE seq = 2")
        status, written = finish(start([REPLAY, store], LEIREG_URL=url))
        run.report.equal("a replay reports an entry with another answer",
                         (status, written[:21]), (1, "entry 2 was answered "))


def check_other_register(run, server, folder, cause):
    """A register with a history of its own isn't exported into the folder of another one."""
    before = tree(folder)
    status, written = export(f"http://127.0.0.1:{server.port}", folder)
    run.report.equal(f"an export is refused: {cause}",
                     (status, cause in written, tree(folder) == before), (1, True, True))


def check(run):
    missing = [package for package, command in (("curl", shutil.which("curl")), ("nginx-light", PROGRAM)) if not command]
    if not run.report.equal("all packages are there", missing, []):
        return
    store = run.folder / "register.db"
    with Server(run.program, "--store", store, workers=4) as server:
        publisher = Publisher(run, server)
        folder, stale = check_history(run, publisher)
        check_killed_exports(run, publisher, stale)
        check_two_at_once(run, publisher, stale)
        begun = run.folder / "follower-1"
        check_overtaken(run, publisher, folder)
        check_losses(run, publisher, folder, begun)
        check_stale(run, publisher, stale)
        check_lies(run, publisher, folder, begun)
        check_old_copies(run, publisher, folder, stale)
        run.report.equal("the register answers as the model does", publisher.wrong[:1], [])
        copied, copies = check_copied_store(run, publisher, store, folder)
        check_replay(run, publisher, copied, copies, folder)
