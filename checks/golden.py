"""A golden copy with the LEI-CDF's column names is taken as examples/README.md says, which has the fate of each row.

The sample is sent to a register. The summary is compared with the table of that page, and each field of each row that
is then held with the sample's columns. A run that is cut off goes on, and a repeat changes nothing. A server that only
writes down what it gets shows the order, the cut into uploads, the same requests on a later day, and that nothing is
sent of a broken file. Relationships follow their records."""
import collections
import csv
import datetime
import http.server
import io
import itertools
import json
import os
import re
import subprocess
import sys
import threading

from checks.common.inputs import RECORD_NAMES, RELATIONSHIP_NAMES, SUCCESSORS, TODAY, code, compact
from checks.common.programs import ROOT
from checks.common.servers import Server

SCRIPT = ROOT / "examples" / "from_golden_copy"
SAMPLE = ROOT / "examples" / "golden_copy_sample.csv"
PAGE = ROOT / "examples" / "README.md"
MADE_ON = datetime.date(2026, 12, 2)
LATER = datetime.date(2041, 2, 28)
STATUS, RENEWAL, ISSUER = "Registration.RegistrationStatus", "Registration.NextRenewalDate", "Registration.ManagingLOU"
MOMENTS = ["Entity.EntityCreationDate", "Registration.InitialRegistrationDate", "Registration.LastUpdateDate", RENEWAL]
EVENT_PARTS = {"Type": "LegalEntityEventType", "EffectiveDate": "LegalEntityEventEffectiveDate",
               "RecordedDate": "LegalEntityEventRecordedDate", "Status": "event_status"}
# Which event of a row of the sample the profile can hold, as a reader of the sample sees it.
EVENTS = {73: 2, 74: 1, 75: 2, 76: 1}
# What the summary says of the sample's rows that were taken, counted by hand.
DONE = {
    "addresses whose further lines were joined to the first": 4,
    "addresses whose further lines were dropped, since they don't fit": 2,
    "events that were taken": 4,
    "events that were dropped": 4,
    "rows with the status ISSUED whose renewal date has passed, brought in as LAPSED": 6,
    "rows with the status MERGED, brought in as RETIRED": 4,
}
# The connections after which a server ends: four accreditations and some uploads of the sample's thirteen.
CUT_AFTER = 9


# ---- the sample


def read_sample():
    with open(SAMPLE, encoding="utf-8", newline="") as file:
        return list(csv.DictReader(file))


def fates():
    """What becomes of each row of the sample, by its number: the third column of the table on the page."""
    rows = re.findall(r"^\| (\d+) to (\d+) \|[^|]*\| ([^|]*) \|$", PAGE.read_text(), re.M)
    return {number: fate for first, last, fate in rows for number in range(int(first), int(last) + 1)}


def in_utc(text, shift):
    """A moment of the sample as the register prints it, moved by some days."""
    if not text:
        return ""
    form = "%Y-%m-%dT%H:%M:%S.%f%z" if "." in text else "%Y-%m-%dT%H:%M:%S%z"
    moment = datetime.datetime.strptime(text, form).astimezone(datetime.timezone.utc) + shift
    return moment.strftime("%Y-%m-%dT%H:%M:%SZ")


def held_row(number, row, status, shift):
    """The fields of a row of the sample that is held with a status, in the order of the columns of CSV."""
    fields = {name: row.get(name, "") for name in RECORD_NAMES}
    fields.update({name: in_utc(row[name], shift) for name in MOMENTS})
    fields[STATUS] = status
    fields[SUCCESSORS] = " ".join(row[f"Entity.SuccessorEntity.{place}.SuccessorLEI"] for place in range(1, 6)).strip()
    further = [row[f"Entity.LegalAddress.AdditionalAddressLine.{place}"] for place in (1, 2, 3)]
    line = ", ".join(filter(None, [row["Entity.LegalAddress.FirstAddressLine"], *further]))
    if len(line) <= 500:
        fields["Entity.LegalAddress.FirstAddressLine"] = line
    if number in EVENTS:
        for part, column in EVENT_PARTS.items():
            text = row[f"Entity.LegalEntityEvents.{EVENTS[number]}.{column}"]
            fields[f"Entity.Event.1.{part}"] = in_utc(text, shift) if part.endswith("Date") else text
    return list(fields.values())


def wanted_rows(shift):
    """The rows of the golden copy after the sample, by LEI."""
    rows = {}
    for number, row in enumerate(read_sample(), 1):
        status = re.match("held as ([A-Z_]+)", fates()[number])
        if status:
            rows[row["LEI"]] = held_row(number, row, status[1], shift)
    return [rows[lei] for lei in sorted(rows)]


def wanted_counts(day):
    """The lines of the summary with the most part of the counts, by the table on the page."""
    kinds = collections.Counter(re.split(r"[ ,:]", fate)[0] for fate in fates().values())
    entered = sum(fate.endswith("after ISSUED") for fate in fates().values())
    causes = collections.Counter(fate[10:] for fate in fates().values() if fate.startswith("rejected: "))
    reasons = collections.Counter(fate[10:] for fate in fates().values() if fate.startswith("left out: "))
    return {
        "rows taken": kinds["held"], "rows rejected": kinds["rejected"], "rows left out": kinds["left"],
        "items ACCEPTED": kinds["held"] + entered, "items rejected": kinds["rejected"],
        f"rows entered as ISSUED first, with the renewal date {day + datetime.timedelta(days=365)}": entered,
        **DONE, **dict(sorted(causes.items(), key=lambda each: (-each[1], each[0]))[:5]), **reasons,
    }


# ---- runs


def run_script(url, *words, limit=600):
    """A run of the script: its status, and the texts of its two outputs."""
    done = subprocess.run([sys.executable, SCRIPT, *map(str, words)], capture_output=True, text=True, timeout=limit,
                          env={**os.environ, "LEIREG_URL": url})
    return done.returncode, done.stdout, done.stderr


def counts_of(summary):
    """The counts of a summary, by what they count."""
    return {what: int(count) for count, what in re.findall(r"^ +(\d+) (.*)$", summary, re.M)}


def url_of(server):
    return f"http://127.0.0.1:{server.port}"


def held(server):
    """What a server publishes of what it holds: the statuses of both requests with the header, and the rows."""
    published, _ = server.ask("PUT", "/v1/publications/1")
    copied, text = server.ask("GET", "/v1/copies/lei/csv")
    rows = list(csv.reader(io.StringIO(text)))
    return (published, copied, rows[:1]), rows[1:]


class StandIn(http.server.ThreadingHTTPServer):
    """A server that writes down what it got and accepts each item, perhaps but the last of an upload. As a context it
    is ended."""

    def __init__(self, last="ACCEPTED"):
        super().__init__(("127.0.0.1", 0), Taker)
        self.last = last
        self.port = self.server_address[1]
        self.got = []
        self.thread = threading.Thread(target=self.serve_forever)
        self.thread.start()

    def __exit__(self, *_):
        self.shutdown()
        self.thread.join()
        self.server_close()

    def uploads(self):
        """The issuer, the number, the items and the bytes of each upload."""
        found = []
        for path, body in self.got:
            parts = path.split("/")
            if len(parts) > 4:
                value = json.loads(body)
                found.append((parts[3], int(parts[5]), [item for items in value.values() for item in items], len(body)))
        return found


class Taker(http.server.BaseHTTPRequestHandler):
    """Answers an accreditation or an upload."""

    def do_PUT(self):
        body = self.rfile.read(int(self.headers["content-length"]))
        self.server.got.append((self.path, body))
        issuer, *rest = self.path.split("/")[3:]
        answer = {"entry": 1, "issuer": issuer}
        if rest:
            accepted = ["ACCEPTED"] * (sum(map(len, json.loads(body).values())) - 1)
            answer.update(number=int(rest[1]), items=[*accepted, self.server.last])
        text = compact(answer)
        self.send_response(200)
        self.send_header("content-length", str(len(text)))
        self.end_headers()
        self.wfile.write(text)

    def log_message(self, *_):
        pass


# ---- a register


def check_sample(run):
    """Sends the sample, and compares the summary and what is then held."""
    report, shift = run.report, TODAY - MADE_ON
    numbers = list(range(1, len(read_sample()) + 1))
    report.equal("the table on the page has each row of the sample", list(fates()), numbers)
    report.holds("each kind that is left out has two rows",
                 {count for fate, count in collections.Counter(fates().values()).items() if fate[:4] == "left"} == {2})
    words = "--day", TODAY, "--moved-from", MADE_ON, SAMPLE
    with Server(run.program) as server:
        status, summary, told = run_script(url_of(server), *words)
        report.equal("the sample is sent", status, 0)
        report.equal("the summary has the counts of the table", counts_of(summary), wanted_counts(TODAY))
        report.equal("each row that isn't taken has its line", told.count("\n"),
                     sum(not fate.startswith("held") for fate in fates().values()))
        before = server.ask("GET", "/v1/status")
        if not run.is_quick:
            report.equal("a repeat has the same summary", run_script(url_of(server), *words), (0, summary, told))
            report.equal("and adds nothing", server.ask("GET", "/v1/status"), before)
            check_free_numbers(run, server, json.loads(before[1])["entries"])
            check_relationships(run, server)
        answers, rows = held(server)
    report.equal("what is held is published in a wide copy", answers, (201, 200, [RECORD_NAMES]))
    report.equal("each field of each row is as the sample has it", rows, wanted_rows(shift))
    report.note(f"{len(rows)} of the sample's rows are held")
    return summary, before


def check_free_numbers(run, server, entries):
    """Other uploads than those that were taken get numbers that are free, and change no row here."""
    words = "--url", url_of(server), "--day", TODAY, "--moved-from", MADE_ON, "--first", "10", SAMPLE
    status, summary, _ = run_script("http://127.0.0.1:1", *words)
    run.report.equal("the first ten rows are sent again", (status, counts_of(summary)["rows taken"]), (0, 10))
    added = json.loads(server.ask("GET", "/v1/status")[1])["entries"] - entries
    issuers = {row[ISSUER] for row in read_sample()[:10]}
    run.report.equal("in an upload of each issuer under a free number", added, len(issuers))


def check_cut_off(run, summary, wanted):
    """A server ends in the middle of a run. The same command goes on over the same store."""
    words = "--day", TODAY, "--moved-from", MADE_ON, SAMPLE
    store = run.folder / "cut.db"
    with Server(run.program, "--connections", str(CUT_AFTER), "--store", store) as server:
        status, out, told = run_script(url_of(server), *words)
        server.wait()
    run.report.equal("a run without an end has status 1 and no summary", (status, out), (1, ""))
    run.report.holds("and says how to go on", f"The same command with --day {TODAY} goes on" in told, told[-500:])
    with Server(run.program, "--store", store) as server:
        status, out, _ = run_script(url_of(server), *words)
        run.report.equal("the same command goes on to the same summary", (status, out), (0, summary))
        run.report.equal("and to as many entries and records", server.ask("GET", "/v1/status"), wanted)
        run.report.equal("and to the same rows", held(server)[1], wanted_rows(TODAY - MADE_ON))


def link(start, end, **others):
    """A row of the RR-CDF between two rows of the sample, by their numbers."""
    sample = read_sample()
    day = f"{MADE_ON - datetime.timedelta(days=300)}T00:00:00Z"
    row = {
        "Relationship.StartNode.NodeID": sample[start - 1]["LEI"], "Relationship.StartNode.NodeIDType": "LEI",
        "Relationship.EndNode.NodeID": sample[end - 1]["LEI"], "Relationship.EndNode.NodeIDType": "LEI",
        "Relationship.RelationshipType": "IS_DIRECTLY_CONSOLIDATED_BY", "Relationship.RelationshipStatus": "ACTIVE",
        "Relationship.Period.1.startDate": "2019-01-01T00:00:00Z", "Relationship.Period.1.endDate": "",
        "Relationship.Period.1.periodType": "ACCOUNTING_PERIOD",
        "Relationship.Period.2.startDate": day, "Relationship.Period.2.endDate": "",
        "Relationship.Period.2.periodType": "RELATIONSHIP_PERIOD",
        "Registration.InitialRegistrationDate": day, "Registration.LastUpdateDate": day,
        STATUS: "PUBLISHED", RENEWAL: day, ISSUER: sample[start - 1][ISSUER],
        "Registration.ValidationSources": "FULLY_CORROBORATED",
    }
    return {**row, **others}


def check_relationships(run, server):
    """Relationships are sent after the records, which are all repeats here."""
    inactive = {"Relationship.RelationshipStatus": "INACTIVE"}
    rows = [
        link(1, 2), link(2, 3), link(4, 3, **{STATUS: "LAPSED"}), link(5, 3, **{STATUS: "RETIRED"}, **inactive),
        link(6, 3, **{STATUS: "ANNULLED"}, **inactive), link(3, 1),
        link(7, 3, **{STATUS: "RETIRED"}), link(8, 151), link(9, 3, **{STATUS: "DUPLICATE"}), link(1, 2),
        link(10, 3, **{"Relationship.RelationshipType": "IS_A_FRIEND_OF"}),
        link(11, 3, **{"Relationship.Period.2.periodType": "DOCUMENT_FILING_PERIOD"}),
    ]
    path = run.folder / "relationships.csv"
    path.write_text(csv_text([list(rows[0]), *(list(row.values()) for row in rows)]), encoding="utf-8")
    status, summary, _ = run_script(url_of(server), "--day", TODAY, "--moved-from", MADE_ON, SAMPLE, path)
    run.report.equal("relationships are sent after the same records", status, 0)
    told = summary.partition(f"{path}: 12 rows, and 15 of 18 columns are used\n")[2]
    run.report.equal("their summary has the counts of their kinds", counts_of(told), {
        "rows taken": 5, "rows rejected": 1, "rows left out": 6, "items ACCEPTED": 8, "items rejected": 1,
        "rows entered as PUBLISHED first": 3, "C38 PARENT_CYCLE": 1, "the record of a node wasn't taken": 1,
        "Relationship.RelationshipStatus: RETIRED isn't allowed with ACTIVE": 1,
        "an earlier row has its nodes and its type": 1,
        f"{STATUS}: the profile lacks DUPLICATE": 1,
        "Relationship.RelationshipType: it doesn't have the profile's shape": 1,
        "Relationship.StartDate: it is empty, and the profile needs it": 1,
    })
    server.ask("PUT", "/v1/publications/1")
    seen = list(csv.DictReader(io.StringIO(server.ask("GET", "/v1/copies/rr/csv")[1])))
    begun = in_utc(rows[0]["Registration.LastUpdateDate"], TODAY - MADE_ON)
    wanted = []
    for row in sorted([*rows[:4]], key=lambda row: row["Relationship.StartNode.NodeID"]):
        fields = {**{name: row.get(name, begun) for name in RELATIONSHIP_NAMES}, "Relationship.EndDate": ""}
        fields.update({f"Relationship.{node}": row[f"Relationship.{node}.NodeID"] for node in ("StartNode", "EndNode")},
                      **{name: begun for name in MOMENTS[1:3]})
        wanted.append(fields)
    run.report.equal("each field of each relationship is as its row has it", seen, wanted)


# ---- a server that writes down what it gets


def csv_text(rows):
    text = io.StringIO()
    csv.writer(text, quoting=csv.QUOTE_ALL, lineterminator="\n").writerows(rows)
    return text.getvalue()


def requests_on(day, *words):
    """The requests of a run over the sample on a day, and its summary."""
    with StandIn() as server:
        status, summary, _ = run_script(url_of(server), "--day", day, *words, SAMPLE)
        return status, server.got, summary, server.uploads()


def moved(text, days):
    """A text in which each day is moved."""
    return re.sub("[0-9]{4}-[0-9]{2}-[0-9]{2}(?=T)",
                  lambda found: str(datetime.date.fromisoformat(found[0]) + datetime.timedelta(days=days)), text)


def check_days(run):
    """On a later day the same requests are sent with other dates. A copy that isn't moved has no ISSUED rows then."""
    report = run.report
    status, got, _, uploads = requests_on(MADE_ON)
    days = (LATER - MADE_ON).days
    status_later, got_later, _, _ = requests_on(LATER, "--moved-from", MADE_ON)
    sent = [(path, moved(body.decode(), days)) for path, body in got]
    report.equal("the sample is sent on the day of its making and later", (status, status_later), (0, 0))
    report.equal("a moved copy has the same requests with later dates",
                 [(path, body.decode()) for path, body in got_later], sent)
    _, _, summary, later = requests_on(LATER)
    last = {item["LEI"]: item for _, _, items, _ in later for item in items}
    report.equal("an old copy that isn't moved has no row that stays ISSUED",
                 [lei for lei, item in last.items() if item[STATUS] == "ISSUED"], [])
    lapsed = counts_of(summary).get("rows with the status ISSUED whose renewal date has passed, brought in as LAPSED")
    report.equal("its ISSUED rows, which are 1 to 84 and 129 to 148, are brought in as LAPSED", lapsed, 104)
    check_items(run, uploads)


def check_items(run, uploads):
    """Each record enters as the page says, after its successors, and is changed by the next item."""
    firsts, held_before, faults = [], set(), []
    for _, _, items, _ in uploads:
        for item, after in itertools.zip_longest(items, items[1:]):
            if item[STATUS] != "ISSUED":
                faults += [item["LEI"]] if not held_before.issuperset(item.get(SUCCESSORS, "").split()) else []
            elif after and after["LEI"] == item["LEI"]:
                firsts.append((item, after))
            held_before.add(item["LEI"])
    entered = (MADE_ON + datetime.timedelta(days=365)).isoformat() + "T00:00:00Z"
    run.report.equal("no record comes before its successors", faults, [])
    run.report.equal("first items are ISSUED, ACTIVE, renewed for 365 days and without successors",
                     {(first["Entity.EntityStatus"], first[RENEWAL], SUCCESSORS in first) for first, _ in firsts},
                     {("ACTIVE", entered, False)})
    number = "Entity.RegistrationAuthority.RegistrationAuthorityEntityID"
    without, with_number = (
        {after[STATUS] for first, after in firsts if (number in first) == has} for has in (False, True))
    run.report.equal("those of records that won't be live have no number at an authority", without,
                     {"RETIRED", "DUPLICATE", "ANNULLED"})
    run.report.equal("and only those", with_number, {"LAPSED", "PENDING_TRANSFER"})


def check_half_taken(run):
    """A record that entered, and whose second item is rejected, is reported as one that stays ISSUED."""
    row = read_sample()[100]
    path = run.folder / "half.csv"
    path.write_text(csv_text([list(row), list(row.values())]), encoding="utf-8")
    with StandIn("C18 SUCCESSOR_CHAIN_LONG") as server:
        _, summary, told = run_script(url_of(server), "--day", MADE_ON, path)
    counts = counts_of(summary)
    run.report.equal("a row whose second item is rejected is counted as one that stays as it entered", {
        what: counts.get(what) for what in ("rows taken", "rows rejected", "items ACCEPTED", "items rejected",
                                            "rows rejected that stay as they were entered first")},
        {"rows taken": 0, "rows rejected": 1, "items ACCEPTED": 1, "items rejected": 1,
         "rows rejected that stay as they were entered first": 1})
    run.report.equal("and has its line", told,
                     f"line 2: {row['LEI']}: rejected: C18 SUCCESSOR_CHAIN_LONG, and stays as it entered\n")


def large_rows(header, sample):
    """20,000 rows of two issuers, of which each fifth needs two items: 14,000 short ones, and then 6,000 long ones."""
    needless = [name for name in header if re.search("xmllang|Region$|PostalCode|EntityID$|Creation", name)]
    for number in range(20_000):
        row = {**sample[84 if number % 5 == 0 else 0], "LEI": code(number), ISSUER: sample[number % 2][ISSUER]}
        others = {"Entity.LegalName": "Made-up " * 60} if number >= 14_000 else dict.fromkeys(needless, "")
        yield list({**row, **others}.values())


def check_large(run):
    """Rows are cut into uploads of one issuer each, by items and by bytes."""
    header, sample = list(read_sample()[0]), read_sample()
    path = run.folder / "large.csv"
    path.write_text(csv_text([header, *large_rows(header, sample)]), encoding="utf-8")
    with StandIn() as server:
        status, summary, _ = run_script(url_of(server), "--day", MADE_ON, path)
        uploads = server.uploads()
    report = run.report
    counts, sizes = [len(items) for _, _, items, _ in uploads], [size for *_, size in uploads]
    report.equal("a larger copy is sent", (status, counts_of(summary)["rows taken"]), (0, 20_000))
    report.equal("with two items for each row that isn't ISSUED", sum(counts), 24_000)
    report.equal("the most items of an upload are 4,000", max(counts), 4_000)
    report.holds("the longest body is as long as a body may be", 4_190_000 < max(sizes) <= 4_194_304, sizes)
    report.equal("each upload has one issuer", [issuer for issuer, _, items, _ in uploads
                                               if {item[ISSUER] for item in items} != {issuer}], [])
    for issuer in sorted({issuer for issuer, *_ in uploads}):
        numbers = [number for other, number, *_ in uploads if other == issuer]
        report.equal(f"the uploads of {issuer} are numbered without gaps", numbers, list(range(1, len(numbers) + 1)))
    report.equal("no upload ends between the two items of a row",
                 [items[-1]["LEI"] for _, _, items, _ in uploads
                  if int(items[-1]["LEI"][:18]) % 5 == 0 and items[-1][STATUS] == "ISSUED"], [])
    report.note(f"uploads of {min(counts):,} to {max(counts):,} items, and of up to {max(sizes):,} bytes")


# ---- broken inputs


def broken_files(header, rows):
    """Files that are refused, with a part of the message: by the kind of fault, its bytes."""
    def file(header, rows, end="\n"):
        return csv_text([header, *rows]).replace("\n", end).encode()
    whole = file(header, rows)
    lower = [name.lower() if name == "LEI" else name for name in header]
    return {
        "an empty file": (b"", "lacks the column LEI"),
        "a header alone": (file(header, []), "has no rows"),
        "a header in lower case": (file(lower, rows), "lacks the column LEI"),
        "a header without the manager": (file([name.replace("ManagingLOU", "LOU") for name in header], rows),
                                         "lacks the column Registration.ManagingLOU"),
        "a header with a column twice": (file(header[:-1] + ["LEI"], rows), "has the column LEI twice"),
        "semicolons": (whole.replace(b'","', b'";"'), "isn't CSV in UTF-8"),
        "semicolons without quotes": (";".join(header).encode() + b"\n", "lacks the column LEI"),
        "a quote that isn't closed": (whole[:-2] + b"\n", "isn't CSV in UTF-8"),
        "a text after a quote": (whole[:-1] + b"x\n", "isn't CSV in UTF-8"),
        "a row with a field less": (file(header, [*rows, rows[0][:-1]]), f"has {len(header) - 1} fields"),
        "a row with a field more": (file(header, [*rows, rows[0] + [""]]), f"has {len(header) + 1} fields"),
        "a row in Latin-1": (whole + csv_text([["é"] * len(header)]).encode("latin-1"), "isn't CSV in UTF-8"),
        "UTF-16": (whole.decode().encode("utf-16"), "isn't CSV in UTF-8"),
        "a zip file": (b"PK\x03\x04\x14\x00\xff\xfe\x00\x08\x00", "isn't CSV in UTF-8"),
        "XML": (b'<?xml version="1.0"?><lei:LEIData/>\n', "lacks the column LEI"),
        "a field of 200,000 characters": (file(header, [["x" * 200_000, *rows[0][1:]]]), "isn't CSV in UTF-8"),
        "a copy of relationships": (csv_text([list(link(1, 2))]).encode(), "lacks the column LEI"),
    }


def check_broken(run):
    """Broken files and words are refused with the reason, and nothing is sent."""
    sample = read_sample()[:3]
    header, rows = list(sample[0]), [list(row.values()) for row in sample]
    path = run.folder / "broken.csv"
    with StandIn() as server:
        def refused(what, words, status, part):
            done = run_script(url_of(server), *words)
            run.report.equal(f"{what}: refused", (done[0], done[1], part in done[2]), (status, "", True))
        for what, (data, part) in broken_files(header, rows).items():
            path.write_bytes(data)
            refused(what, [path], 1, part)
        refused("a file that isn't there", [run.folder / "none.csv"], 1, "No such file")
        refused("a folder", [run.folder], 1, "Is a directory")
        refused("records in the place of relationships", [SAMPLE, SAMPLE], 1, "lacks the column Relationship.StartNode")
        refused("a day that isn't one", ["--day", "2026-02-30", SAMPLE], 2, "--day")
        refused("no first rows", ["--first", "0", SAMPLE], 2, "--first")
        refused("no file", [], 2, "COPY")
        if not run.is_quick:
            path.write_text(csv_text([header]) + ("," * (len(header) - 1) + "\n") * 500_001)
            refused("more than 500,000 rows", [path], 1, "--first 500000")
        run.report.equal("nothing is sent of all these", server.got, [])
    done = run_script("http://127.0.0.1:1", SAMPLE)
    run.report.equal("a server that isn't there is reported", (done[0], "doesn't answer" in done[2]), (1, True))


def check_other_forms(run):
    """What other writers of CSV write is read as the same rows, and rows with odd texts are left out."""
    sample = read_sample()[:3]
    header, rows = list(sample[0]), [list(row.values()) for row in sample]
    whole = csv_text([header, *rows])
    plain = io.StringIO()
    csv.writer(plain, lineterminator="\n").writerows([header, *rows])
    forms = {"as the sample has it": whole, "a byte order mark": "\ufeff" + whole, "CR LF": whole.replace("\n", "\r\n"),
             "empty lines at the end": whole + "\n\n", "no end of the last line": whole[:-1],
             "few quotes": plain.getvalue()}
    got = {}
    for what, text in forms.items():
        got[what] = sent_for(run, text)
    wanted = got["as the sample has it"]
    run.report.equal("three rows are sent", len(wanted[1]), 3)
    for what in list(forms)[1:]:
        run.report.equal(f"{what}: the same rows are sent", got[what], wanted)
    longest = "é" * 500
    odd = {
        "LEI: it doesn't have the profile's shape": {"LEI": sample[0]["LEI"].lower()},
        "Entity.LegalName: it doesn't have the profile's shape": {"Entity.LegalName": longest + "é"},
        "Entity.LegalAddress.City: it doesn't have the profile's shape": {"Entity.LegalAddress.City": "Paris\u0085"},
        f"{RENEWAL}: it isn't a moment that the profile has": {RENEWAL: "9998-12-31T23:30:00-01:00"},
        f"{MOMENTS[2]}: it isn't a moment that the profile has": {MOMENTS[2]: "0000-01-01T00:00:00Z"},
    }
    for reason, others in odd.items():
        changed = {**sample[0], **others}
        told, items = sent_for(run, csv_text([header, list(changed.values()), *rows[1:]]))
        run.report.equal(f"{reason}: that row alone is left out", (told, len(items)), ({reason: 1}, 2))
    _, items = sent_for(run, csv_text([header, list({**sample[0], "Entity.LegalName": longest}.values())]))
    run.report.equal("a name of 500 characters is sent", [item["Entity.LegalName"] for item in items], [longest])


def sent_for(run, text):
    """Why rows of a file were left out, with their counts, and the items that were sent."""
    path = run.folder / "form.csv"
    path.write_bytes(text.encode())
    with StandIn() as server:
        status, summary, _ = run_script(url_of(server), "--day", MADE_ON, path)
        run.report.equal("the rest of a file is sent", status, 0)
        reasons = {what: count for what, count in counts_of(summary).items() if ": " in what}
        return reasons, [item for _, _, items, _ in server.uploads() for item in items]


def check(run):
    summary, status = check_sample(run)
    check_broken(run)
    if not run.is_quick:
        check_cut_off(run, summary, status)
        check_days(run)
        check_half_taken(run)
        check_large(run)
        check_other_forms(run)
