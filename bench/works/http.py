"""Works over HTTP: requests for the status, uploads and copies, over one connection and over several at once."""
import functools

from bench.clients import (all_are, are_taken, by_wrk, leireg, nginx, over_http, printing_port, status_requests)
from bench.inputs import bodies, csv_line
from bench.tools import in_c, in_go
from bench.trials import Trial, add
from checks.common.inputs import (ISSUERS, RECORD_NAMES, compact, csv_row, http_request, http_upload, record, records,
                                  reply_to_status)

EMPTY = reply_to_status()[4:-1]
ACCREDITATIONS = [http_request("PUT", f"/v1/issuers/{issuer}") for issuer in ISSUERS]


# ---- the status


def by_c():
    return printing_port([in_c("http_server"), EMPTY.decode()])


def status(connections):
    def make(bench):
        count = bench.count(100_000, 160)
        files, before = status_requests(bench, count, connections), bench.keep("before", status_requests_before())
        check = all_are(EMPTY, count)
        return Trial(
            count,
            lambda program: over_http(functools.partial(leireg, program, connections), before, files, check),
            lambda _: over_http(by_c, before, files, check))
    return make


def status_requests_before():
    """One request that isn't counted."""
    return [http_request("GET", "/v1/status")]


def status_by_wrk(connections):
    def make(bench):
        count, seconds = 100_000, bench.count(4, 1)
        return Trial(
            count,
            lambda program: by_wrk(functools.partial(leireg, program, connections), connections, seconds, count, EMPTY),
            lambda _: by_wrk(by_c, connections, seconds, count, EMPTY))
    return make


# ---- uploads


def requests_of_issuers(made, issuers):
    """For each issuer the requests of its uploads, which are every fourth of those made."""
    return [[http_upload(number, body, issuer) for number, body in enumerate(made[at::len(issuers)], 1)]
            for at, issuer in enumerate(issuers)]


def issuer_bodies(uploads, each):
    """The bodies of uploads of new records, of each issuer in turn."""
    return [compact(records(1_000 + place * each, each, issuer=ISSUERS[place % len(ISSUERS)])) for place in range(uploads)]


def keep_requests(bench, lists, connections):
    """The files of these requests: of each issuer over a connection of its own, or of all in turn over one."""
    if connections == 1:
        lists = [[request for turn in zip(*lists) for request in turn]]
    return [bench.keep(f"requests-{connections}-{at}", requests) for at, requests in enumerate(lists)]


def upload_sides(bench, uploads, each):
    """What makes a side that takes these uploads, from the server, its first entry and how many connections it has."""
    lists = requests_of_issuers(issuer_bodies(uploads, each), ISSUERS)
    before = bench.keep("before", ACCREDITATIONS)

    def side(server, first_entry, connections):
        files = keep_requests(bench, lists, connections)
        return over_http(server, before, files, are_taken(ISSUERS, uploads, each, first_entry))
    return side


def uploads_over(count, each, connections):
    """A work of so many uploads of so many records each."""
    def make(bench):
        uploads, items = bench.count(count, 8), bench.count(each, min(each, 20))
        side = upload_sides(bench, uploads, items)
        return Trial(
            uploads,
            lambda program: side(functools.partial(leireg, program, connections), len(ISSUERS) + 1, connections),
            lambda _: side(lambda: printing_port([in_go("uploads")]), 1, connections))
    return make


def uploads_ahead(bench):
    """Four connections to four workers, beside one connection to one worker."""
    uploads = bench.count(32, 8)
    side = upload_sides(bench, uploads, bench.count(4_400, 20))
    several, one = len(ISSUERS), 1
    return Trial(
        uploads,
        lambda program: side(functools.partial(leireg, program, several), len(ISSUERS) + 1, several),
        lambda program: side(functools.partial(leireg, program, one), len(ISSUERS) + 1, one))


# ---- copies


def copy(bench):
    """Golden copies of one publication, each of which a server sends on one connection. nginx serves the same bytes from a
    file."""
    count, times = bench.count(101_200, 40), bench.count(20, 3)
    each = min(count, 4_400)
    made = [http_upload(number, body, ISSUERS[0]) for number, (body, _) in enumerate(bodies(count, each), 1)]
    text = csv_line(RECORD_NAMES).encode()
    text += b"".join(csv_row(RECORD_NAMES, record(1_000 + place)).encode() for place in range(count))
    files = bench.folder / "files" / "v1" / "copies" / "lei"
    files.mkdir(parents=True)
    (files / "csv").write_bytes(text)
    asked = http_request("GET", "/v1/copies/lei/csv")
    before = bench.keep("before", [ACCREDITATIONS[0], *made, http_request("PUT", "/v1/publications/1"), asked])
    requests, once = bench.keep("requests", [asked] * times), bench.keep("once", [asked])
    check = all_are(text, times)
    return Trial(
        times * len(text),
        lambda program: over_http(functools.partial(leireg, program, 1), before, [requests], check),
        lambda _: over_http(functools.partial(nginx, bench.folder), once, [requests], check))


for several in (1, 4, 16):
    over = f"over {several} connection{'s' * (several > 1)}"
    add(f"status-{several}", f"100,000 requests for the status {over}", "http", status(several), "a server in C",
        unit="requests")
    add(f"status-wrk-{several}", f"100,000 requests for the status {over}, by wrk", "http", status_by_wrk(several),
        "a server in C", unit="requests", client=("wrk",))
for several in (1, 4):
    over = f"over {several} connection{'s' * (several > 1)}"
    add(f"http-small-{several}", f"2,000 uploads of one record {over}", "http", uploads_over(2_000, 1, several),
        "a server in Go", unit="uploads", needs=("go",))
    add(f"http-large-{several}", f"32 uploads of 4,400 new records {over}", "http", uploads_over(32, 4_400, several),
        "a server in Go", unit="uploads", needs=("go",))
add("http-ahead", "32 uploads of 4,400 new records over 4 connections to 4 workers", "http", uploads_ahead,
    "one connection, one worker", unit="uploads")
add("http-copy", "20 golden copies of 101,200 records in CSV", "http", copy, "nginx, from a file", needs=("nginx",))
