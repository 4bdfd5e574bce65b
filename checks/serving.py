"""A server behaves for its operator and its peers as docs/OPERATING.md and docs/FORMATS.md say, over real sockets, files and
limits of the system.

Responses arrive although the peer is still sending. A taken port ends the server before a store is made. A store is opened
before requests are answered. A shortage of descriptors and a full disk are reported once, and the server goes on."""
import json
import os
import re
import resource
import signal
import socket
import subprocess
import time

from checks.common.inputs import (ISSUER, LAST_STATUS, STATUS, accredit, answer_to_status, compact, exception, http_request,
                                  record, upload)
from checks.common.programs import lines
from checks.common.servers import Server, take_response

# An upload that is longer than a body may be, and how often it is sent.
TOO_LONG, TIMES, QUICK_TIMES = 5_000_000, 20, 5
# A store has so many entries that its opening is reported.
LARGE = 12_001
EMPTY = answer_to_status()
UPLOAD_PATH = f"/v1/issuers/{ISSUER}/uploads/1"


def last_response(came):
    """The one response among these bytes, and whether it says that it is the last of its connection. What isn't one
    response stays as it is."""
    try:
        response, end = take_response(came)
    except ValueError:
        return came
    head = came[:came.index(b"\r\n\r\n")].split(b"\r\n")
    return (*response, b"connection: close" in head) if end == len(came) else came


# ---- responses that arrive


def check_too_long(run):
    """A client of Python's own sends its whole body before it reads the response."""
    times = QUICK_TIMES if run.is_quick else TIMES
    seen = []
    with Server(run.program) as server:
        for _ in range(times):
            try:
                seen.append(server.ask("PUT", UPLOAD_PATH, b"x" * TOO_LONG))
            except OSError as fault:
                seen.append(repr(fault))
        status = server.ask("GET", "/v1/status")
    run.report.equal(f"{times} uploads of 5 MB are each answered 413 TOO_LONG", seen, [(413, "TOO_LONG")] * times)
    run.report.equal("and change nothing", status, (200, EMPTY.decode()))


def check_refused_heads(run):
    chunk = b"10000\r\n" + b"x" * 65_536 + b"\r\n"
    chunked = http_request("PUT", UPLOAD_PATH, headers="Transfer-Encoding: chunked\r\n") + chunk * 8 + b"0\r\n\r\n"
    long_line = http_request("GET", "/v1/status", headers=f"X-Word: {'y' * 300_000}\r\n")
    many_lines = http_request("GET", "/v1/status", headers="X-Word: y\r\n" * 32)
    sent = {
        "an upload in chunks is answered 411": (chunked, (411, b"LENGTH_REQUIRED", True)),
        "an upload without a length is answered 411": (http_request("PUT", UPLOAD_PATH), (411, b"LENGTH_REQUIRED", True)),
        "a head of 300,000 bytes is answered 431": (long_line, (431, b"HEAD_TOO_LONG", True)),
        "a head with 33 headers is answered 431": (many_lines, (431, b"HEAD_TOO_LONG", True)),
        "bytes that are no head are answered 400": (b"\0\1\r\n\r\n" + b"z" * 300_000, (400, b"HEAD", True)),
        "a last request is answered, with 4,000 after it": (LAST_STATUS + STATUS * 4_000, (200, EMPTY, True)),
    }
    with Server(run.program) as server:
        for what, (data, wanted) in sent.items():
            run.report.equal(what, last_response(server.send(data)), wanted)


# ---- the start


def check_taken_port(run):
    store = run.folder / "never.db"
    with socket.create_server(("127.0.0.1", 0)) as taken:
        port = taken.getsockname()[1]
        begun = time.monotonic()
        done = subprocess.run([run.program, "serve", "--port", str(port), "--workers", "1", "--store", store],
                              capture_output=True, text=True, timeout=60)
    first, _, rest = done.stderr.partition("\n")
    run.report.note(f"a taken port ended the server after {time.monotonic() - begun:.2f} seconds")
    run.report.equal("a taken port ends the server with status 9", done.returncode, 9)
    run.report.holds("the line of the port has the system's cause",
                     first.startswith(f"127.0.0.1:{port} can't be listened on: ") and "in use" in first.lower(), done.stderr)
    run.report.equal("after it come the word and two lines", [rest.partition("\n")[0], rest.count("\n")], ["DOOR_FAULT", 3])
    run.report.equal("nothing is written to the standard output", done.stdout, "")
    run.report.equal("no store is made", list(run.folder.glob("never*")), [])


def check_opened_first(run):
    store = run.folder / "large.db"
    uploads = [upload(number, compact({"exceptions": [exception(number)]})) for number in range(1, LARGE)]
    done = lines(run.program, accredit() + b"".join(uploads), "--store", store)
    run.report.equal("a large store is made", (done.returncode, done.stdout.count(b"200 ")), (0, LARGE))
    with Server(run.program, "--store", store) as server:
        reported = list(server.lines)
        entries = json.loads(server.ask("GET", "/v1/status")[1])["entries"]
    read = [re.fullmatch(rf"([0-9]+) of {LARGE} entries were read", line) for line in reported[:-1]]
    read = [int(each[1]) if each else -1 for each in read]
    run.report.note(f"the lines before the server listened: {reported[:-1]}")
    run.report.holds("one to nine lines say how far the store is opened", 1 <= len(read) <= 9, reported)
    run.report.equal("and each says more than the one before", read, sorted(set(read)))
    run.report.equal("after them the server listens", reported[-1], f"listening on 127.0.0.1:{server.port}")
    run.report.equal("and answers with all entries", entries, LARGE)


# ---- shortages


def check_descriptors(run):
    """The limit of the running server is set to the descriptors that it has, and then back."""
    with Server(run.program) as server:
        pid = server.process.pid
        before = resource.prlimit(pid, resource.RLIMIT_NOFILE)
        held = max(int(name) for name in os.listdir(f"/proc/{pid}/fd")) + 1
        resource.prlimit(pid, resource.RLIMIT_NOFILE, (held, before[1]))
        with server.connect() as peer:
            peer.sendall(LAST_STATUS)
            time.sleep(1)
            reported, is_running = server.lines[1:], server.process.poll() is None
            resource.prlimit(pid, resource.RLIMIT_NOFILE, before)
            came = peer.recv(1 << 16)
    shape = re.compile(r"a connection can't be taken: .+; trying again")
    is_once = len(reported) == 1 and shape.fullmatch(reported[0])
    run.report.holds("a shortage of descriptors is reported once", is_once, reported)
    run.report.holds("the server goes on", is_running)
    run.report.equal("and serves the connection that waited", last_response(came), (200, EMPTY, True))


def limit_files(size=400_000):
    """Lets the program write files of at most so many bytes. A longer write fails, as on a full disk."""
    signal.signal(signal.SIGXFSZ, signal.SIG_IGN)
    resource.setrlimit(resource.RLIMIT_FSIZE, (size, size))


def send_until_refused(server, bodies):
    """The replies to an accreditation and to uploads of these bodies, up to the first one that isn't taken."""
    replies = [server.ask("PUT", f"/v1/issuers/{ISSUER}")]
    for number, body in enumerate(bodies, 1):
        replies.append(server.ask("PUT", f"/v1/issuers/{ISSUER}/uploads/{number}", body))
        if replies[-1][0] != 200:
            break
    return replies


def check_full_disk(run):
    store = run.folder / "full.db"
    bodies = [compact({"records": [record(number, {"Entity.LegalName": "x" * 60_000})]}) for number in range(1, 21)]
    with Server(run.program, "--store", store, preexec_fn=limit_files) as server:
        *taken, refused = send_until_refused(server, bodies)
        kept = [server.ask("GET", f"/v1/issuers/{ISSUER}/uploads/{number}") for number in range(1, len(taken))]
        again = server.ask("PUT", f"/v1/issuers/{ISSUER}/uploads/{len(taken)}", bodies[len(taken) - 1])
        entries = json.loads(server.ask("GET", "/v1/status")[1])["entries"]
        reported = server.lines[1:]
    report = run.report
    report.note(f"a disk of 400 KB took {len(taken)} entries")
    report.holds("a disk takes uploads until it is full", 2 < len(taken) <= len(bodies), taken[-1:])
    report.equal("an upload that it can't take is answered 503, twice", [refused, again], [(503, "KEEPER_FAULT")] * 2)
    report.equal("what only reads is answered", [kept, entries], [taken[1:], len(taken)])
    report.holds("the failures are reported once, with a cause",
                 len(reported) == 1 and re.fullmatch("the store fails: .+", reported[0]), reported)
    with Server(run.program, "--store", store) as server:
        kept = [server.ask("GET", f"/v1/issuers/{ISSUER}/uploads/{number}") for number in range(1, len(taken))]
        again = server.ask("PUT", f"/v1/issuers/{ISSUER}/uploads/{len(taken)}", bodies[len(taken) - 1])
    report.equal("when there is room, the next server has all that was acknowledged", kept, taken[1:])
    report.equal("and takes the upload that was refused", (again[0], json.loads(again[1])["entry"]), (200, len(taken) + 1))


def check(run):
    check_too_long(run)
    check_taken_port(run)
    if not run.is_quick:
        check_refused_heads(run)
        check_descriptors(run)
        check_full_disk(run)
        check_opened_first(run)
