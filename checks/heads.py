"""A server goes on after broken heads of requests, each on a connection of its own.

Each head is one of a few that change nothing, after one to four changes: some of its bytes are changed, left out, doubled
or put in, or it is cut off. Each gets a reply of HTTP or none. `GET /v1/status` is answered the same after them as before,
and the server ends by itself with status 0 when it has served all its connections."""
import collections
import random

from checks.common.inputs import LAST_STATUS, http_request
from checks.common.servers import Server

COUNT, QUICK_COUNT = 10_000, 300
LEI = "00000000000000000195"

# None of these adds an entry, since the issuer has wrong check digits. Neither does what becomes of them.
WRONG = "506700GE1G29325QX364"
HEADS = [
    http_request("GET", "/v1/status"),
    http_request("GET", f"/v1/records/{LEI}", headers="Accept: application/json\r\n"),
    http_request("GET", "/v1/copies/lei/csv", headers="Connection: keep-alive\r\n"),
    b"GET /v1/deltas/last-day/rr/json?x=1 HTTP/1.0\r\n\r\n",
    http_request("GET", f"/v1/issuers/{WRONG}/uploads/1"),
    http_request("PUT", f"/v1/issuers/{WRONG}/uploads/1", b"{}"),
    f"PUT /v1/issuers/{WRONG}/uploads/1 HTTP/1.1\r\nTransfer-Encoding: chunked\r\n\r\n0\r\n\r\n".encode(),
    f"PUT /v1/issuers/{WRONG}/uploads/1 HTTP/1.1\r\nContent-Length: 5\r\ncontent-length: 05\r\n\r\nabcde".encode(),
    http_request("DELETE", "/v1/status", headers="Expect: 100-continue\r\n"),
]
PIECES = [b"\r\n", b"\n", b"\r", b"\0", b" ", b"\t", b":", b"\xff", b"\xc3\xa9", b"/", b"?", b",", b"close", b"HTTP/1.1",
          b"\r\n\r\n", b"Content-Length: 4194305\r\n", b"Content-Length: 99999999999\r\n", b"Transfer-Encoding: gzip\r\n",
          b"X: " + b"y" * 8192 + b"\r\n", b"A: b\r\n" * 33]


def change(head, chance):
    """A head after one change."""
    at = chance.randrange(len(head) + 1)
    kind = chance.randrange(6)
    if kind == 0:
        return head[:at] + bytes([chance.randrange(256)]) + head[at + 1:]
    if kind == 1:
        return head[:at] + head[at + 1 + chance.randrange(8):]
    if kind == 2:
        return head[:at] + chance.choice(PIECES) + head[at:]
    if kind == 3:
        end = min(len(head), at + 1 + chance.randrange(40))
        return head[:end] + head[at:end] + head[end:]
    if kind == 4:
        return head[:at] + bytes(chance.randrange(256) for _ in range(chance.randrange(20))) + head[at:]
    return head[:at]


def broken_head(chance):
    """A head after one to four changes."""
    head = chance.choice(HEADS)
    for _ in range(1 + chance.randrange(4)):
        head = change(head, chance)
    return head


def check(run):
    chance = random.Random(run.seed)
    count = QUICK_COUNT if run.is_quick else COUNT
    kinds, odd = collections.Counter(), []
    with Server(run.program, "--connections", str(count + 2)) as server:
        before = server.send(LAST_STATUS)
        for _ in range(count):
            head = broken_head(chance)
            came = server.send(head, ends=True)
            kinds[came[9:12].decode(errors="replace") or "no reply"] += 1
            if came and not came.startswith(b"HTTP/1.1 "):
                odd.append((head, came[:200]))
        after = server.send(LAST_STATUS)
        status = server.wait()
    told = ", ".join(f"{kind} {each:,}" for kind, each in sorted(kinds.items()))
    run.report.note(f"{count:,} broken heads: first replies {told}")
    run.report.equal("each broken head gets a reply of HTTP or none", odd[:3], [])
    run.report.equal("the status is asked before and answered 200", before[:13], b"HTTP/1.1 200 ")
    run.report.equal("and the same after them", after, before)
    run.report.equal("the server ends by itself", status, 0)
