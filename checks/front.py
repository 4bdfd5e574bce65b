"""Behind nginx as packaging/nginx/leireg.conf sets it up, each may do what is theirs, and nothing else.

The check makes an authority, accounts of two issuers and of a publisher, and certificates that don't count. By curl,
by Python's http.client and by bytes of its own it does what is allowed and what isn't: in other names, by other methods,
over targets that two readers take differently, and too often. What is refused changes nothing. 200 readers of a copy at
once, twice, have the register asked once for each five seconds, and a copy is never older than these. slowhttptest keeps
500 connections busy in each of its modes, and the service stays available to its own probe. Debian's packages nginx-light,
curl, openssl and slowhttptest have to be there."""
from __future__ import annotations

import concurrent.futures
import contextlib
import csv
import dataclasses
import http.client
import json
import pathlib
import shutil
import socket
import ssl
import subprocess
import time

from checks.common.inputs import (ISSUERS, answer_to_accredit, answer_to_status, answer_to_upload, code, compact, record,
                                  records, reply_to_status)
from checks.common.nginx import Nginx, free_port
from checks.common.programs import ROOT
from checks.common.servers import WAIT, Server, read_all

SITE, ACCOUNTS = ROOT / "packaging/nginx/leireg.conf", ROOT / "packaging/bin/leireg-accounts"
NAME = "register.example"
# nginx makes this folder by itself, but none above it.
CACHE = "/var/lib/nginx/leireg"
FIRST, SECOND, REVOKED = ISSUERS[:3]
# The texts of what nginx refuses by itself.
TEXTS = {403: b"FORBIDDEN", 405: b"METHOD", 413: b"TOO_LONG", 429: b"TOO_MANY_REQUESTS"}
NO_ROUTE = b"NO_ROUTE"
READERS, QUICK_READERS = 200, 20
KEPT_SECONDS = 5
# How much is sent at once to exceed a limit: uploads of an account, requests of an address, bodies that don't come.
UPLOADS, REQUESTS, BODIES_TO_COME = 60, 400, 150
MOST_UNDER_WAY = 100
SLOW, QUICK_SLOW = 25, 6
CONNECTIONS = 500
BODIES = {number: compact(records(10 * number, 2, issuer=FIRST)) for number in (1, 2, 3)}
OTHER_BODY = compact(records(100, 1, issuer=SECOND))
PAGE, FILE, MANIFEST = b"<!doctype html>\n", b'{"publication":1,"records":[]}', b'{"latest":1}'


@dataclasses.dataclass
class Try:
    """A request: who sends it, its method and target, its body and headers, and the status and the text of the response,
    if that is known beforehand."""
    what: str
    who: str | None
    method: str
    target: str
    status: int
    text: bytes | None = None
    body: bytes | None = None
    headers: dict = dataclasses.field(default_factory=dict)


def upload(issuer, number):
    return f"/v1/issuers/{issuer}/uploads/{number}"


def taken(entry, number, issuer, items):
    return answer_to_upload(entry, number, ["ACCEPTED"] * items, issuer)


STATUS = answer_to_status(entries=6, issuers=2, keptBytes=sum(map(len, [*BODIES.values(), OTHER_BODY])), records=7)
ALLOWED = [
    Try("the publisher accredits an issuer", "publisher", "PUT", f"/v1/issuers/{FIRST}", 200, answer_to_accredit(1, FIRST)),
    Try("and another", "publisher", "PUT", f"/v1/issuers/{SECOND}", 200, answer_to_accredit(2, SECOND)),
    Try("an issuer sends an upload", FIRST, "PUT", upload(FIRST, 1), 200, taken(3, 1, FIRST, 2), BODIES[1]),
    Try("and sends it again", FIRST, "PUT", upload(FIRST, 1), 200, taken(3, 1, FIRST, 2), BODIES[1]),
    Try("another issuer sends one", SECOND, "PUT", upload(SECOND, 1), 200, taken(4, 1, SECOND, 1), OTHER_BODY),
    Try("one comes in chunks", FIRST, "PUT", upload(FIRST, 2), 200, taken(5, 2, FIRST, 2), BODIES[2],
        {"Transfer-Encoding": "chunked"}),
    Try("one has a tail", FIRST, "PUT", f"{upload(FIRST, 3)}?again=1", 200, taken(6, 3, FIRST, 2), BODIES[3]),
    Try("anybody reads the status", None, "GET", "/v1/status", 200, STATUS),
    Try("the publisher publishes", "publisher", "PUT", "/v1/publications/1", 201),
    Try("and does so again", "publisher", "PUT", "/v1/publications/1", 201),
    Try("anybody reads a record", None, "GET", f"/v1/records/{code(10)}", 200, compact(record(10, issuer=FIRST))),
    Try("an issuer reads a record", SECOND, "GET", f"/v1/records/{code(10)}", 200, compact(record(10, issuer=FIRST))),
    Try("anybody reads a kept answer", None, "GET", upload(FIRST, 1), 200, taken(3, 1, FIRST, 2)),
    Try("anybody reads a copy", None, "GET", "/v1/copies/lei/csv", 200),
    Try("and one in JSON", None, "GET", "/v1/copies/rr/json", 200),
    Try("and a delta", None, "GET", "/v1/deltas/1/repex/json", 200),
    Try("and a refusal of the register", None, "GET", f"/v1/records/{code(9)}", 404, b"LEI_UNKNOWN"),
    Try("one with more headers than the register takes", None, "GET", "/v1/status", 200, None, None,
        {f"X-{number}": "y" for number in range(40)}),
    Try("a page of this origin asks", None, "GET", "/v1/status", 200, None, None, {"Origin": f"https://{NAME}"}),
    Try("anybody gets the page", None, "GET", "/", 200, PAGE),
    Try("and its head", None, "HEAD", "/", 200, b""),
    Try("anybody gets a published file", None, "GET", "/publish/lei/1.json", 200, FILE),
    Try("and the manifest", None, "GET", "/publish/manifest.json", 200, MANIFEST),
]
ENCODED = "".join(f"%{ord(sign):x}" for sign in SECOND)
REFUSED = [
    Try("nobody accredits", None, "PUT", f"/v1/issuers/{REVOKED}", 403),
    Try("an issuer accredits itself", FIRST, "PUT", f"/v1/issuers/{FIRST}", 403),
    Try("an issuer uploads for another", FIRST, "PUT", upload(SECOND, 2), 403, None, OTHER_BODY),
    Try("the other for the first", SECOND, "PUT", upload(FIRST, 4), 403, None, OTHER_BODY),
    Try("the publisher uploads", "publisher", "PUT", upload(FIRST, 4), 403, None, BODIES[1]),
    Try("nobody uploads", None, "PUT", upload(FIRST, 4), 403, None, BODIES[1]),
    Try("an issuer publishes", FIRST, "PUT", "/v1/publications/2", 403),
    Try("nobody publishes", None, "PUT", "/v1/publications/2", 403),
    Try("a certificate of another authority", "stranger", "PUT", upload(FIRST, 4), 400, b"CERTIFICATE", BODIES[1]),
    Try("even to read", "stranger", "GET", "/v1/status", 400, b"CERTIFICATE"),
    Try("a certificate of yesterday", "expired", "PUT", upload(FIRST, 4), 400, b"CERTIFICATE", BODIES[1]),
    Try("a certificate that was revoked", "revoked", "PUT", upload(REVOKED, 1), 400, b"CERTIFICATE", BODIES[1]),
    Try("a certificate with two names", "double", "PUT", upload(FIRST, 4), 403, None, BODIES[1]),
    Try("DELETE", "publisher", "DELETE", f"/v1/issuers/{FIRST}", 405),
    Try("POST", FIRST, "POST", upload(FIRST, 4), 405, None, BODIES[1]),
    Try("PATCH", "publisher", "PATCH", "/v1/publications/2", 405),
    Try("OPTIONS", None, "OPTIONS", "/v1/status", 405),
    Try("HEAD of the register", None, "HEAD", "/v1/status", 405, b""),
    Try("PUT of a copy", "publisher", "PUT", "/v1/copies/lei/csv", 405),
    Try("PUT of a published file", "publisher", "PUT", "/publish/lei/1.json", 405, None, FILE),
    Try("DELETE of the page", "publisher", "DELETE", "/index.html", 405),
    Try("two slashes", FIRST, "PUT", f"/{upload(SECOND, 2)}", 404, NO_ROUTE, OTHER_BODY),
    Try("two slashes inside", FIRST, "PUT", f"/v1/issuers//{SECOND}/uploads/2", 404, NO_ROUTE, OTHER_BODY),
    Try("a way back", FIRST, "PUT", f"/v1/issuers/{FIRST}/../{SECOND}/uploads/2", 404, NO_ROUTE, OTHER_BODY),
    Try("an encoded way back", FIRST, "PUT", f"/v1/issuers/{FIRST}/%2e%2e/{SECOND}/uploads/2", 404, NO_ROUTE, OTHER_BODY),
    Try("an encoded slash", FIRST, "PUT", f"/v1/issuers/{FIRST}%2f..%2f{SECOND}/uploads/2", 404, NO_ROUTE, OTHER_BODY),
    Try("the other LEI encoded", FIRST, "PUT", f"/v1/issuers/{ENCODED}/uploads/2", 404, NO_ROUTE, OTHER_BODY),
    Try("an encoded route", FIRST, "PUT", f"/%76%31/issuers/{SECOND}/uploads/2", 404, NO_ROUTE, OTHER_BODY),
    Try("a parameter of a segment", FIRST, "PUT", f"/v1/issuers/{FIRST};x/uploads/4", 404, NO_ROUTE, BODIES[1]),
    Try("a slash at the end", None, "GET", "/v1/status/", 404, NO_ROUTE),
    Try("capital letters", None, "GET", "/V1/status", 404),
    Try("a way out of the files", None, "GET", "/publish/..%2f..%2fetc/passwd", 400),
    Try("a published file that isn't whole yet", None, "GET", "/publish/.new/1.json", 404),
    Try("and one below a folder", None, "GET", "/publish/lei/.new/1.json", 404),
    Try("another origin", None, "GET", "/v1/status", 403, None, None, {"Origin": "https://other.example"}),
    Try("another name", None, "GET", "/v1/status", 421, None, None, {"Host": "other.example"}),
    Try("a body that is too long", FIRST, "PUT", upload(FIRST, 4), 413, None, b" " * 4_194_305),
]
# Bytes that no client sends by itself, and the status that they get.
PLAIN = f"Host: {NAME}\r\n"
BYTES = [
    ("an absolute target of another name", f"GET https://other.example/v1/status HTTP/1.1\r\n{PLAIN}\r\n", 421),
    ("two names", f"GET /v1/status HTTP/1.1\r\n{PLAIN}Host: other.example\r\n\r\n", 400),
    ("no name", "GET /v1/status HTTP/1.1\r\n\r\n", 400),
    ("no name in HTTP/1.0", "GET /v1/status HTTP/1.0\r\n\r\n", 421),
    ("a method in small letters", f"get /v1/status HTTP/1.1\r\n{PLAIN}\r\n", 400),
    ("TRACE", f"TRACE /v1/status HTTP/1.1\r\n{PLAIN}\r\n", 405),
    ("CONNECT", f"CONNECT 127.0.0.1:80 HTTP/1.1\r\n{PLAIN}\r\n", 400),
    ("two lengths", f"PUT {upload(FIRST, 4)} HTTP/1.1\r\n{PLAIN}Content-Length: 2\r\nContent-Length: 3\r\n\r\n{{}}", 400),
    ("a length and chunks", f"PUT {upload(FIRST, 4)} HTTP/1.1\r\n{PLAIN}Content-Length: 5\r\n"
     "Transfer-Encoding: chunked\r\n\r\n0\r\n\r\n", 400),
    ("a head that is too long", f"GET /v1/status HTTP/1.1\r\n{PLAIN}X: {'y' * 40_000}\r\n\r\n", 400),
]


# ---- a site with its accounts


def openssl(*words, **more):
    subprocess.run(["openssl", *map(str, words)], check=True, capture_output=True, **more)


def make_certificate(folder, name, issued_by, subject, *words):
    """A key and a certificate with this subject, signed by the key of an authority, or by its own if there is none."""
    openssl("ecparam", "-name", "prime256v1", "-genkey", "-noout", "-out", folder / f"{name}.key")
    signed = ["-CA", folder / f"{issued_by}.pem", "-CAkey", folder / f"{issued_by}.key"] if issued_by else []
    openssl("req", "-new", "-key", folder / f"{name}.key", "-subj", subject, "-out", folder / f"{name}.csr")
    own = [] if issued_by else ["-signkey", folder / f"{name}.key"]
    openssl("x509", "-req", "-in", folder / f"{name}.csr", "-out", folder / f"{name}.pem", "-days", 2, *signed, *own,
            *(["-CAcreateserial"] if issued_by else []), *words)


def make_accounts(folder):
    """The authority with its accounts by leireg-accounts, and certificates that don't count."""
    for words in (["init"], ["init"], ["add", "publisher"], *(["add", issuer] for issuer in ISSUERS[:3]),
                  ["add", FIRST]):
        subprocess.run([ACCOUNTS, folder, *words], check=True, capture_output=True)
    for kind in ("key", "pem"):
        shutil.copyfile(folder / f"{REVOKED}.{kind}", folder / f"revoked.{kind}")
    for words in (["revoke", REVOKED], ["revoke", REVOKED], ["add", REVOKED]):
        subprocess.run([ACCOUNTS, folder, *words], check=True, capture_output=True)
    names = folder / "names"
    names.write_text(f"subjectAltName=DNS:{NAME},DNS:localhost\n")
    make_certificate(folder, "root", None, "/CN=Authority of the server")
    make_certificate(folder, "server", "root", f"/CN={NAME}", "-extfile", names)
    make_certificate(folder, "foreign", None, "/CN=Accounts of the register")
    make_certificate(folder, "stranger", "foreign", f"/CN={FIRST}")
    make_certificate(folder, "double", "ca", f"/CN={SECOND}/CN={FIRST}")
    openssl("req", "-new", "-key", folder / f"{FIRST}.key", "-subj", f"/CN={FIRST}", "-out", folder / "expired.csr")
    openssl("ca", "-batch", "-config", "settings", "-notext", "-in", "expired.csr", "-out", "expired.pem",
            "-startdate", "20200101000000Z", "-enddate", "20200102000000Z", cwd=folder)
    shutil.copyfile(folder / f"{FIRST}.key", folder / "expired.key")


def site_of(folder, port, upstream, **others):
    """The site with other places and ports, and with others in the place of further texts. Each has to stand in it."""
    text = SITE.read_text()
    places = {
        **others, "listen 443 ": f"listen 127.0.0.1:{port} ", "/etc/leireg/tls": folder / "tls",
        "127.0.0.1:8080": f"127.0.0.1:{upstream}", "/usr/share/leireg/page": folder / "page",
        "/var/lib/leireg/publish": folder / "publish", CACHE: folder / "cache",
    }
    for place, own in places.items():
        if place not in text:
            raise RuntimeError(f"{SITE.name} lacks {place}")
        text = text.replace(place, str(own))
    return text


class Front:
    """A register, and nginx in front of it."""

    def __init__(self, folder, port, server):
        self.folder, self.port, self.server = folder, port, server

    def certificate(self, who):
        tls = self.folder / "tls"
        return tls / f"{who}.pem", tls / f"{who}.key"

    def context(self, who=None):
        """The settings of TLS of a client that knows the authority of the server, with a certificate of its own."""
        context = ssl.create_default_context(cafile=self.folder / "tls" / "root.pem")
        if who:
            context.load_cert_chain(*self.certificate(who))
        return context

    def by_curl(self, each):
        """The status and the text of a response to curl."""
        command = ["curl", "--silent", "--path-as-is", "--max-time", str(WAIT), "--noproxy", "*", "--resolve",
                   f"{NAME}:{self.port}:127.0.0.1", "--cacert", self.folder / "tls" / "root.pem", "--write-out",
                   "\n%{http_code}", "--header", "Expect:", *(["--head"] if each.method == "HEAD" else ["-X", each.method])]
        if each.who:
            command += ["--cert", self.certificate(each.who)[0], "--key", self.certificate(each.who)[1]]
        for name, value in each.headers.items():
            command += ["--header", f"{name}: {value}"]
        if each.body is not None:
            command += ["--data-binary", "@-", "--header", "Content-Type: application/json"]
        done = subprocess.run([*command, f"https://{NAME}:{self.port}{each.target}"], input=each.body, capture_output=True)
        text, _, status = done.stdout.rpartition(b"\n")
        return int(status), b"" if each.method == "HEAD" else text

    def connect(self, who=None, name=NAME, context=None, address="127.0.0.1"):
        """A connection by TLS that asks for a name, from an address of this machine."""
        peer = socket.create_connection(("127.0.0.1", self.port), WAIT, (address, 0))
        return (context or self.context(who)).wrap_socket(peer, server_hostname=name)

    def at_once(self, sent, addresses, who=None, beside=lambda: None):
        """What comes back over a connection from each address, after the same bytes were sent on all. Something is done
        beside it, before any response is read."""
        context = self.context(who)
        with contextlib.ExitStack() as peers:
            several = [peers.enter_context(self.connect(context=context, address=address)) for address in addresses]
            for peer in several:
                peer.sendall(sent)
            beside()
            return [read_all(peer) for peer in several]

    def by_client(self, each):
        """The status and the text of a response to Python's http.client."""
        client = http.client.HTTPSConnection(NAME, self.port, timeout=WAIT)
        client.sock = self.connect(each.who)
        with contextlib.closing(client):
            chunks = each.headers.get("Transfer-Encoding") == "chunked"
            headers = {"Host": NAME, **{name: value for name, value in each.headers.items() if name != "Transfer-Encoding"}}
            client.request(each.method, each.target, iter([each.body]) if chunks else each.body, headers,
                           encode_chunked=chunks)
            response = client.getresponse()
            return response.status, response.read()

    def ask(self, target):
        """What anybody reads there."""
        return self.by_client(Try("", None, "GET", target, 200))

    def by_bytes(self, sent):
        """The status of the response to some bytes of an issuer, or none."""
        with self.connect(FIRST) as peer, contextlib.suppress(OSError):
            peer.sendall(sent.encode())
            head = peer.recv(1 << 16).split(b" ", 2)
            return int(head[1]) if head[0] == b"HTTP/1.1" else None


@contextlib.contextmanager
def front(run, **others):
    """A register that is empty, and nginx in front of it. Others take the place of texts in the site."""
    folder, port = run.folder / f"front-{len(list(run.folder.iterdir()))}", free_port()
    (folder / "publish" / "lei").mkdir(parents=True)
    (folder / "page").mkdir()
    (folder / "tls").mkdir()
    (folder / "page" / "index.html").write_bytes(PAGE)
    (folder / "publish" / "lei" / "1.json").write_bytes(FILE)
    for place in ("publish", "publish/lei"):
        (folder / place / ".new").mkdir()
        (folder / place / ".new" / "1.json").write_bytes(FILE[:5])
    (folder / "publish" / "manifest.json").write_bytes(MANIFEST)
    make_accounts(folder / "tls")
    with Server(run.program, workers=8) as server:
        site = site_of(folder, port, server.port, **others)
        with Nginx(folder / "nginx", f"127.0.0.1:{port}", site) as nginx:
            yield Front(folder, port, server), nginx


# ---- what is allowed and what isn't


def compare(run, each, ask):
    """Compares the response to a request with what has to come."""
    status, text = ask(each)
    wanted = TEXTS.get(each.status, text) if each.text is None else each.text
    run.report.equal(f"{each.what}: {each.method} {each.target[:60]}", (status, text), (each.status, wanted))


def try_all(run, site):
    """Each request by curl or by http.client. What is refused is so for both, and changes nothing."""
    clients = [site.by_curl, site.by_client]
    for place, each in enumerate(ALLOWED):
        compare(run, each, clients[place % 2])
    before = site.ask("/v1/status")
    for place, each in enumerate(REFUSED):
        for ask in [clients[place % 2]] if run.is_quick else clients:
            # Python's client sends one slash where there are two at the front.
            if not (ask == site.by_client and each.target.startswith("//")):
                compare(run, each, ask)
    for what, sent, status in BYTES:
        run.report.equal(f"{what} is answered {status}", site.by_bytes(sent), status)
    for what, name, context, alert in (
            ("a name in TLS that isn't the register's", "other.example", site.context(), "TLSV1_UNRECOGNIZED_NAME"),
            ("no name in TLS", None, site.context(), "TLSV1_UNRECOGNIZED_NAME"),
            ("TLS 1.0", NAME, old_context(), "TLSV1_ALERT_PROTOCOL_VERSION")):
        run.report.equal(f"{what} gets no connection", alert_of(site, name, context), alert)
    run.report.equal("and nothing has changed", site.ask("/v1/status"), before)
    run.report.note(f"{len(ALLOWED)} requests that are allowed, {len(REFUSED) + len(BYTES) + 3} that aren't")


def old_context():
    context = ssl.SSLContext(ssl.PROTOCOL_TLS_CLIENT)
    context.check_hostname, context.verify_mode = False, ssl.CERT_NONE
    context.set_ciphers("ALL:@SECLEVEL=0")
    context.minimum_version = context.maximum_version = ssl.TLSVersion.TLSv1
    return context


def alert_of(site, name, context):
    """By which alert nginx refuses a connection by TLS, or nothing if it makes it."""
    context.check_hostname = False
    try:
        site.connect(None, name, context).close()
    except ssl.SSLError as refused:
        return refused.reason
    return None


def compare_accounts(run, site):
    """What is made again after it was revoked has another key. nginx finds the folder above its cache."""
    made, revoked = (site.certificate(who)[1].read_bytes() for who in (REVOKED, "revoked"))
    run.report.holds("a revoked account that is made again has another key", made and made != revoked)
    run.report.holds("Debian's nginx has the folder above the cache", pathlib.Path(CACHE).parent.is_dir())


def compare_heads(run, site):
    """The headers that a browser has to get, and how long files may be kept."""
    kept = {"/": None, "/publish/lei/1.json": "public, max-age=31536000, immutable", "/publish/manifest.json": "no-cache"}
    for target, wanted in kept.items():
        client = http.client.HTTPSConnection(NAME, site.port, timeout=WAIT)
        client.sock = site.connect()
        with contextlib.closing(client):
            client.request("GET", target, headers={"Accept-Encoding": "gzip"})
            heads = client.getresponse().headers
        run.report.equal(f"{target} tells caches how it is encoded", (heads["Content-Encoding"], heads["Vary"]),
                         ("gzip", "Accept-Encoding") if target.endswith("/1.json") else (None, None))
        run.report.equal(f"{target} may be kept so long", heads["Cache-Control"], wanted)
        strict = heads["Content-Security-Policy"].startswith("default-src 'none'; script-src 'self'")
        run.report.holds(f"{target} comes with the policy", strict and heads["X-Content-Type-Options"] == "nosniff"
                         and heads["Strict-Transport-Security"] == "max-age=31536000", heads)


def exceed_limits(run, site):
    """Who sends too much at once is told so by name, and what is within the limit is answered. A reader at another address
    is answered meanwhile."""
    upload_again = f"PUT {upload(FIRST, 1)} HTTP/1.1\r\n{PLAIN}Content-Length: {len(BODIES[1])}\r\nConnection: close\r\n\r\n"
    ask = f"GET / HTTP/1.1\r\n{PLAIN}"
    unfinished = f"GET /v1/status HTTP/1.1\r\n{PLAIN}Content-Length: 10\r\n\r\n"

    def read_beside():
        run.report.equal("a reader is answered meanwhile", site.ask("/v1/status")[0], 200)

    found = site.at_once(upload_again.encode() + BODIES[1], ["127.0.0.2"] * UPLOADS, FIRST, read_beside)
    taken_ones = [came for came in found if came.startswith(b"HTTP/1.1 200 ") and came.endswith(taken(3, 1, FIRST, 2))]
    compare_refusals(run, f"uploads of an account, of {UPLOADS}", found, len(taken_ones))
    [found] = site.at_once(f"{ask}\r\n".encode() * (REQUESTS - 1) + f"{ask}Connection: close\r\n\r\n".encode(), ["127.0.0.3"],
                           None, read_beside)
    found = [b"HTTP/1.1 " + came for came in found.split(b"HTTP/1.1 ")[1:]]
    compare_refusals(run, f"requests of an address, of {REQUESTS}", found, sum(came.endswith(PAGE) for came in found))
    found = site.at_once(unfinished.encode(), ["127.0.0.4"] * BODIES_TO_COME, None, read_beside)
    compare_refusals(run, f"requests under way, of {BODIES_TO_COME}", found, found.count(b""))
    run.report.equal("an address has so many under way, and they end", found.count(b""), MOST_UNDER_WAY)


def compare_refusals(run, what, found, within):
    """Compares what came back for too much at once: some was within the limit, and the rest was refused by name."""
    refused = sum(came.startswith(b"HTTP/1.1 429 ") and came.endswith(TEXTS[429]) for came in found)
    run.report.holds(f"too many {what}, are refused by name", within and refused and within + refused == len(found), found[-2:])
    run.report.note(f"{refused} of {len(found)} {what.partition(',')[0]} were refused")


# ---- the cache


def read_at_once(run, site, nginx, publication):
    """Many readers of a copy at once, each at an address of its own, have the same bytes, and the register is asked once for
    each five seconds that this takes."""
    count, target = QUICK_READERS if run.is_quick else READERS, "/v1/copies/lei/json"
    before = nginx.log()
    begun = time.time()
    found = site.at_once(f"GET {target} HTTP/1.1\r\n{PLAIN}Connection: close\r\n\r\n".encode(),
                         [f"127.0.0.{2 + place}" for place in range(count)])
    ended = time.time()
    texts = {came.partition(b"\r\n\r\n")[2] for came in found}
    copy = json.loads(texts.pop()) if all(came.startswith(b"HTTP/1.1 200 ") for came in found) else {}
    wanted = [record(number, issuer=SECOND if number == 100 else FIRST) for number in (10, 11, 20, 21, 30, 31, 100)]
    run.report.equal("readers at once get the copy", (copy.get("publication"), copy.get("records"), texts),
                     (publication, wanted, set()))
    asked = [line for line in nginx.log()[len(before):] if line[1:3] == ["GET", target] and line[3] != "HIT"]
    times = int(ended // KEPT_SECONDS) - int(begun // KEPT_SECONDS) + 1
    run.report.holds("the register is asked once for each five seconds", 0 < len(asked) <= times, (asked, times))
    run.report.note(f"{count} readers at once were served in {ended - begun:.2f} s")


def publish_again(run, site):
    """After a publication no copy is older than the time for which copies are kept."""
    site.ask("/v1/copies/repex/json")
    status, _ = site.by_client(Try("", "publisher", "PUT", "/v1/publications/2", 201))
    begun, seen = time.monotonic(), []
    while not seen or seen[-1] != 2 and time.monotonic() < begun + WAIT:
        seen.append(json.loads(site.ask("/v1/copies/repex/json")[1])["publication"])
        time.sleep(0.1)
    took = time.monotonic() - begun
    run.report.equal("the second publication is made", (status, seen[-1]), (201, 2))
    run.report.holds(f"a copy of it comes within {KEPT_SECONDS} seconds and one", took < KEPT_SECONDS + 1, took)
    run.report.equal("and none of the first after it", json.loads(site.ask("/v1/copies/repex/json")[1])["publication"], 2)


def end_register(run, site):
    """Without the register there are still the page and the published files."""
    site.server.end()
    for each in (Try("without the register a record", None, "GET", f"/v1/records/{code(10)}", 503, b"UNAVAILABLE"),
                 Try("and the page", None, "GET", "/", 200, PAGE),
                 Try("and a published file", None, "GET", "/publish/lei/1.json", 200, FILE)):
        compare(run, each, site.by_client)


# ---- slow peers


def read_slowly(run):
    """slowhttptest, in each of its modes. It asks for `localhost`, names nothing in TLS, and comes from the address of the
    good reader: so the site has that name, refuses no handshake, and counts no address."""
    seconds = QUICK_SLOW if run.is_quick else SLOW
    others = {
        NAME: "localhost", "limit_conn leireg_peers 100;": "", "limit_req zone=leireg_readers burst=200 nodelay;": "",
        "ssl_reject_handshake on;":
            "ssl_certificate /etc/leireg/tls/server.pem; ssl_certificate_key /etc/leireg/tls/server.key;",
    }
    with front(run, **others) as (site, _):
        for mode in "HBRX":
            worst, wrong = read_beside(site, lambda: slow_test(run, site, mode, seconds))
            run.report.equal(f"a good reader is answered beside slowhttptest -{mode}", wrong, [])
            run.report.note(f"beside -{mode} the slowest of its responses took {worst:.2f} s")


def slow_test(run, site, mode, seconds):
    """Runs slowhttptest, and compares what its probe saw in each second. It ends early if all connections are closed."""
    out = run.folder / f"slow-{mode}"
    target = "/v1/copies/lei/csv" if mode in "RX" else "/v1/status"
    command = ["slowhttptest", f"-{mode}", "-c", CONNECTIONS, "-r", 200, "-l", seconds, "-p", 2, "-i", 5, "-x", 24, "-g",
               "-o", out, "-t", "GET", "-u", f"https://localhost:{site.port}{target}"]
    subprocess.run(list(map(str, command)), stdout=subprocess.DEVNULL, timeout=seconds + WAIT)
    with open(f"{out}.csv") as file:
        rows = list(csv.DictReader(file))
    down = [row for row in rows if int(row["Service Available"]) == 0]
    most = max((int(row["Connected"]) for row in rows), default=0)
    run.report.equal(f"slowhttptest -{mode} finds the service available", (down, len(rows) > 1), ([], True))
    run.report.note(f"-{mode} had up to {most} connections at once")


def read_beside(site, act):
    """The longest time that a reader waited who asks each 100 ms while something is done, and what came wrongly."""
    times, wrong = [0.0], []
    with concurrent.futures.ThreadPoolExecutor(1) as pool:
        done = pool.submit(act)
        while not done.done():
            begun = time.monotonic()
            client = http.client.HTTPSConnection("localhost", site.port, timeout=WAIT)
            client.sock = site.connect(name="localhost")
            with contextlib.closing(client):
                client.request("GET", "/v1/status")
                response = client.getresponse()
                came = response.status, response.read()
            if came != (200, reply_to_status()[4:-1]):
                wrong.append(came)
            times.append(time.monotonic() - begun)
            time.sleep(0.1)
        done.result()
    return max(times), wrong


def check(run):
    with front(run) as (site, nginx):
        try_all(run, site)
        compare_accounts(run, site)
        compare_heads(run, site)
        read_at_once(run, site, nginx, 1)
        publish_again(run, site)
        read_at_once(run, site, nginx, 2)
        exceed_limits(run, site)
        end_register(run, site)
    if shutil.which("slowhttptest") is None:
        raise RuntimeError("slowhttptest isn't there: it is a package of Debian")
    read_slowly(run)
