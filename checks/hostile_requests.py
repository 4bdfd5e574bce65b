"""Requests of hostile callers, made from a seed, each as a line, over HTTP or as both."""
from __future__ import annotations

import dataclasses

from checks.common.inputs import FORMS, ISSUERS, TABLES, code, http_request
from checks.hostile_bodies import Items
from checks.hostile_scenes import SCENES
from checks.model.bodies import read

LONGEST_LINE, LONGEST_BODY = 4_194_340, 4_194_304
# Replies over HTTP to what no line is like.
HEAD, LENGTH, METHOD, ROUTE = (400, b"HEAD"), (411, b"LENGTH_REQUIRED"), (405, b"METHOD"), (404, b"NO_ROUTE")
LONG_HEAD, TOO_LONG = (431, b"HEAD_TOO_LONG"), (413, b"TOO_LONG")


@dataclasses.dataclass(frozen=True)
class Request:
    """A request as a line and over HTTP, either of which it may lack. Its kind is the first word of the line, or says what
    it is. One that closes is the last of its connection. An empty line has no reply. What is sent over HTTP alone gets the
    reply that is wanted, or that of `STATUS` if there is none."""
    kind: str
    line: bytes | None
    http: bytes | None
    closes: bool = False
    issuer: str = ""
    number: int = 0
    wanted: tuple | None = None

    @property
    def has_file(self):
        return self.kind in ("COPY", "DELTA")


def both(words, method, path, body=None, **more):
    """A request in both forms."""
    kind, *rest = map(str, words)
    line = " ".join((kind, *rest)).encode() + (b"" if body is None else b" " + body)
    return Request(kind, line, http_request(method, "/v1/" + path, body), **more)


def accreditation(issuer):
    return both(["ACCREDIT", issuer], "PUT", f"issuers/{issuer}", issuer=issuer)


def upload_request(issuer, number, body):
    """An upload."""
    return both(["UPLOAD", issuer, number], "PUT", f"issuers/{issuer}/uploads/{number}", body, issuer=issuer, number=number)


def kept_request(issuer, number):
    return both(["KEPT", issuer, number], "GET", f"issuers/{issuer}/uploads/{number}", issuer=issuer, number=number)


def publication(number):
    return both(["PUBLISH", number], "PUT", f"publications/{number}", number=number)


def show(lei):
    return both(["SHOW", lei], "GET", f"records/{lei}")


def copy(table, form):
    return both(["COPY", table, form], "GET", f"copies/{table}/{form}")


def delta(base, table, form):
    return both(["DELTA", base, table, form], "GET", f"deltas/{base}/{table}/{form}")


def status():
    return both(["STATUS"], "GET", "status")


def over_http(chance):
    """A request over HTTP that no line is like. It adds nothing, and it may be the last of its connection."""
    get = "GET /v1/status HTTP/1.1\r\n"
    text, closes, wanted = chance.choice([
        ("GET /nothing HTTP/1.1\r\n\r\n", False, ROUTE),
        ("PUT /v1/ HTTP/1.1\r\nContent-Length: 5\r\n\r\nhello", False, ROUTE),
        ("DELETE /v1/status HTTP/1.1\r\n\r\n", False, METHOD),
        ("HEAD /v1/status HTTP/1.1\r\n\r\n", False, METHOD),
        ("PUT /v1/status HTTP/1.1\r\nContent-Length: 2\r\n\r\n{}", False, METHOD),
        (get + "Content-Length: 3\r\nContent-Length: 03\r\n\r\nabc", False, None),
        ("GET /v1/status?x=/1 HTTP/1.1\r\nHost: a\r\nExpect: 100-continue\r\n\r\n", False, None),
        (get + "Connection: close\r\n\r\n", True, None),
        (get + "Connection: keep-alive,\t CLOSE \r\n\r\n", True, None),
        ("GET /v1/status HTTP/1.0\r\n\r\n", True, None),
        (get + "no header\r\n\r\n", True, HEAD),
        (get + "Transfer-Encoding: chunked\r\n\r\n", True, LENGTH),
        (get + "Content-Length: 1\r\nContent-Length: 2\r\n\r\n", True, HEAD),
        (get + "Content-Length: 00000000001\r\n\r\n", True, HEAD),
        (get + f"Content-Length: {LONGEST_BODY + 1}\r\n\r\n", True, TOO_LONG),
        (get + "a: b\r\n" * 33 + "\r\n", True, LONG_HEAD),
        ("GET /" + "x" * 9_000, True, LONG_HEAD),
        (f"PUT /v1/issuers/{ISSUERS[0]}/uploads/1 HTTP/1.1\r\n\r\n", True, LENGTH),
    ])
    return Request("over HTTP", None, text.encode(), closes, wanted=wanted)


def wrong_words(chance):
    """A request with words that are none, in both forms."""
    issuer = chance.choice(ISSUERS)
    wrong = chance.choice([issuer[:-1] + "X", issuer[:-1] + str((int(issuer[-1]) + 1) % 10), issuer.lower() + "a",
                           issuer[1:]])
    number = chance.choice(["0", "01", "1000001", "-1", "+1", "x", "4294967297", "1.0"])
    return chance.choice([
        both(["ACCREDIT", wrong], "PUT", f"issuers/{wrong}"),
        both(["UPLOAD", issuer, number], "PUT", f"issuers/{issuer}/uploads/{number}", b"{}"),
        both(["UPLOAD", wrong, 1], "PUT", f"issuers/{wrong}/uploads/1", b"{}"),
        both(["KEPT", issuer, number], "GET", f"issuers/{issuer}/uploads/{number}"),
        both(["PUBLISH", number], "PUT", f"publications/{number}"),
        both(["SHOW", "195"], "GET", "records/195"),
        both(["COPY", "lei", "xml"], "GET", "copies/lei/xml"),
        both(["COPY", "LEI", "csv"], "GET", "copies/LEI/csv"),
        both(["DELTA", "last-year", "rr", "csv"], "GET", "deltas/last-year/rr/csv"),
        both(["DELTA", number, "rr", "csv"], "GET", f"deltas/{number}/rr/csv"),
    ])


class Maker:
    """Makes the requests of one session. It knows which uploads and publications come next, if all are taken."""

    def __init__(self, chance):
        self.chance = chance
        self.items = Items(chance)
        self.accredited = []
        self.next = dict.fromkeys(ISSUERS, 1)
        self.sent = []
        self.publications = 0
        self.sheets = chance.sample([(table, form) for table in TABLES for form in FORMS], 2)
        self.requests = []

    def add(self, *requests):
        self.requests += requests

    def send(self, issuer, body):
        """The next upload of an issuer."""
        self.add(upload_request(issuer, self.next[issuer], body))
        if issuer in self.accredited and not isinstance(read(body), str):
            self.sent.append((issuer, self.next[issuer], body))
            self.next[issuer] += 1

    def some_upload(self):
        """The next upload of an issuer, or one that is refused."""
        issuer = self.chance.choice(self.accredited or ISSUERS)
        chance, body = self.chance.random(), self.items.body(issuer)
        self.items.first += chance < 0.2
        if chance < 0.1 and self.sent:
            issuer, number, body = self.chance.choice(self.sent)
            self.add(upload_request(issuer, number, body if self.chance.random() < 0.8 else body + b" "))
        elif chance < 0.15:
            self.add(upload_request(issuer, self.next[issuer] + self.chance.randrange(1, 5), body))
        elif chance < 0.35:
            # The same number is sent twice: the second time it is taken, or was taken.
            number = self.next[issuer]
            self.send(issuer, self.items.damage(body))
            self.add(upload_request(issuer, number, body)) if number < self.next[issuer] else self.send(issuer, body)
        else:
            self.send(issuer, body)

    def some_accredit(self):
        self.accredit(self.chance.choice(ISSUERS))

    def accredit(self, issuer):
        self.add(accreditation(issuer))
        if issuer not in self.accredited:
            self.accredited.append(issuer)

    def some_publish(self):
        """The next publication with its copies, each with the deltas that lead to it; or another number."""
        if self.chance.random() < 0.2:
            self.add(publication(self.publications + 2), *([publication(self.publications)] if self.publications else []))
        else:
            self.publish()

    def publish(self):
        self.publications += 1
        self.add(publication(self.publications))
        for table, form in self.sheets:
            self.add(copy(table, form))
            if self.publications > 1:
                earlier = self.chance.randrange(1, self.publications)
                self.add(*(delta(base, table, form) for base in sorted({earlier, self.publications - 1})))

    def some_read(self):
        issuer, sheet, form = self.chance.choice(ISSUERS), self.chance.choice(TABLES), self.chance.choice(FORMS)
        base = self.chance.choice(["last-day", "last-week", "last-month", self.publications + 1, 1_000_000])
        self.add(self.chance.choice([
            status(), *[show(code(self.items.entity())) for _ in range(2)], delta(base, sheet, form),
            kept_request(issuer, self.chance.randrange(1, self.next[issuer] + 2)),
        ]))

    def some_wrong_words(self):
        self.add(wrong_words(self.chance))

    def some_damaged_line(self):
        """A line that no request over HTTP is like. It adds nothing."""
        issuer = self.chance.choice(ISSUERS)
        whole = self.chance.choice([f"ACCREDIT {issuer}", f"UPLOAD {issuer} 1 {{}}", "STATUS", "PUBLISH 1",
                                    "COPY lei csv"]).encode()
        self.add(Request("damaged line", self.chance.choice([
            b"", b"", whole.lower(), b" " + whole, whole.split()[0] + b"S " + whole, b"\x00" + whole,
            b"\xff\xfe" + self.items.byte() * 40, f"UPLOAD {issuer} 1".encode(), b"STATUS now", b"STATUS ",
            b"COPY lei csv more",
            f"KEPT  {issuer} 1".encode(), b"SHOW \xff\xff", b"\tSTATUS", b"PUBLISH 1\r2",
        ]), None))

    def some_other_http(self):
        self.add(over_http(self.chance))

    def make(self, count):
        """The requests of a session: so many by chance, among which the scenes are, and some that ask for what it leaves."""
        steps = [(self.some_upload, 40), (self.some_accredit, 3), (self.some_publish, 2), (self.some_read, 30),
                 (self.some_wrong_words, 10), (self.some_damaged_line, 8), (self.some_other_http, 8)]
        scenes = self.chance.sample(SCENES, len(SCENES))
        self.add(copy("lei", "csv"), delta("last-day", "rr", "json"), kept_request(ISSUERS[0], 1))
        self.some_accredit()
        while len(self.requests) < count or scenes:
            if scenes and len(self.requests) * (len(SCENES) + 1) >= count * (len(SCENES) + 1 - len(scenes)):
                self.play(scenes.pop())
            self.chance.choices([step for step, _ in steps], [weight for _, weight in steps])[0]()
        self.publish()
        self.publish()
        self.add(delta("last-day", "lei", "csv"), delta(self.publications + 1, "lei", "csv"))
        issuer = self.accredited[0]
        for size in (LONGEST_LINE + 1, LONGEST_BODY + len(f"UPLOAD {issuer} {self.next[issuer]} ") + 1):
            self.add(Request("damaged line", f"UPLOAD {issuer} {self.next[issuer]} ".encode().ljust(size, b"x"), None))
        return [*self.requests, *self.closing()]

    def play(self, scene):
        """Adds a scene, which has to have all issuers accredited."""
        for issuer in ISSUERS:
            if issuer not in self.accredited:
                self.accredit(issuer)
        scene(self)

    def closing(self):
        """What a session leaves: all records, all copies and how much is kept."""
        asked = [show(code(number)) for number in sorted(self.items.numbers)]
        return [*asked, *(copy(table, form) for table in TABLES for form in FORMS), status()]
