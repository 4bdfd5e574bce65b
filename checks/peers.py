"""Peers that are slow, silent or gone change nothing and hold up no other worker, and good peers beside them are answered
as if they were alone.

A peer is given up after 5 seconds of silence, or when its request isn't whole after 30 seconds; one that is slower than
others but within these deadlines is served. A request that was cut changes nothing, and an upload that was acknowledged
stays. Responses come in the order of the requests, however these are sent and their bytes are taken."""
import concurrent.futures
import contextlib
import itertools
import json
import random
import socket
import struct
import threading
import time

from checks.common.inputs import (RECORD_NAMES, answer_to_accredit, answer_to_status, answer_to_upload, code, compact,
                                  csv_line, csv_row, entry_of, http_request, http_upload, record, writings)
from checks.common.servers import Server, read_all, responses, take_response

# The deadlines of docs/FORMATS.md in seconds, and how much later than that the end of a connection may be seen here.
SILENCE, REQUEST, LATE = 5, 30, 5
# A time of silence that a peer may take.
PAUSE = 2
# How long a peer takes nothing. The system takes bytes in its place at first, also after a write that waited.
TAKES_NOTHING = 6 * SILENCE
# How many requests are sent beside silent peers.
COUNT, QUICK_COUNT = 2_000, 200
# How many records are published.
RECORDS, QUICK_RECORDS = 400, 50
# How far apart the numbers of the records of two issuers are: each sends at most so many uploads.
APART = 1_000_000


class Issuer:
    """An issuer and its uploads, each of one record: their bodies, which clients write in different ways, and what they
    are answered."""

    def __init__(self, number, chance):
        self.number, self.code = number, code(number)
        self.writes = itertools.cycle(writings(chance).values())
        self.bodies = []

    def record(self, number):
        return record(self.number * APART + number, {"Entity.LegalName": f"Société «{number}», S.A."}, self.code)

    def body(self, number):
        while len(self.bodies) < number:
            self.bodies.append(next(self.writes)({"records": [self.record(len(self.bodies) + 1)]}))
        return self.bodies[number - 1]

    def path(self, number):
        return f"/v1/issuers/{self.code}/uploads/{number}"

    def upload(self, number):
        return http_upload(number, self.body(number), self.code)

    def taken(self, number, text):
        """The response to an upload that is taken, with the number of the entry in this text."""
        return 200, answer_to_upload(entry_of(text), number, ["ACCEPTED"], self.code)


class World:
    """A server, the bodies of all uploads that it has taken, and issuers that are known to it."""

    def __init__(self, run, server, issuers):
        self.server, self.issuers, self.bodies = server, issuers, []
        self.count = QUICK_RECORDS if run.is_quick else RECORDS
        self.copied = [issuers[0].record(number) for number in range(1, self.count + 1)]

    def ask(self, method, path, body=None):
        status, text = self.server.ask(method, path, body)
        return status, text.encode()

    def fill(self):
        """Accredits the issuers, and publishes an upload of the first. Returns the responses, and what they should be."""
        body = compact({"records": self.copied})
        seen = [self.ask("PUT", f"/v1/issuers/{issuer.code}") for issuer in self.issuers]
        wanted = [(200, answer_to_accredit(entry, issuer.code)) for entry, issuer in enumerate(self.issuers, 1)]
        seen.append(self.ask("PUT", self.issuers[0].path(1), body))
        wanted.append((200, answer_to_upload(len(wanted) + 1, 1, ["ACCEPTED"] * self.count, self.issuers[0].code)))
        self.published = self.ask("PUT", "/v1/publications/1")
        self.bodies.append(body)
        fields = json.loads(self.published[1]) if self.published[0] == 201 else {}
        seen.append({name: fields.get(name) for name in ("entry", "lei", "publication", "repex", "rr")})
        wanted.append({"entry": len(wanted) + 1, "lei": self.count, "publication": 1, "repex": 0, "rr": 0})
        return seen, wanted

    def copy(self):
        """The golden copy of the publication, by docs/FORMATS.md."""
        rows = sorted(self.copied, key=lambda row: row["LEI"])
        return (csv_line(RECORD_NAMES) + "".join(csv_row(RECORD_NAMES, row) for row in rows)).encode()

    def requests(self):
        """Requests whose responses don't depend on what others send, and these responses."""
        first = self.issuers[0]
        return [
            (http_request("GET", f"/v1/records/{code(first.number * APART + 1)}"), (200, compact(self.copied[0]))),
            (http_request("PUT", f"/v1/issuers/{first.code}", b""), (200, answer_to_accredit(1, first.code))),
            (http_request("GET", first.path(1)),
             (200, answer_to_upload(len(self.issuers) + 1, 1, ["ACCEPTED"] * self.count, first.code))),
            (first.upload(1), (409, b"NUMBER_TAKEN")),
            (first.upload(3), (409, b"NUMBER_AHEAD 2")),
            (http_request("GET", "/v1/nothing", b"body"), (404, b"NO_ROUTE")),
            (http_request("DELETE", "/v1/status"), (405, b"METHOD")),
            (http_request("GET", "/v1/records/5"), (400, b"PATH")),
            (http_request("GET", "/v1/copies/lei/csv"), (200, self.copy())),
            (http_request("PUT", "/v1/publications/1"), self.published),
        ]

    def status(self):
        """The response to a request for the status, by what was taken."""
        kept = sum(map(len, self.bodies))
        records = sum(len(json.loads(body)["records"]) for body in self.bodies)
        entries = len(self.issuers) + len(self.bodies) + 1
        return 200, answer_to_status(entries=entries, issuers=len(self.issuers), keptBytes=kept, publications=1,
                                     records=records)


# ---- peers that are as they should be


class GoodPeer:
    """A peer that keeps its connection and sends uploads of an issuer, and asks for each and for its record. It counts
    its requests, notes each response that isn't right, and how long the slowest took."""

    def __init__(self, world, issuer):
        self.world, self.issuer = world, issuer
        self.client = world.server.client()
        self.count, self.slowest, self.wrong = 0, 0.0, []

    def ask(self, method, path, body, wanted):
        """Compares a response with what it should be, by its text. Returns the text."""
        begun = time.perf_counter()
        self.client.request(method, path, body)
        response = self.client.getresponse()
        seen = response.status, response.read()
        self.slowest = max(self.slowest, time.perf_counter() - begun)
        self.count += 1
        if seen != wanted(seen[1]):
            self.wrong.append((seen, wanted(seen[1])))
        return seen[1]

    def go(self, goes_on):
        """Goes on for so long, and closes the connection."""
        with contextlib.closing(self.client):
            for number in itertools.takewhile(goes_on, itertools.count(1)):
                path, body, held = self.issuer.path(number), self.issuer.body(number), self.issuer.record(number)
                answer = self.ask("PUT", path, body, lambda text, number=number: self.issuer.taken(number, text))
                self.world.bodies.append(body)
                self.ask("GET", path, None, lambda _, answer=answer: (200, answer))
                self.ask("GET", f"/v1/records/{held['LEI']}", None, lambda _, held=held: (200, compact(held)))
                self.ask("GET", self.issuer.path(number + 1), None, lambda _: (404, b"NOT_KEPT"))
        return self


# ---- peers that aren't


def seen_after(begun, deadline, came):
    """What came, and how the time since a moment is to a deadline."""
    passed = time.monotonic() - begun
    return came, "in time" if deadline - 0.1 <= passed <= deadline + LATE else f"after {passed:.1f} seconds"


def be_silent(world, sent):
    """Sends some bytes and then nothing."""
    with world.server.connect() as peer:
        peer.sendall(sent)
        begun = time.monotonic()
        return seen_after(begun, SILENCE, responses(read_all(peer)))


def drip(world, sent, pause):
    """Sends single bytes, each after a pause, until something comes or the server ends the connection."""
    came, begun = b"", time.monotonic()
    with world.server.connect() as peer, contextlib.suppress(ConnectionError):
        peer.settimeout(pause)
        for byte in sent:
            peer.sendall(bytes([byte]))
            with contextlib.suppress(socket.timeout):
                came = peer.recv(1 << 16)
                break
    return seen_after(begun, REQUEST, came)


def send_in_parts(world, parts, pause):
    """The responses to requests that come in parts, with a pause between them."""
    with world.server.connect() as peer:
        peer.setsockopt(socket.IPPROTO_TCP, socket.TCP_NODELAY, 1)
        for part in parts[:-1]:
            peer.sendall(part)
            time.sleep(pause)
        peer.sendall(parts[-1])
        peer.shutdown(socket.SHUT_WR)
        return responses(read_all(peer))


def answers_to(world, data):
    """The responses to requests that come in one piece, of which one asks to close."""
    return responses(world.server.send(data))


def upload_in_parts(world, issuer, parts, pause):
    """Whether an upload that comes in parts is taken."""
    response, = send_in_parts(world, parts, pause)
    world.bodies.append(issuer.body(1))
    return response == issuer.taken(1, response[1])


def halves(data):
    return [data[:len(data) // 2], data[len(data) // 2:]]


def reset(peer):
    """Ends a connection at once, so that the other side is reset."""
    peer.setsockopt(socket.SOL_SOCKET, socket.SO_LINGER, struct.pack("ii", 1, 0))
    peer.close()


def reset_in_requests(world, issuer, chance, count):
    """Connections that are reset within an upload: what is kept of it, and the response if it is sent whole after that."""
    sent = issuer.upload(1)
    for _ in range(count):
        peer = world.server.connect()
        peer.sendall(sent[:chance.randrange(1, len(sent))])
        time.sleep(0.01 * chance.randrange(2))
        reset(peer)
    kept = world.ask("GET", issuer.path(1))
    whole = world.ask("PUT", issuer.path(1), issuer.body(1))
    world.bodies.append(issuer.body(1))
    return kept, whole == issuer.taken(1, whole[1])


def reset_in_responses(world, issuer, chance, count):
    """Connections that are reset within the response to an upload, also before it comes. Returns which responses to
    later requests aren't right."""
    wrong = []
    for number in range(1, count + 1):
        peer, size = world.server.connect(), chance.choice([0, 1, 12, 60, 1 << 16])
        peer.sendall(issuer.upload(number))
        came = peer.recv(size) if size else b""
        reset(peer)
        kept = world.ask("GET", issuer.path(number))
        again = world.ask("PUT", issuer.path(number), issuer.body(number))
        world.bodies.append(issuer.body(number))
        if again != issuer.taken(number, again[1]) or kept not in ([again] if came else [again, (404, b"NOT_KEPT")]):
            wrong.append((number, came, kept, again))
        if size == 1 << 16 and take_response(came)[0] != again:
            wrong.append((number, came, again))
    return wrong


def slow_peer(world):
    """A connection whose side here takes few bytes at a time."""
    peer = socket.socket()
    peer.setsockopt(socket.SOL_SOCKET, socket.SO_RCVBUF, 4_096)
    peer.settimeout(20)
    peer.connect(("127.0.0.1", world.server.port))
    return peer


def read_slowly(world, count):
    """Takes the responses to requests for a copy in small pieces, with a pause in the middle. Says which are right."""
    with slow_peer(world) as peer:
        peer.sendall(http_request("GET", "/v1/copies/lei/csv") * count)
        peer.shutdown(socket.SHUT_WR)
        came, has_paused = b"", False
        while part := peer.recv(8_192):
            came += part
            time.sleep(0.002 if has_paused or len(came) < 100_000 else PAUSE)
            has_paused = len(came) >= 100_000
    return [response == (200, world.copy()) for response in responses(came)]


def read_too_late(world, count):
    """Takes nothing of the responses to many requests for a copy until the server has given up. Says whether those that
    came whole are right, and whether all came."""
    with slow_peer(world) as peer:
        peer.sendall(http_request("GET", "/v1/copies/lei/csv") * count)
        time.sleep(TAKES_NOTHING)
        came, at, seen = read_all(peer), 0, []
        with contextlib.suppress(ValueError, AttributeError):
            while at < len(came):
                response, at = take_response(came, at)
                seen.append(response == (200, world.copy()))
    return set(seen) <= {True}, len(seen) < count


# ---- the check


def stay_silent(world, is_done, ends):
    """Has a silent peer until the check is done, and a new one when it is given up. Notes how the others ended."""
    with contextlib.suppress(OSError):
        while not is_done.is_set():
            end = be_silent(world, b"")
            if not is_done.is_set():
                ends.append(end)


def check_beside_silent(run):
    """Four of five workers have a silent peer, and the requests of a good one come to the fifth."""
    count, is_done, ends = QUICK_COUNT if run.is_quick else COUNT, threading.Event(), []
    chance = random.Random(run.seed)
    with Server(run.program, workers=5) as server:
        world = World(run, server, [Issuer(1, chance), Issuer(2, chance)])
        run.report.equal("two issuers are accredited, and a publication is made", *world.fill())
        good = GoodPeer(world, world.issuers[1])
        silent = [threading.Thread(target=stay_silent, args=(world, is_done, ends)) for _ in range(4)]
        for each in silent:
            each.start()
        good.go(lambda number: 4 * number <= count or not (ends or run.is_quick))
        is_done.set()
    for each in silent:
        each.join()
    report_good(run.report, "beside four silent peers", [good], count)
    if not run.is_quick:
        run.report.equal("each silent peer is given up in time", ends, [([], "in time")] * max(1, len(ends)))


def report_good(report, where, peers, least):
    """Reports what good peers found."""
    count, slowest = sum(peer.count for peer in peers), max(peer.slowest for peer in peers)
    report.note(f"{where}: {count:,} requests, of which the slowest took {1_000 * slowest:.0f} ms")
    report.holds(f"{where} at least {least:,} requests are sent", count >= least, count)
    report.equal(f"{where} each response is right", [wrong for peer in peers for wrong in peer.wrong][:3], [])
    report.holds(f"{where} none waits until a silent peer is given up", slowest < SILENCE - 1, slowest)


def wait_for_silent(program):
    """The response to a peer of the only worker, which has a silent one."""
    with Server(program) as server, server.connect():
        begun = time.monotonic()
        # Meanwhile the worker takes the silent one.
        time.sleep(0.2)
        return seen_after(begun, SILENCE, server.ask("GET", "/v1/status"))


def trials(world, run):
    """What bad peers do, by name: what is called with which arguments, and what it should return."""
    silent, dripping, paused, cut, gone = world.issuers[3:8]
    chance, count = random.Random(run.seed), 5 if run.is_quick else 40
    sent, wanted = map(list, zip(*world.requests()))
    last = http_request("GET", "/v1/records/5", headers="Connection: close\r\n"), (400, b"PATH")
    upload, half = paused.upload(1), sent[0][:20]
    yield "a peer that is silent from the start", be_silent, (world, b""), ([], "in time")
    yield "a peer that is silent in a head", be_silent, (world, half), ([], "in time")
    yield "a peer that is silent in a body", be_silent, (world, silent.upload(1)[:-10]), ([], "in time")
    yield "a peer that is silent after a request", be_silent, (world, sent[0]), (wanted[:1], "in time")
    yield "a peer that pauses in a head", send_in_parts, (world, halves(sent[0]), PAUSE), wanted[:1]
    yield "a peer that pauses in a body", upload_in_parts, (world, paused, [upload[:-50], upload[-50:]], PAUSE), True
    yield "requests in one piece", answers_to, (world, b"".join(sent) + last[0] + sent[0]), [*wanted, last[1]]
    yield "requests in single bytes", send_in_parts, (world, list(map(bytes, zip(b"".join(sent)))), 0), wanted
    yield "a peer that closes its side in a head", send_in_parts, (world, [b"".join(sent) + half], 0), wanted
    yield "a peer that closes its side in a body", send_in_parts, (world, [sent[0] + silent.upload(1)[:-1]], 0), wanted[:1]
    yield "peers that reset in a request", reset_in_requests, (world, cut, chance, count), ((404, b"NOT_KEPT"), True)
    yield "peers that reset in a response", reset_in_responses, (world, gone, chance, count), []
    yield "a peer that reads slowly", read_slowly, (world, 4), [True] * 4
    empty = answer_to_status().decode()
    yield "a peer that waits for the only worker", wait_for_silent, (run.program,), ((200, empty), "in time")
    if not run.is_quick:
        yield "a peer that drips", drip, (world, dripping.upload(1), 0.5), (b"", "in time")
        yield "a peer that takes nothing", read_too_late, (world, 120), (True, True)


def check_bad(run):
    """All kinds of bad peers at once, with two good ones beside them."""
    chance = random.Random(run.seed)
    with Server(run.program, workers=24) as server, concurrent.futures.ThreadPoolExecutor(24) as pool:
        world = World(run, server, [Issuer(number, chance) for number in range(1, 9)])
        run.report.equal("eight issuers are accredited, and a publication is made", *world.fill())
        is_done = threading.Event()
        good = [pool.submit(GoodPeer(world, issuer).go, lambda _: not is_done.is_set()) for issuer in world.issuers[1:3]]
        begun = [(what, pool.submit(called, *words), wanted) for what, called, words, wanted in trials(world, run)]
        concurrent.futures.wait([future for _, future, _ in begun])
        is_done.set()
        for what, future, wanted in begun:
            run.report.equal(what, future.exception() or future.result(), wanted)
        report_good(run.report, "beside bad peers", [future.result() for future in good], 8)
        kept = [world.ask("GET", issuer.path(1)) for issuer in world.issuers[3:5]]
        run.report.equal("nothing is kept of uploads that weren't whole", kept, [(404, b"NOT_KEPT")] * 2)
        run.report.equal("and the register has what was acknowledged", world.ask("GET", "/v1/status"), world.status())


def check(run):
    check_beside_silent(run)
    check_bad(run)
