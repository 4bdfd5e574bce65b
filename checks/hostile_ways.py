"""The ways in which a session of hostile requests goes to the program, and what comes back in each."""
from __future__ import annotations

import collections
import fcntl
import random
import re
import socket
import struct
import subprocess
import termios
import threading
import time

from checks.common.inputs import ISSUERS
from checks.common.programs import lines, take_reply
from checks.common.servers import Server, read_all, send_all, take_response
from checks.model.register import Register

CLIENTS, WORKERS = 8, 4
MOMENT = re.compile(rb'"contentDate":"([^"]{20})"')


def without_moment(text):
    """A text without the moment of a publication."""
    return MOMENT.sub(b'"contentDate":""', text)


def is_alike(first, second):
    return first[0] == second[0] and without_moment(first[1]) == without_moment(second[1])


def answer_of_model(register, request, moment):
    """What the model answers to a request, which over HTTP alone may be another `STATUS`."""
    if request.line is None:
        return request.wanted or register.answer(b"STATUS", moment)
    return register.answer(request.line, moment)


def pieces(data, cuts):
    """The data, cut at random places: mostly between a few bytes and some kilobytes, some single bytes among them."""
    at = 0
    while at < len(data):
        size = cuts.choice([1, 2, 7, 300, 3_000, 30_000, 100_000])
        size = cuts.randrange(1, size + 1)
        yield data[at:at + size]
        at += size


# ---- lines


def with_replies(requests):
    """Those of the requests that are lines and have a reply."""
    return [request for request in requests if request.line]


def replies_among(data, requests, take):
    """The reply to each of these requests among the bytes that came, as far as they go, and what is after the last one."""
    replies, at = [], 0
    for request in requests:
        try:
            reply, at = take(data, at, request)
        except (ValueError, AttributeError):
            break
        replies.append(reply)
    return replies + ([(0, bytes(data[at:at + 200]))] if at < len(data) else [])


def feed(process, data, cuts):
    """Writes the data in pieces, each when the program has taken the one before it."""
    with process.stdin as pipe:
        for piece in pieces(data, cuts):
            pipe.write(piece)
            pipe.flush()
            while struct.unpack("i", fcntl.ioctl(pipe.fileno(), termios.FIONREAD, b"\0" * 4))[0] and process.poll() is None:
                time.sleep(0)


def by_lines(program, folder, requests, cuts=None, store=None):
    """The replies to the requests that are lines, of which the last lacks its end, in one piece or cut. A status other than
    0 is one more reply."""
    words = ["--store", store] if store else []
    data = b"\n".join(request.line for request in requests if request.line is not None)
    if cuts is None:
        done = lines(program, data, *words)
        output, status = done.stdout, done.returncode
    else:
        with open(folder / "replies.txt", "w+b") as out:
            process = subprocess.Popen([program, "lines", *words], stdin=subprocess.PIPE, stdout=out)
            feed(process, data, cuts)
            status = process.wait()
            out.seek(0)
            output = out.read()
    replies = replies_among(output, with_replies(requests), lambda data, at, request: take_reply(data, at, request.has_file))
    return replies + ([(status, b"is the status of the program")] if status else [])


# ---- HTTP


def connections_of(requests):
    """The requests over HTTP by connection: each ends with one that closes."""
    connections = [[]]
    for request in requests:
        if request.http is not None:
            connections[-1].append(request)
            if request.closes:
                connections.append([])
    return [connection for connection in connections if connection]


def send_pieces(peer, data, cuts):
    for piece in pieces(data, cuts):
        send_all(peer, piece)
    send_all(peer, b"", ends=True)


def send_cut(server, data, cuts):
    """What comes back for bytes that are sent in pieces."""
    with server.connect() as peer:
        peer.setsockopt(socket.IPPROTO_TCP, socket.TCP_NODELAY, 1)
        sender = threading.Thread(target=send_pieces, args=(peer, data, cuts))
        sender.start()
        came = read_all(peer)
        sender.join()
    return came


def by_http(server, requests, cuts=None):
    """The responses to the requests over HTTP, which are sent without waiting, one connection after the other."""
    replies = []
    for connection in connections_of(requests):
        data = b"".join(request.http for request in connection)
        came = send_cut(server, data, cuts) if cuts else server.send(data, ends=True)
        replies += replies_among(came, connection, lambda data, at, _: take_response(data, at))
    return replies


def by_one_worker(program, requests, cuts=None):
    with Server(program) as server:
        return by_http(server, requests, cuts)


# ---- several callers


def shares_of(requests, chance):
    """The requests of each of the clients. One has those of an issuer, or the publications, in order, and one in six of
    these goes to another one as well; all else goes to any."""
    shares = [[] for _ in range(CLIENTS)]
    for request in requests:
        if request.http is None:
            continue
        other = chance.randrange(CLIENTS)
        if request.issuer or request.kind == "PUBLISH":
            shares[ISSUERS.index(request.issuer) if request.issuer else len(ISSUERS)].append(request)
            if chance.random() < 1 / 6:
                shares[other].append(request)
        else:
            shares[other].append(request)
    return shares


def by_four_workers(program, requests, closing, chance):
    """What each client sent and was answered, and what the server has afterwards."""
    shares, replies = shares_of(requests, chance), [[] for _ in range(CLIENTS)]
    seeds = [chance.randrange(1 << 30) for _ in range(CLIENTS)]
    with Server(program, workers=WORKERS) as server:
        def client(at):
            replies[at] = by_http(server, shares[at], random.Random(seeds[at]))
        threads = [threading.Thread(target=client, args=(at,)) for at in range(CLIENTS)]
        for thread in threads:
            thread.start()
        for thread in threads:
            thread.join()
        left = by_http(server, closing)
    return shares, replies, left


def entry_in(request, reply):
    """The number of the entry that a reply names, if the request may add one, or 0."""
    found = re.search(rb'"entry":(\d+)', reply[1]) if request.kind in ("ACCREDIT", "UPLOAD", "PUBLISH") else None
    return int(found.group(1)) if found and reply[0] in (200, 201) else 0


class Order:
    """Puts what several clients asked into one order, in which the model gives the same replies."""

    def __init__(self, shares, moment):
        self.register = Register()
        self.shares = [collections.deque(share) for share in shares]
        self.moment = moment
        self.entries = 0
        self.numbers = collections.Counter()

    def is_answered(self, request, reply):
        """Whether the model answers a request now as the program did."""
        return is_alike(answer_of_model(self.register, request, self.moment), reply)

    def may_be_asked(self, request, reply):
        """Whether the request, asked now, adds no entry unless its reply names the next one."""
        if entry := entry_in(request, reply):
            return entry <= self.entries
        if reply == (409, b"NUMBER_TAKEN"):
            return request.number <= self.numbers[request.issuer]
        return True

    def ask_reads(self):
        """Asks what adds nothing, as long as a client's first request is answered now as it was."""
        for share in self.shares:
            while share and self.may_be_asked(*share[0]) and self.is_answered(*share[0]):
                share.popleft()

    def ask_next(self):
        """Asks one request that adds the next entry. Says whether there is one and it is answered as it was."""
        for share in self.shares:
            if share and entry_in(*share[0]) == self.entries + 1:
                request, reply = share.popleft()
                self.entries += 1
                if request.kind == "UPLOAD":
                    self.numbers[request.issuer] = request.number
                return self.is_answered(request, reply)
        return False

    def missing(self):
        """Why there is no order in which the model gives the same replies, or nothing."""
        self.ask_reads()
        while any(self.shares):
            if not self.ask_next():
                first = [(share[0][0].kind, share[0][1][0], share[0][1][1][:100]) for share in self.shares if share]
                return f"no order after {self.entries} entries, where these are the next replies: {first}"
            self.ask_reads()
        return None
