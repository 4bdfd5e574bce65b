"""A program that is killed by `kill -9` keeps each entry that it acknowledged, and at most one more for each uploader.

`leireg lines --store` is killed at twenty places of 200 uploads, and `leireg serve --store` with four workers while four
issuers send theirs at once. The bodies are records and relationships as clients write them. The store opens again, returns
each answer as it was given, and takes the next upload."""
import contextlib
import http.client
import itertools
import json
import random
import signal
import threading
import time

from checks.common.inputs import (ISSUER, ISSUERS, accredit, answer_to_accredit, answer_to_upload, entry_of, record,
                                  relationship, upload, writings)
from checks.common.programs import Talk
from checks.common.servers import Server

UPLOADS = 200
PLACES, QUICK_PLACES = range(1, UPLOADS, UPLOADS // 20), [40]
# How many entries a server has acknowledged when it is killed.
SERVED, QUICK_SERVED = [50, 200, 800], [60]
LEAST = 50


def bodies_of(issuer, first, count, chance):
    """The bodies of an issuer's uploads, in the writings of clients by turns: each has a record, and from the second on
    a relationship of it to the first."""
    bodies = []
    for number, write in zip(range(first, first + count), itertools.cycle(writings(chance).values())):
        value = {"records": [record(number, {"Entity.LegalName": f"Société «{number}»"}, issuer)]}
        if number > first:
            value["relationships"] = [relationship(number, first, issuer=issuer)]
        bodies.append(write(value))
    return bodies


def answer(entry, issuer, number):
    """The answer to an upload of these bodies that is taken, or with 0 to an accreditation, by docs/FORMATS.md."""
    if number == 0:
        return answer_to_accredit(entry, issuer)
    return answer_to_upload(entry, number, ["ACCEPTED"] * (1 + (number > 1)), issuer)


class Kills:
    """What the kills of a command showed: the statuses, how many entries were acknowledged and found in the store, and
    which replies weren't as they should be."""

    def __init__(self, kind, uploaders):
        self.kind, self.uploaders = kind, uploaders
        self.statuses, self.counts = set(), []
        self.wrong, self.lost, self.odd = [], [], []

    def compare(self, kind, place, seen, wanted):
        """Adds the replies that differ to a list of these."""
        pairs = itertools.zip_longest(seen, wanted)
        getattr(self, kind).extend((place, *pair) for pair in pairs if pair[0] != pair[1])

    def report_all(self, report):
        """Reports all. Returns how many entries were acknowledged."""
        acknowledged = sum(count for count, _ in self.counts)
        more = sum(found - count for count, found in self.counts)
        report.note(f"{self.kind}: {len(self.counts)} kills, {acknowledged:,} entries acknowledged, {more} more in stores")
        report.equal(f"{self.kind}: each program is ended by the kill", self.statuses, {-signal.SIGKILL})
        report.equal(f"{self.kind}: each entry is answered as docs/FORMATS.md says", self.wrong[:3], [])
        report.equal(f"{self.kind}: each that was acknowledged is kept as it was answered", self.lost[:3], [])
        report.equal(f"{self.kind}: the store has at most one more for each uploader",
                     [each for each in self.counts if not 0 <= each[1] - each[0] <= self.uploaders], [])
        report.equal(f"{self.kind}: the next upload is taken", self.odd[:3], [])
        return acknowledged


# ---- lines


def send_uploads(talk, bodies):
    """Sends an accreditation and the uploads, as far as the program takes them."""
    for line in (accredit(), *(upload(number, body) for number, body in enumerate(bodies, 1))):
        if not talk.send(line):
            return


def kill_lines(program, store, bodies, place):
    """The status of a program that is killed after so many replies, while it goes on with the next lines, and all replies
    that it had written whole."""
    talk = Talk(program, "lines", "--store", store)
    sender = threading.Thread(target=send_uploads, args=(talk, bodies))
    sender.start()
    replies = [talk.process.stdout.readline() for _ in range(place)]
    time.sleep(0.0005 * (place % 7))
    talk.process.kill()
    sender.join()
    rest, status = talk.close()
    return status, [reply for reply in replies + rest.splitlines(keepends=True) if reply.endswith(b"\n")]


def check_lines(run, places):
    """Kills the program at these places. Returns how many entries it had acknowledged in all."""
    bodies = bodies_of(ISSUER, 1_001, UPLOADS + 1, random.Random(run.seed))
    right = [b"200 " + answer(number + 1, ISSUER, number) + b"\n" for number in range(UPLOADS + 2)]
    kills = Kills("lines", 1)
    for place in places:
        store = run.folder / f"lines-{place}.db"
        status, replies = kill_lines(run.program, store, bodies[:UPLOADS], place)
        count = len(replies)
        talk = Talk(run.program, "lines", "--store", store)
        found = talk.ask_reply(b"STATUS\n")
        kept = [talk.ask(accredit())] + [talk.ask(f"KEPT {ISSUER} {number}\n".encode()) for number in range(1, count)]
        following = talk.ask(upload(count, bodies[count - 1]))
        talk.close()
        kills.statuses.add(status)
        kills.counts.append((count, json.loads(found[1])["entries"] if found else -1))
        kills.compare("wrong", place, replies, right[:count])
        kills.compare("lost", place, kept, replies)
        kills.compare("odd", place, [following], [right[count]])
    return kills.report_all(run.report)


# ---- serve


def send_until_killed(server, issuer, bodies, responses):
    """Accredits an issuer and sends its uploads, and notes the responses in order, as far as they come."""
    with contextlib.closing(server.client()) as client, contextlib.suppress(OSError, http.client.HTTPException):
        for number, body in enumerate([None, *bodies]):
            responses.append(ask(client, "PUT", issuer, number, body))


def ask(client, method, issuer, number, body=None):
    """The response to a request for an upload of an issuer, or with 0 for its accreditation."""
    client.request(method, f"/v1/issuers/{issuer}" + f"/uploads/{number}" * (number > 0), body)
    response = client.getresponse()
    return response.status, response.read()


def kill_server(program, store, uploads, place):
    """The status of a server that is killed when so many entries were acknowledged, at least two for each issuer, and the
    responses to each issuer."""
    came = {issuer: [] for issuer in uploads}
    server = Server(program, "--store", store, workers=len(uploads))
    senders = [threading.Thread(target=send_until_killed, args=(server, issuer, bodies, came[issuer]))
               for issuer, bodies in uploads.items()]
    for sender in senders:
        sender.start()
    while any(sender.is_alive() for sender in senders):
        counts = [len(responses) for responses in came.values()]
        if sum(counts) >= place and min(counts) > 1:
            break
        time.sleep(0.001)
    server.end(signal.SIGKILL)
    for sender in senders:
        sender.join()
    return server.process.returncode, came


def right_responses(issuer, responses):
    """What these responses should be, to an accreditation and the uploads after it, by the numbers of their entries."""
    return [(200, answer(entry_of(text), issuer, number)) for number, (_, text) in enumerate(responses)]


def compare_issuer(kills, place, client, issuer, bodies, responses):
    """Compares what the store has of an issuer with the responses that it got."""
    count = len(responses)
    kept = [ask(client, "PUT", issuer, 0)] + [ask(client, "GET", issuer, number) for number in range(1, count)]
    more = [ask(client, "GET", issuer, number) for number in range(count, count + 3)]
    following = [ask(client, "PUT", issuer, count, bodies[count - 1])]
    kills.compare("wrong", place, responses, right_responses(issuer, responses))
    kills.compare("lost", place, kept, responses)
    kills.compare("odd", place, more[1:], [(404, b"NOT_KEPT")] * 2)
    kills.compare("odd", place, [*responses, *following][-1:], right_responses(issuer, [*responses, *following])[-1:])
    if more[0] != (404, b"NOT_KEPT"):
        kills.compare("odd", place, more[:1], following)


def check_served(run, places):
    """Kills the server at these places. Returns how many entries it had acknowledged in all."""
    chance = random.Random(run.seed)
    firsts = {issuer: 100_001 * place for place, issuer in enumerate(ISSUERS, 1)}
    uploads = {issuer: bodies_of(issuer, first, max(places) + 4, chance) for issuer, first in firsts.items()}
    kills = Kills("serve", len(ISSUERS))
    for place in places:
        store = run.folder / f"served-{place}.db"
        status, came = kill_server(run.program, store, uploads, place)
        kills.statuses.add(status)
        texts = [text for responses in came.values() for _, text in responses]
        with Server(run.program, "--store", store) as server, contextlib.closing(server.client()) as client:
            client.request("GET", "/v1/status")
            kills.counts.append((len(set(texts)), json.loads(client.getresponse().read())["entries"]))
            for issuer, responses in came.items():
                compare_issuer(kills, place, client, issuer, uploads[issuer], responses)
    return kills.report_all(run.report)


def check(run):
    acknowledged = check_lines(run, QUICK_PLACES if run.is_quick else PLACES)
    acknowledged += check_served(run, QUICK_SERVED if run.is_quick else SERVED)
    run.report.holds(f"at least {LEAST} entries were acknowledged", acknowledged >= LEAST, acknowledged)
