"""Hostile requests, made by chance, are answered as a model of the register answers them, whichever way they come.

Each session goes to `leireg lines` in one piece and cut at random, to it over a store that is closed in the middle, to
`leireg serve` with one worker, in one piece and cut at random, and to `leireg serve` with four workers over eight
connections at once. For the last there has to be an order, by the numbers of the entries, in which the model gives the same
replies. Each copy, patched by the delta from it by `leireg apply`, is the later copy.

The model takes the moment of a publication from its reply in lines. The other runs have moments of their own, which are left
out of the comparison."""
import collections
import random
import re
import subprocess
import time

from checks.common.sessions import seconds
from checks.hostile_requests import Maker
from checks.hostile_ways import (MOMENT, Order, answer_of_model, by_four_workers, by_lines, by_one_worker, is_alike,
                                 with_replies)
from checks.model.register import Register

SESSIONS, REQUESTS, QUICK_REQUESTS = 50, 2_000, 300

# What the sessions have to reach: all checks but C20 REGISTER_FULL, and these replies.
VERDICTS = {"ACCEPTED", *(f"C{number:02}" for number in (*range(1, 20), 21, 22, *range(30, 41), *range(50, 54)))}
REPLIES = {"200", "201", "400 MALFORMED", "400 PATH", "404 ISSUER_UNKNOWN", "404 LEI_UNKNOWN", "404 NOTHING_PUBLISHED",
           "404 NOT_KEPT", "404 NO_BASE", "404 NO_ROUTE", "404 PUBLICATION_UNKNOWN", "409 NUMBER_AHEAD", "409 NUMBER_TAKEN",
           "413 TOO_LONG"}


def difference(seen, wanted, is_same=is_alike):
    """The first place at which the replies of the program and of the model differ, or nothing."""
    for at, (first, second) in enumerate(zip(seen, wanted)):
        if not is_same(first, second):
            begin = max(0, next((at for at, pair in enumerate(zip(first[1], second[1])) if pair[0] != pair[1]), 0) - 80)
            texts = [f"{status} {text[begin:begin + 200]!r}" for status, text in (first, second)]
            return f"reply {at}, from byte {begin}: {texts[0]}, and of the model {texts[1]}"
    return None if len(seen) == len(wanted) else f"{len(seen)} replies, and of the model {len(wanted)}"


def publication_moment(request, reply):
    """The moment in seconds that the reply to a `PUBLISH` names, or None."""
    found = MOMENT.search(reply[1]) if request.kind == "PUBLISH" and reply[0] == 201 else None
    return found and seconds(found.group(1).decode())


def model_replies(requests, replies, start):
    """What the model answers to each of the requests, at the moments that the replies in lines name. That of an empty line
    isn't a reply."""
    register, seen = Register(), iter(replies)
    answers = []
    for request in requests:
        moment = publication_moment(request, next(seen, (0, b""))) if request.line else None
        answers.append(answer_of_model(register, request, moment or start))
    return answers


def moments_outside(requests, replies, start):
    """The moments of publications that aren't in order, or not in the time of the run, which ends now."""
    found = [(request.number, publication_moment(request, reply)) for request, reply in zip(with_replies(requests), replies)]
    moments = {number: moment for number, moment in found if moment}
    named = [start, *(moments[number] for number in sorted(moments)), int(time.time())]
    return None if named == sorted(named) else named


def copy_after(program, folder, sheet, first, change):
    """The copy that `apply` makes of a copy and a delta."""
    (folder / "copy").write_bytes(first)
    (folder / "delta").write_bytes(change)
    done = subprocess.run([program, "apply", *sheet, folder / "copy", folder / "delta"], capture_output=True)
    return done.stdout if done.returncode == 0 else f"status {done.returncode}".encode()


def copies_lead_on(program, folder, requests, replies, counts):
    """The first copy that isn't what a delta to it makes of the earlier one, or nothing."""
    latest, copies = 0, {}
    for request, (status, text) in zip(with_replies(requests), replies):
        words = request.line.decode(errors="replace").split(" ")
        if request.kind == "PUBLISH" and status == 201:
            latest = max(latest, request.number)
        elif request.kind == "COPY" and status == 200:
            copies[(*words[1:], latest)] = text
        elif request.kind == "DELTA" and status == 200 and words[1].isdigit():
            first, second = ((words[2], words[3], number) for number in (int(words[1]), latest))
            if first in copies and second in copies:
                counts["copies patched"] += 1
                if copy_after(program, folder, words[2:], copies[first], text) != copies[second]:
                    return f"{words[2:]} from {words[1]} to {latest}"
    return None


def through_four_workers(program, requests, closing, chance, start):
    """Why four workers answered as the model in no order, and how what they leave differs from what the model has then."""
    shares, replies, left = by_four_workers(program, requests, closing, chance)
    for share, came in zip(shares, replies):
        if len(share) != len(came):
            return f"a client sent {len(share)} requests, and got {len(came)} replies", None
    order = Order([zip(share, came) for share, came in zip(shares, replies)], start)
    missing = order.missing()
    return missing, missing or difference(left, [answer_of_model(order.register, request, start) for request in closing])


def session(run, seed, count, counts):
    """The differences that a session shows, by comparison."""
    chance, program, folder, start = random.Random(seed), run.program, run.folder, int(time.time())
    maker = Maker(chance)
    requests, closing = maker.make(count), maker.closing()
    seen = by_lines(program, folder, requests)
    outside = moments_outside(requests, seen, start)
    begun = time.monotonic()
    answers = model_replies(requests, seen, start)
    counts["seconds of the model"] += time.monotonic() - begun
    in_lines = [answer for request, answer in zip(requests, answers) if request.line]
    over_http = [answer for request, answer in zip(requests, answers) if request.http is not None]
    count_what_came(requests, in_lines, counts)
    middle, store = len(requests) // 2, folder / f"{seed}.db"
    halves = [by_lines(program, folder, half, chance, store) for half in (requests[:middle], requests[middle:])]
    again = by_lines(program, folder, closing, None, store)
    order, left = through_four_workers(program, requests, closing, chance, start)
    store.unlink()
    return {
        "lines": difference(seen, in_lines, lambda first, second: first == second),
        "moments of publications": outside,
        "lines, cut at random": difference(by_lines(program, folder, requests, chance), in_lines),
        "lines over a store that is closed in the middle": difference(sum(halves, []), in_lines),
        "the store, opened once more": difference(again, in_lines[-len(closing):]),
        "HTTP by one worker": difference(by_one_worker(program, requests), over_http),
        "HTTP by one worker, cut at random": difference(by_one_worker(program, requests, chance), over_http),
        "HTTP by four workers, in some order": order,
        "what four workers leave": left,
        "copies with their deltas": copies_lead_on(program, folder, requests, seen, counts),
    }


def count_what_came(requests, replies, counts):
    """Counts the requests, and the replies and the verdicts of the model."""
    counts["requests"] += len(requests)
    for request, (status, text) in zip(with_replies(requests), replies):
        counts["reply", f"{status} {text.decode().split(' ')[0] if status >= 400 else ''}".strip()] += 1
        for verdict in re.findall(rb'"(ACCEPTED|C\d\d)', text) if request.kind == "UPLOAD" and status == 200 else ():
            counts["verdict", verdict.decode()] += 1


def check(run):
    sessions, count = (1, QUICK_REQUESTS) if run.is_quick else (SESSIONS, REQUESTS)
    counts, seen = collections.Counter(), collections.defaultdict(list)
    for seed in range(run.seed, run.seed + sessions):
        for what, found in session(run, seed, count, counts).items():
            seen[what] += [f"seed {seed}: {found}"] if found else []
    for what, found in seen.items():
        run.report.equal(what, found[:3], [])
    came = {kind: {key[1]: number for key, number in counts.items() if key[0] == kind} for kind in ("reply", "verdict")}
    run.report.equal("the sessions reach all replies", sorted(REPLIES - came["reply"].keys()), [])
    run.report.equal("and all checks of items", sorted(VERDICTS - came["verdict"].keys()), [])
    run.report.holds("copies are patched", counts["copies patched"] > 0)
    run.report.note(f"{sessions} sessions of {counts['requests']:,} requests in all; {counts['copies patched']:,} copies "
                    f"patched; the model took {counts['seconds of the model']:.0f} s for the lines")
    for kind, counted in came.items():
        run.report.note(f"{kind}: " + ", ".join(f"{key} {number:,} times" for key, number in sorted(counted.items())))
