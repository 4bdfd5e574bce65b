"""The model of the register gives the replies of the worked examples, byte for byte.

They were written by hand. Those are compared that have only runs of `lines` without a store, and that checks.common.sessions
can read. The program isn't run."""
from checks.common.sessions import DATA, runs_of, titles_of
from checks.model.register import Register, lines_of

FEWEST = 100

# Replies to lines that aren't put to the register, so that the clock isn't read.
NOT_PUT = {(404, b"NO_ROUTE"), (400, b"PATH"), (413, b"TOO_LONG")}


def readable(file, title):
    """The runs of a session, or none if the reader of sessions can't read it."""
    try:
        return runs_of(file, title)
    except ValueError:
        return []


def in_lines(reply, has_file):
    """A reply as it is in the output of `lines`."""
    status, text = reply
    size = b"%d\n" % len(text) if has_file and status == 200 else b""
    return b"%d " % status + size + text + b"\n"


def replies_of(run):
    """What the model answers to what a run sends."""
    register, place, out = Register(), 0, bytearray()
    for line in lines_of(bytes(run.sent)):
        reply = register.answer(line, run.moment(place))
        place += reply not in NOT_PUT
        out += in_lines(reply, line.startswith((b"COPY ", b"DELTA ")))
    return bytes(out)


def difference(seen, wanted):
    """The first place at which two outputs differ, with what is there in both, or nothing."""
    if seen == wanted:
        return None
    at = next((at for at, pair in enumerate(zip(seen, wanted)) if pair[0] != pair[1]), min(len(seen), len(wanted)))
    begin = max(at - 60, 0)
    return f"at byte {at}: {seen[begin:at + 100]!r}, not {bytes(wanted[begin:at + 100])!r}"


def check(run):
    compared = []
    for file in sorted(path.name for path in DATA.glob("*.md")):
        sessions = {title: readable(file, title) for title in titles_of(file)}
        chosen = {title: runs for title, runs in sessions.items() if runs and all(each.words == ["lines"] for each in runs)}
        found = {title: [difference(replies_of(each), each.expected) for each in runs] for title, runs in chosen.items()}
        differences = {title: [each for each in found[title] if each] for title in found if any(found[title])}
        if chosen:
            run.report.equal(f"the model answers {len(chosen)} sessions of {file} as they are written", differences, {})
        compared += chosen
    run.report.note(f"{len(compared)} sessions compared")
    run.report.holds(f"at least {FEWEST} sessions are compared", len(compared) >= FEWEST, len(compared))
