"""Works over lines that are short of an upload's judging: refused lines, and uploads that are sent again."""
import itertools

from bench.inputs import MAX_BODY
from bench.trials import Trial, add, by_command, is_file
from checks.common.inputs import ISSUER, accredit, code, compact, long_record, reply_to_accredit, reply_to_upload, upload

MIB = 1 << 20
# An upload's first bytes after a word that is none, in 102 bytes.
LONG = f'DOWNLOAD {ISSUER} 1 {{"records":[{{"Entity.LegalName":"Alp","LEI":"{code(1)}"}}]}}\n'.encode()
SHORT = b"UNKNOWN\n"


def counted(bench, pieces, wanted):
    """A trial over a file of lines, beside `wc -l`. `wanted` are the pieces of the output."""
    source = bench.keep("lines", pieces)
    replies = bench.keep("wanted", wanted)
    with open(source, "rb") as lines:
        count = sum(part.count(b"\n") for part in iter(lambda: lines.read(MIB), b""))
    by_wc = bench.keep("counted", [b"%d\n" % count])
    return Trial(
        source.stat().st_size,
        lambda program: by_command([program, "lines"], is_file(replies), source),
        lambda _: by_command(["wc", "-l"], is_file(by_wc), source))


def refused(line):
    """A work of lines whose first word is unknown."""
    def make(bench):
        count = bench.count(256 * MIB, MIB // 16) // len(line)
        return counted(bench, itertools.repeat(line, count), itertools.repeat(b"404 NO_ROUTE\n", count))
    return make


def endless(bench):
    return counted(bench, itertools.repeat(b"x" * MIB, bench.count(256, 5)), [b"413 TOO_LONG\n"])


def repeats(bench):
    """The upload has as many long records as fill a body. Its reply is the same each time."""
    items, count = bench.count(3_500, 50), bench.count(200, 3)
    body = compact({"records": [long_record(number, MAX_BODY // 3_500 - 2) for number in range(1_000, 1_000 + items)]})
    reply = reply_to_upload(2, 1, ["ACCEPTED"] * items)
    return counted(bench, itertools.chain([accredit()], itertools.repeat(upload(1, body), count)),
                   itertools.chain([reply_to_accredit(1)], itertools.repeat(reply, count)))


WC = {"partner": "wc -l", "needs": ("wc",)}
add("lines-102", "unknown words in lines of 102 bytes", "lines", refused(LONG), **WC)
add("lines-8", "unknown words in lines of 8 bytes", "lines", refused(SHORT), **WC)
add("line-endless", "one endless line", "lines", endless, **WC)
add("repeats", "200 repeats of an upload of 4 MiB", "lines", repeats, **WC)
