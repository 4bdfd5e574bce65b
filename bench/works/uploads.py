"""Works over uploads of new records, in lines: large and small ones, in each way in which clients write a body. Beside them
stand SHOW, `demo`, and programs that only read the same bodies."""
import itertools

from bench.inputs import (FIRST, RECORDS, bodies, demo_summary, keep_session, odd_body, record_count, session, writings)
from bench.tools import in_python, on_one_processor, yardstick
from bench.trials import Trial, add, by_command, is_file
from checks.common.inputs import code, compact, record

UPLOADS = 32
YARDSTICK = {"partner": "yardstick", "needs": ("rustc",)}


def beside_yardstick(bench, pairs, on=list):
    """A trial over these lines and replies, beside the yardstick. `on` makes the command from its words."""
    lines, wanted = keep_session(bench, pairs)
    return Trial(
        lines.stat().st_size,
        lambda program: by_command(on([program, "lines"]), is_file(wanted), lines),
        lambda _: by_command(on([yardstick(bench), "lines"]), is_file(wanted), lines))


def new_records(bench, write=compact):
    """The bodies of large uploads of new records, and how many each has."""
    each = bench.count(record_count(write), 50)
    return bodies(bench.count(UPLOADS, 3) * each, each, write)


def large(writing, on):
    return lambda bench: beside_yardstick(bench, session(new_records(bench, writings()[writing])), on)


def odd(bench):
    each = bench.count(4_000, 100)
    made = ((odd_body(FIRST + place * each, each), each) for place in range(bench.count(UPLOADS, 3)))
    return beside_yardstick(bench, session(made))


def small(bench):
    return beside_yardstick(bench, session(bodies(bench.count(20_000, 50), 1)))


def show(bench):
    each = bench.count(RECORDS, 50)
    made = [compact(record(FIRST + place)) for place in range(each)]
    asked = ((f"SHOW {code(FIRST + number % each)}\n".encode(), b"200 " + made[number % each] + b"\n")
             for number in range(bench.count(100_000, 100)))
    return beside_yardstick(bench, itertools.chain(session(bodies(each, each)), asked))


def demo(records):
    def make(bench):
        count = bench.count(records, 120)
        wanted = bench.keep("wanted", [demo_summary(count)])
        return Trial(
            count,
            lambda program: by_command([program, "demo", str(count)], is_file(wanted)),
            lambda _: by_command([yardstick(bench), "demo", str(count)], is_file(wanted)))
    return make


def beside_readers(reader):
    """A trial of large uploads, beside a program that reads the same bodies. `reader` makes its words and its check."""
    def make(bench):
        lines, wanted = keep_session(bench, session(new_records(bench)))
        each = bench.keep("bodies", (body + b"\n" for body, _ in new_records(bench)))
        return Trial(
            lines.stat().st_size,
            lambda program: by_command([program, "lines"], is_file(wanted), lines),
            lambda _: by_command(*reader(bench, each), each))
    return make


def by_loads(bench, each):
    """Python's `json.loads` of each body."""
    with open(each, "rb") as read:
        count = sum(1 for _ in read)
    return in_python("load"), is_file(bench.keep("count", [b"%d\n" % count]))


def by_jq(_, each):
    """`jq`, which reads each body and prints it as it was."""
    return ["jq", "-c", "."], is_file(each)


for kind, text in (("byte-order", "names in byte order"), ("formats-order", "names in the order of FORMATS"),
                   ("no-order", "names in no order"), ("blanks", "blanks"), ("dumps", "json.dumps")):
    for name, where, command in (("one", "one processor", on_one_processor), ("all", "all processors", list)):
        add(f"uploads-{kind}-{name}", f"32 uploads of new records, {text}, on {where}", "uploads", large(text, command),
            **YARDSTICK)
add("uploads-odd", "32 uploads of 4,000 new records, of which one is written oddly", "uploads", odd, **YARDSTICK)
add("uploads-small", "20,000 uploads of one record", "uploads", small, **YARDSTICK)
add("show", "100,000 SHOW", "uploads", show, **YARDSTICK)
for size in (10_000, 100_000):
    add(f"demo-{size}", f"demo {size}", "uploads", demo(size), unit="records", series="demo", **YARDSTICK)
READING = "32 uploads of 4,400 new records, beside reading alone"
add("uploads-loads", READING, "uploads", beside_readers(by_loads), "Python's json.loads")
add("uploads-jq", READING, "uploads", beside_readers(by_jq), "jq -c .", needs=("jq",))
