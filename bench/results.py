"""The results of bench/results.jsonl: the latest of each work, and the table of bench/RESULTS.md that they make."""
from __future__ import annotations

import json

from bench.trials import WORKS
from checks.common.programs import ROOT

RESULTS = ROOT / "bench" / "results.jsonl"
PAGE = ROOT / "bench" / "RESULTS.md"
BEGIN, END = "<!-- what bench/table makes -->\n", "<!-- the end of it -->\n"
HEAD = ("| Work | `leireg` | Rate | Beside | Its time | Ratio | Memory | Its memory | Commit | Date |\n"
        "|---|---|---|---|---|---|---|---|---|---|\n")
MACHINE = ("processor", "processors", "memory", "kernel", "kit", "rustc", "clang", "python")


def read_results():
    """All results, in the order in which they were recorded."""
    if not RESULTS.exists():
        return []
    return [json.loads(line) for line in RESULTS.read_text().splitlines()]


def latest(results):
    """The last result of each work that there is, by the work, in the order of the works."""
    last = {result["work"]: result for result in results}
    return {work: last[name] for name, work in WORKS.items() if name in last}


def seconds(time):
    if time >= 10:
        return f"{time:.1f} s"
    return f"{time:.2f} s" if time >= 1 else f"{time * 1e3:.1f} ms" if time >= 0.01 else f"{time * 1e6:,.0f} µs"


def rate(result):
    """How much of the size is done in a second."""
    each = result["size"] / result["seconds"]
    return f"{each / 1e6:,.1f} MB/s" if result["unit"] == "bytes" else f"{each:,.0f} {result['unit']}/s"


def megabytes(size):
    return f"{size / 1e6:,.0f} MB"


def row(work, result):
    cells = [f"{work.title} (`{work.name}`)", seconds(result["seconds"]), rate(result), work.partner,
             seconds(result["partner_seconds"]), f"{result['ratio']:.2f}", megabytes(result["memory"]),
             megabytes(result["partner_memory"]), result["commit"], result["date"]]
    return "| " + " | ".join(cells) + " |\n"


def machine_words(result):
    """What is known of the machine of a result, by name."""
    return [(name, str(result["machine"][name])) for name in MACHINE if result["machine"].get(name)]


def machine_lines(results):
    """A line for each machine that the results are of, with the loads that were found there."""
    machines = {}
    for result in results:
        words = "; ".join(word if name in word else f"{name} {word}" for name, word in machine_words(result))
        machines.setdefault(words, []).append(result["load"])
    for words, loads in machines.items():
        yield f"- {len(loads)} of these works: {words}. Load before them: {min(loads):.1f} to {max(loads):.1f}.\n"


def table(results):
    """The lines between the two marks of the page: the table, the machines, and the pictures."""
    rows = latest(results)
    if not rows:
        return f"\n{HEAD}\nNothing was recorded yet.\n"
    lines = "".join(row(work, result) for work, result in rows.items())
    return f"\n{HEAD}{lines}\n" + "".join(machine_lines(rows.values())) + "".join(picture_lines(results))


# ---- what the pictures show


def ratio_lines(results):
    """For each group the commits of its results, and for each of its works the points of its ratios: the place of the
    commit, and the ratio. The last result of a work and a commit counts."""
    groups = {}
    for group in dict.fromkeys(work.group for work in WORKS.values()):
        names = [name for name, work in WORKS.items() if work.group == group]
        here = [result for result in results if result["work"] in names]
        commits = list(dict.fromkeys(result["commit"] for result in here))
        lines = {name: {commits.index(each["commit"]): each["ratio"] for each in here if each["work"] == name}
                 for name in names}
        if here:
            groups[group] = commits, {name: sorted(points.items()) for name, points in lines.items() if points}
    return groups


def growth_lines(results):
    """For time and for memory the points of each series that has two sizes or more: the size, and the value."""
    series = {}
    for work, result in latest(results).items():
        if work.series:
            series.setdefault(work.series, []).append((work.size_of_series(), result))
    grown = {name: sorted(points, key=lambda point: point[0]) for name, points in series.items() if len(points) > 1}
    return {
        "time": {name: [(size, result["seconds"]) for size, result in points] for name, points in grown.items()},
        "memory": {name: [(size, result["memory"] / 1e6) for size, result in points] for name, points in grown.items()},
    }


def picture_lines(results):
    """The lines of the page that show the pictures."""
    for group in ratio_lines(results):
        yield f"\n![Ratios of the group {group} over commits](pictures/ratios-{group}.svg)\n"
    for what, lines in growth_lines(results).items():
        if lines:
            yield f"\n![{what} over size](pictures/growth-{what}.svg)\n"


# ---- the page


def page_with(lines):
    """The page with these lines between its marks."""
    before, begin, rest = PAGE.read_text().partition(BEGIN)
    _, end, after = rest.partition(END)
    if not begin or not end:
        raise ValueError(f"{PAGE} lacks the marks of the table")
    return f"{before}{BEGIN}{lines}{END}{after}"
