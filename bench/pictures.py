"""The pictures of bench/pictures, by matplotlib: ratios over commits, and time and memory over size. The same results give
the same bytes, if matplotlib is the same."""
from __future__ import annotations

import itertools

import matplotlib
from matplotlib import pyplot, ticker

from bench.results import growth_lines, ratio_lines
from checks.common.programs import ROOT

FOLDER = ROOT / "bench" / "pictures"
# Blue, vermilion, green and black are told apart by readers who don't see red or green. Each has several markers.
COLOURS = ("#0072B2", "#D55E00", "#009E73", "#000000")
MARKERS = ("o", "s", "^", "D", "v", "x")
STYLE = {
    "font.family": "DejaVu Sans", "font.size": 9, "svg.hashsalt": "leireg", "svg.fonttype": "path",
    "axes.spines.top": False, "axes.spines.right": False, "axes.linewidth": 0.6, "lines.linewidth": 1.2,
    "lines.markersize": 4, "xtick.major.width": 0.6, "ytick.major.width": 0.6,
}


def looks():
    """A colour and a marker for each line in turn, each pair once before the first comes again."""
    return itertools.cycle((colour, marker) for marker in MARKERS for colour in COLOURS)


def spread(places, least):
    """Places from 0 to 1 with at least this distance, in the same order, as near to these as that lets them."""
    order, moved = sorted(range(len(places)), key=lambda at: places[at]), list(places)
    for one, other in zip(order, order[1:]):
        moved[other] = max(moved[other], moved[one] + least)
    over = max(0, moved[order[-1]] - 1) if order else 0
    for at in reversed(order):
        moved[at] = min(moved[at], 1 - (len(order) - 1 - order.index(at)) * least) if over else moved[at]
    return moved


def label(axes, ends):
    """Writes the name of each line at the right of its last point: names, places and colours."""
    if not ends:
        return
    to_axes = axes.transData + axes.transAxes.inverted()
    places = [to_axes.transform(end)[1] for _, end, _ in ends]
    least = 0.13 * axes.figure.dpi / axes.bbox.height
    for (name, end, colour), place in zip(ends, spread(places, least)):
        axes.annotate(name, end, (1.03, place), textcoords="axes fraction", color=colour, va="center", fontsize=8,
                      arrowprops={"arrowstyle": "-", "color": colour, "linewidth": 0.3, "relpos": (0, 0.5), "shrinkB": 3},
                      annotation_clip=False)


def use_plain_ticks(axis, *times):
    """Puts the ticks of an axis of logarithms at so many times the powers of ten, written as plain numbers."""
    axis.set_major_locator(ticker.LogLocator(subs=times))
    axis.set_major_formatter(ticker.FuncFormatter(lambda value, _: f"{value:,.0f}" if value >= 1 else f"{value:g}"))
    axis.set_minor_locator(ticker.NullLocator())


def draw(name, title, x_label, y_label, lines, ticks=None, has_one=False):
    """A picture of lines by name, each with its points. All but the ticks of commits is in logarithms."""
    with matplotlib.rc_context(STYLE):
        height = max(3.5, 0.22 * len(lines) + 1.5)
        figure, axes = pyplot.subplots(figsize=(8, height))
        axes.set_yscale("log")
        use_plain_ticks(axes.yaxis, 1, 2, 5)
        if ticks is None:
            axes.set_xscale("log")
            use_plain_ticks(axes.xaxis, 1)
        else:
            axes.set_xticks(range(len(ticks)), ticks, rotation=60, ha="right")
            axes.set_xlim(-0.3, len(ticks) - 0.7)
        if has_one:
            axes.axhline(1, color="#888888", linewidth=0.5)
        ends = []
        for (line, points), (colour, marker) in zip(lines.items(), looks()):
            axes.plot(*zip(*points), color=colour, marker=marker)
            ends.append((line, points[-1], colour))
        axes.set_title(title, loc="left", fontsize=10)
        axes.set_xlabel(x_label)
        axes.set_ylabel(y_label)
        figure.subplots_adjust(left=0.1, right=0.66, top=1 - 0.35 / height, bottom=(1.1 if ticks else 0.6) / height)
        figure.canvas.draw()
        label(axes, ends)
        FOLDER.mkdir(exist_ok=True)
        figure.savefig(FOLDER / f"{name}.svg", metadata={"Date": None, "Creator": None})
        pyplot.close(figure)


def draw_ratios(results):
    """A picture for each group."""
    for group, (commits, lines) in ratio_lines(results).items():
        draw(f"ratios-{group}", f"{group}: the partner's time divided by that of leireg", "commit", "ratio (more is better)",
             lines, commits, has_one=True)


def draw_growth(results):
    """A picture of time and one of memory."""
    for what, lines in growth_lines(results).items():
        if lines:
            unit = {"time": "seconds", "memory": "megabytes"}[what]
            draw(f"growth-{what}", f"{what} over size", "records, rows, names or entries", unit, lines)
