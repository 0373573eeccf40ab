#!/usr/bin/env python3
"""Draws docs/growth.svg and docs/store.svg from the tables of growth in docs/MEASURED.md: time against the size of a
block, and of a store. Both scales are logarithmic.

    bench/curves.py          draws them anew; so do `bench/growth.py page` and `bench/store.py page`
    bench/curves.py check    fails if a picture differs from what its table says

It measures nothing. If the time of a call grows with the size, its line has 45 degrees, as the grid's diagonals have. If it does
not grow, the line is level."""

import math
import re
import sys

import bars

FIRST, STORE = "Seconds, a block of", "Seconds of the processor, a store of"
# The first cell of each table's head, with its picture and what is drawn.
PICTURES = {
    FIRST: (bars.ROOT / "docs" / "growth.svg", "Processor time against the size of a block"),
    STORE: (bars.ROOT / "docs" / "store.svg", "Processor time against the size of a store"),
}
LEFT, RIGHT, TOP, DECADE = 70, 560, 64, 70
COLOURS = ("#1f77b4", "#d2691e", "#2e8b57", "#b22222", "#7b4fb5", "#8c6d31", "#c2528b", "#5b6770", "#148a8a")
UNITS = {"KB": 3, "MB": 6}
# The end of the name of a row that is not ours.
PEER = ", Python"
GAP = 17
TIMES = ((0, "s"), (-3, "ms"), (-6, "µs"), (-9, "ns"))


def size_of(name):
    """Returns the power of ten for `10 KB`."""
    number, unit = name.split()
    return math.log10(int(number.replace(",", ""))) + UNITS[unit]


def time_of(power):
    """Returns a power of ten as seconds: `10 ms`."""
    least, unit = next((least, unit) for least, unit in TIMES if power >= least)
    return f"{10 ** (power - least)} {unit}"


def curves(first):
    """The sizes as powers of ten, and the seconds of each call, from the table whose head begins so."""
    for head, _, *rows in bars.tables(bars.TABLES.read_text(encoding="utf-8")):
        if head[0] == first:
            sizes = [size_of(name) for name in head[1:]]
            return sizes, [(row[0], [float(cell) for cell in row[1:] if re.fullmatch(r"[\d.e+-]+", cell)]) for row in rows]
    return [], []


def lines_of(title, sizes, calls):
    """The lines of the picture."""
    powers = [math.log10(seconds) for _, row in calls for seconds in row if seconds > 0]
    least, most = math.floor(min(powers)), math.ceil(max(powers))
    wide, bottom = (RIGHT - LEFT) / (sizes[-1] - sizes[0]), TOP + DECADE * (most - least)
    height = max(bottom, TOP + GAP * len(calls)) + 46
    at = lambda size, power: (LEFT + wide * (size - sizes[0]), bottom - DECADE * (power - least))
    note = "both scales logarithmic; a diagonal of the grid is ten times the time for ten times the bytes"
    yield from bars.opening(height, title, title, note)
    for size in sizes:
        x, _ = at(size, least)
        yield bars.line(x, TOP, bottom, "grid")
        name = f"{10 ** (size - 3):.0f} KB" if size < 6 else f"{10 ** (size - 6):.0f} MB"
        yield bars.text(x, bottom + 18, name, "note", "middle")
    for power in range(least, most + 1):
        _, y = at(sizes[0], power)
        yield f'<line x1="{LEFT}" y1="{y}" x2="{RIGHT}" y2="{y}" class="grid"/>'
        yield bars.text(LEFT - 8, y + 4, time_of(power), "note", "end")
    for power in range(least - len(sizes) + 2, most):
        ends = [(size, power + size - sizes[0]) for size in sizes]
        inside = [at(*end) for end in ends if least <= end[1] <= most]
        if len(inside) > 1:
            yield polyline(inside, "#8c959f", 'stroke-dasharray="2 5"')
    yield from drawn(sizes, calls, at)
    yield "</svg>"


def polyline(points, colour, more=""):
    joined = " ".join(f"{x:.1f},{y:.1f}" for x, y in points)
    return f'<polyline points="{joined}" fill="none" stroke="{colour}" {more}/>'


def drawn(sizes, calls, at):
    """The curves, and their names, which stand apart from one another. The curve of what Python does for the same is dashed."""
    last, colours = TOP - 12, {}
    for name, row in sorted(calls, key=lambda call: -call[1][-1]):
        ours = name.removesuffix(PEER)
        colour = colours.setdefault(ours, COLOURS[len(colours) % len(COLOURS)])
        points = [at(size, math.log10(seconds)) for size, seconds in zip(sizes, row)]
        yield polyline(points, colour, 'stroke-width="2"' + (' stroke-dasharray="6 3"' if name != ours else ""))
        last = max(last + GAP, points[-1][1] + 4)
        yield f'<line x1="{points[-1][0]:.1f}" y1="{points[-1][1]:.1f}" x2="{RIGHT + 14}" y2="{last - 4:.1f}" stroke="{colour}"/>'
        yield bars.text(RIGHT + 18, last, name.replace("`", ""))


def made():
    """Each picture, and its text."""
    for first, (path, title) in PICTURES.items():
        sizes, calls = curves(first)
        yield path, "\n".join(lines_of(title, sizes, calls)) + "\n" if calls else ""


if __name__ == "__main__":
    sys.exit(bars.main(made, "bench/curves.py"))
