#!/usr/bin/env python3
"""Puts the ratios of all tables of docs/MEASURED.md into the table of docs/SPEED.md, and those of the codec's calls into README.md,
and draws some of them as bars (docs/speed.svg).

    bench/bars.py          makes all of these anew; so does each script that puts a table into the page
    bench/bars.py check    fails if the table, the sentence or the picture differs from what the tables say

It measures nothing. A bar to the left took less time than what it is compared with, and one to the right more. The scale is
logarithmic, so half and twice the time are equally far from the line."""

import math
import pathlib
import re
import sys
from xml.sax.saxutils import escape

ROOT = pathlib.Path(__file__).resolve().parent.parent
TABLES, PAGE, README = ROOT / "docs" / "MEASURED.md", ROOT / "docs" / "SPEED.md", ROOT / "README.md"
PICTURE = ROOT / "docs" / "speed.svg"

# A group of bars: its heading, the first cell of its table's head, the columns of ratios, each with what it adds to a row's name,
# and the rows that are drawn.
GROUPS = [
    ("Rust: serde_cbor, which is not strict", "Call", {"ours / serde_cbor": ""}, ".*"),
    ("Rust: a program over serde_cbor, 20 MB of lines", "Program, 20 MB of lines", {"ours / serde_cbor": ""}, ".*from a file"),
    ("Go: fxamacker/cbor, which is not strict", "Call", {"ours / fxamacker/cbor": ""}, ".*"),
    ("Python: cbor2, which is not strict", "Python",
     {"loads / cbor2.loads": "loads: ", "dumps / cbor2.dumps": "dumps: "}, "the record|10,000"),
    ("Node: the engine's own JSON of the same data", "Node",
     {"decode / JSON.parse": "decode: ", "encode / JSON.stringify": "encode: "}, "the record|10,000"),
]
BEGIN, END = "<!-- made by bench/bars.py -->\n", "<!-- so far, of all tables -->\n"
WIDTH, LEFT, RIGHT, TOP, STEP, BAR = 860, 330, 800, 62, 19, 12

STYLE = """
  text { font: 12.5px system-ui, sans-serif; fill: #1f2328; }
  .title { font-weight: 600; font-size: 15px; }
  .group { font-weight: 600; }
  .note { fill: #59636e; }
  .grid { stroke: #d1d9e0; }
  .one { stroke: #1f2328; stroke-width: 1.5; }
  .less { fill: #1a7f64; }
  .more { fill: #bc6c00; }
  @media (prefers-color-scheme: dark) {
    text { fill: #f0f6fc; }
    .note { fill: #9198a1; }
    .grid { stroke: #3d444d; }
    .one { stroke: #f0f6fc; }
    .less { fill: #3fb992; }
    .more { fill: #e0973a; }
  }
"""


def tables(page):
    """The tables of the page, each as its rows of cells."""
    for block in re.findall(r"(?:^\|.*\n)+", page, re.M):
        yield [[cell.strip() for cell in line.strip().strip("|").split("|")] for line in block.strip().split("\n")]


def bars_of(page, first, columns, wanted):
    """The names and ratios of a group, in the order of the page."""
    for head, _, *rows in tables(page):
        if head[0] == first and set(columns) <= set(head):
            for row in rows:
                for column, name in columns.items():
                    ratio = row[head.index(column)]
                    if re.fullmatch(r"[\d.]+", ratio) and re.match(wanted, row[0]):
                        yield name + row[0].replace("`", "").replace(", from a file", ""), float(ratio)


def ratios_of(table):
    """For each column of ratios, its name, and the ratios by the names of their rows; the row that all are compared with is left out."""
    head, _, *rows = table
    for at, column in enumerate(head):
        if " / " in column or column.startswith("by "):
            ratios = {row[0]: row[at] for row in rows if re.fullmatch(r"[\d.]+", row[at])}
            ratios = {name: float(ratio) for name, ratio in ratios.items() if not (column.startswith("by ") and ratio == "1.00")}
            if ratios:
                yield column, ratios


def summary(page):
    """One table for all: for each column of ratios the least, the greatest, and the row that has the greatest."""
    yield "| Table | Ratio | rows | least | greatest | which row has that |\n|---|---|---|---|---|---|\n"
    for table in tables(page):
        for column, ratios in ratios_of(table):
            worst = max(ratios, key=ratios.get)
            cells = [table[0][0], column, len(ratios), f"{min(ratios.values()):.2f}", f"{ratios[worst]:.2f}", worst]
            yield f"| {' | '.join(map(str, cells))} |\n"


def summarised(page, measured):
    """Returns the page, with the table for all in its place."""
    before, _, rest = page.partition(BEGIN)
    return before + BEGIN + "".join(summary(measured)) + END + rest.partition(END)[2]


def told(readme, page):
    """Returns the README's text, with the least and the greatest ratio of the instructions of the codec's calls in its sentence."""
    _, *row = next(row for table in tables(page) for row in ratios_of(table) if row[0] == "ours / serde_cbor's")
    ratios = row[0].values()
    said = rf"\g<1>{min(ratios):.1f} to {max(ratios):.1f}\g<2>"
    readme, count = re.subn(r"(calls take )[\d.]+ to [\d.]+( times the instructions of `serde_cbor`'s)", said, readme)
    return readme if count else sys.exit("README.md has no sentence on the ratios of calls")


def text(x, y, words, kind="", anchor="start"):
    return f'<text x="{x:.0f}" y="{y:.0f}" class="{kind}" text-anchor="{anchor}">{escape(words)}</text>'


def line(x, top, end, kind):
    return f'<line x1="{x:.1f}" y1="{top}" x2="{x:.1f}" y2="{end}" class="{kind}"/>'


def opening(height, label, title, note):
    """The lines that begin a picture."""
    yield f'<svg xmlns="http://www.w3.org/2000/svg" viewBox="0 0 {WIDTH} {height}" role="img" aria-labelledby="title">'
    yield f'<title id="title">{label}</title>'
    yield f"<style>{STYLE}</style>"
    yield text(16, 24, title, "title")
    yield text(16, 44, note, "note")


def drawn(page):
    """The lines of the picture of these tables."""
    groups = [(heading, list(bars_of(page, *rest))) for heading, *rest in GROUPS]
    groups = [(heading, bars) for heading, bars in groups if bars]
    ratios = [ratio for _, bars in groups for _, ratio in bars]
    least, most = math.floor(math.log2(min([*ratios, 0.5]))), math.ceil(math.log2(max([*ratios, 2])))

    def place(ratio):
        return LEFT + (math.log2(ratio) - least) / (most - least) * (RIGHT - LEFT)

    height = TOP + sum(STEP * len(bars) + 34 for _, bars in groups) + 6
    title = ["Processor time of this library, as a multiple of that of others", "Processor time, as a multiple of that of others"]
    yield from opening(height, *title, "to the left of 1 we take less")
    for power in range(least, most + 1):
        yield line(place(2.0 ** power), TOP - 6, height - 8, "one" if power == 0 else "grid")
        yield text(place(2.0 ** power), TOP - 12, str(2 ** power) if power >= 0 else f"1/{2 ** -power}", "note", "middle")
    y = TOP + 14
    for heading, bars in groups:
        yield text(16, y, heading, "group")
        for name, ratio in bars:
            y += STEP
            x, kind = sorted([place(1), place(ratio)]), "less" if ratio <= 1 else "more"
            yield text(LEFT - 8, y, name, "", "end")
            yield f'<rect x="{x[0]:.1f}" y="{y - BAR + 2}" width="{max(x[1] - x[0], 1):.1f}" height="{BAR}" class="{kind}"/>'
            yield text(x[0] - 6, y, f"{ratio:.2f}", "", "end") if ratio <= 1 else text(x[1] + 6, y, f"{ratio:.2f}")
        y += 34
    yield "</svg>"


def made():
    """Returns each file that is made from the tables, in whole or in part, and its text."""
    measured = TABLES.read_text(encoding="utf-8")
    yield PAGE, summarised(PAGE.read_text(encoding="utf-8"), measured)
    yield PICTURE, "\n".join(drawn(measured)) + "\n"
    yield README, told(README.read_text(encoding="utf-8"), measured)


def write(made):
    for path, text_of in list(made()):
        path.write_text(text_of, encoding="utf-8")


def main(made, script):
    """Writes each file anew; with `check` it names the files that differ from what the tables say."""
    if sys.argv[1:] != ["check"]:
        write(made)
        return 0
    stale = [path.name for path, text_of in made() if not path.exists() or path.read_text(encoding="utf-8") != text_of]
    if stale:
        print(f"not what the tables of docs/MEASURED.md say: {', '.join(stale)}. Run {script}")
    return 1 if stale else 0


if __name__ == "__main__":
    sys.exit(main(made, "bench/bars.py"))
