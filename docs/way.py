#!/usr/bin/env python3
"""Draws docs/pictures/way.svg: the way of a byte through the crates, as docs/DESIGN.md shows it.

    docs/way.py          draws it anew
    docs/way.py check    fails if the picture differs, or names a file that its crate does not have, or docs/DESIGN.md one that is
                         not there; or if crates/README.md lists other crates than crates.txt, or one below what it stands on"""

import pathlib
import re
import sys
from xml.sax.saxutils import escape

ROOT = pathlib.Path(__file__).resolve().parent.parent
PAGE = ROOT / "docs" / "DESIGN.md"
PICTURE = ROOT / "docs" / "pictures" / "way.svg"
WIDTH, HEIGHT = 900, 742

STYLE = """
  text { font: 13px system-ui, sans-serif; fill: #1f2328; }
  .crate { font: 600 14px ui-monospace, monospace; }
  .call { font: 12.5px ui-monospace, monospace; }
  .files, .flow { font-size: 12px; fill: #59636e; }
  .floor { fill: #f6f8fa; stroke: #d1d9e0; }
  .room { fill: #ffffff; stroke: #d1d9e0; }
  .ground { fill: #fff8e6; stroke: #d4a72c; }
  .arrow { stroke: #0969da; stroke-width: 2; fill: none; }
  .head { fill: #0969da; }
  @media (prefers-color-scheme: dark) {
    text { fill: #f0f6fc; }
    .files, .flow { fill: #9198a1; }
    .floor { fill: #151b23; stroke: #3d444d; }
    .room { fill: #0d1117; stroke: #3d444d; }
    .ground { fill: #2b2410; stroke: #9e7a1f; }
    .arrow { stroke: #4493f8; }
    .head { fill: #4493f8; }
  }
"""

# The floors: x, y, width, height, and the crate with what it is.
FLOORS = [
    (20, 12, 860, 38, "serde_ipld_dagcbor", "the names of all floors, the codec, the laws"),
    (20, 60, 420, 238, "dagcbor_read", "types that are read"),
    (460, 60, 420, 402, "dagcbor_write", "types that are written"),
    (20, 308, 267, 154, "dagcbor_items", "data without types"),
    (295, 308, 145, 154, "dagcbor_decode", ""),
    (20, 472, 860, 214, "dagcbor_heads", "readers and writers, and heads by them"),
]
# The rooms: x, y, width, height, the calls, and the files of the floor's crate.
ROOMS = [
    (36, 92, 388, 46, "from_slice   from_reader   a stream", "whole.rt, source.rt, stream.rt", "dagcbor_read"),
    (36, 162, 388, 46, "Deserialize: each type", "types/", "dagcbor_read"),
    (36, 232, 388, 46, "Deserializer; lists, maps, enums", "deserializer.rt, access/", "dagcbor_read"),
    (36, 340, 114, 46, "read_any", "a tree: any.rt", "dagcbor_items"),
    (161, 340, 114, 46, "walk_any", "links: walk.rt", "dagcbor_items"),
    (36, 402, 239, 46, "pull_bool, .._str, read_key", "simple.rt, strings.rt, key.rt, link.rt", "dagcbor_items"),
    (307, 340, 121, 46, "judge_slice", "slices.rt, links.rt", "dagcbor_decode"),
    (307, 402, 121, 46, "judge_item", "judge.rt, part.rt", "dagcbor_decode"),
    (36, 504, 388, 46, "peek_one   pull_head   pull_payload", "pull.rt; of a slice read.rt", "dagcbor_heads"),
    (36, 566, 388, 46, "Input: a slice, which lends, or a reader", "input.rt", "dagcbor_heads"),
    (36, 628, 388, 46, "SliceReader  IoReader  IoRefReader  yours", "read.rt, io_read.rt, io_ref_read.rt, window.rt", "dagcbor_heads"),
    (476, 92, 388, 46, "to_vec   to_writer", "whole.rt", "dagcbor_write"),
    (476, 216, 388, 46, "Serialize: each type; write_struct", "types/, structs.rt", "dagcbor_write"),
    (476, 340, 388, 46, "serialize_bool, .._cid; collectors", "serializer.rt, collect/", "dagcbor_write"),
    (476, 504, 388, 46, "push_head", "push.rt", "dagcbor_heads"),
    (476, 628, 388, 46, "BufWriter  IoWriter  IoRefWriter  yours", "write.rt, io_write.rt, io_ref_write.rt", "dagcbor_heads"),
]
# The arrows: x, from y, to y, what goes there, and how high that stands.
ARROWS = [
    (230, 696, 674, "", 0), (230, 628, 612, "", 0), (230, 566, 550, "", 0), (230, 504, 448, "heads and payloads", 493),
    (385, 504, 448, "", 0), (385, 402, 386, "", 0), (97, 402, 386, "", 0), (230, 402, 386, "", 0),
    (230, 340, 278, "items, within the steps", 293), (230, 232, 208, "what has failed stays so", 224), (230, 162, 138, "values", 154),
    (670, 138, 216, "values", 181), (670, 262, 340, "items; maps in key order", 305), (670, 386, 504, "heads and payloads", 430),
    (670, 550, 628, "bytes, appended", 593), (670, 674, 696, "", 0),
]


def text(x, y, words, kind, anchor="start"):
    return f'<text x="{x}" y="{y}" class="{kind}" text-anchor="{anchor}" xml:space="preserve">{escape(words)}</text>'


def box(x, y, width, height, kind):
    return f'<rect x="{x}" y="{y}" width="{width}" height="{height}" rx="6" class="{kind}"/>'


def arrow(x, start, end, words, height):
    """An arrow, its head, and beside it the words on what goes there."""
    up = -1 if end < start else 1
    tip = f"{x - 5},{end - 7 * up} {x + 5},{end - 7 * up} {x},{end}"
    yield f'<path d="M{x} {start} V{end - 6 * up}" class="arrow"/><polygon points="{tip}" class="head"/>'
    if words:
        yield text(x + 12, height, words, "flow")


def drawn():
    """The lines of the picture."""
    yield f'<svg xmlns="http://www.w3.org/2000/svg" viewBox="0 0 {WIDTH} {HEIGHT}" role="img" aria-labelledby="title">'
    yield '<title id="title">The way of a byte: a block is read from the ground up, a value is written down</title>'
    yield f"<style>{STYLE}</style>"
    for x, y, width, height, crate, words in FLOORS:
        yield box(x, y, width, height, "floor")
        yield text(x + 16, y + 24, crate, "crate") + text(x + width - 16, y + 24, words, "flow", "end")
    for x, words in [(20, "bytes in: a slice, a source, a reader of your own"), (460, "bytes out: memory, a device, a writer of your own")]:
        yield box(x, 696, 420, 34, "ground") + text(x + 16, 718, words, "")
    for x, y, width, height, calls, files, _ in ROOMS:
        yield box(x, y, width, height, "room") + text(x + 12, y + 19, calls, "call") + text(x + 12, y + 37, files, "files")
    for one in ARROWS:
        yield from arrow(*one)
    yield "</svg>"


def strangers():
    """The files that a room names and its crate does not have."""
    for *_, files, crate in ROOMS:
        for name in re.findall(r"\w+(?:\.rt|/)", files):
            if not (ROOT / "crates" / crate / "src" / name).exists():
                yield f"{crate}: {name}"


def lost_files():
    """The sources that the page names and that are not there."""
    tops = ("crates", "callers", "conformance", "faults", "bench", "docs", "schemas")
    there = {path.name for top in tops for path in (ROOT / top).rglob("*.*")}
    for name in re.findall(r"`[\w/]*?(\w+\.(?:rt|antt|c|h|py|rs|go))`", PAGE.read_text(encoding="utf-8")):
        if name not in there:
            yield f"docs/DESIGN.md: {name}"


def floors_of(page):
    """Each crate of the page's table, with the number of its floor."""
    floor = 0
    for row in re.findall(r"^\| (.*?) \|", page, re.MULTILINE):
        floor += row.startswith("**")
        yield from ((name, floor) for name in re.findall(r"`(\w+)`", row))


def misplaced():
    """The crates that crates/README.md and crates.txt do not list alike, or that stand below what they stand on."""
    lines = re.findall(r"^(\w+).*?:(.*)$", (ROOT / "crates.txt").read_text(encoding="utf-8"), re.MULTILINE)
    listed = list(floors_of((ROOT / "crates" / "README.md").read_text(encoding="utf-8")))
    floors, below = dict(listed), {name: words.split() for name, words in lines}
    for name in sorted(set(floors) ^ set(below)) + [name for name in floors if sum(it == name for it, _ in listed) > 1]:
        yield f"crates/README.md: {name} is not once there and in crates.txt"
    for name, words in below.items():
        for low in words:
            if floors.get(low, 0) > floors.get(name, len(lines)):
                yield f"crates/README.md: {name} stands on {low}, which is on a higher floor"


def main(words):
    picture, lost = "\n".join(drawn()) + "\n", [*strangers(), *lost_files(), *misplaced()]
    if words != ["check"]:
        PICTURE.write_text(picture, encoding="utf-8")
    elif not PICTURE.exists() or PICTURE.read_text(encoding="utf-8") != picture:
        lost.append("docs/pictures/way.svg is not what docs/way.py draws")
    print(*lost, sep="\n", end="\n" if lost else "")
    return 1 if lost else 0


if __name__ == "__main__":
    sys.exit(main(sys.argv[1:]))
