"""A block as DAG-JSON: the time of `dagcar show` for 10 MB in one block, compared with Python's `json.dumps` of the same data."""

import json
import random
import sys
import time

from measuring import answered, built, heap_counter, heap_of_call
from car_bytes import cid, head, link, spelled, text_of

SIZE = 10_000_000


def record(chance, number):
    """A record of a link, a text, a number and a list of numbers: its spelling, and its value in Python."""
    name = cid(b"%d" % number)
    text = "".join(chance.choice("abcdefghijklmnopqrstuvwxyz \n\"é") for _ in range(9))
    while len(text.encode()) > 23:
        text = text[:-1]
    size, tags = chance.randrange(1 << 32), [chance.randrange(1 << 10) for _ in range(3)]
    values = link(name), spelled(3, text.encode()), head(0, size), head(4, 3) + b"".join(head(0, it) for it in tags)
    block = head(5, 4) + b"".join(spelled(3, key) + value for key, value in zip((b"link", b"name", b"size", b"tags"), values))
    return block, {"link": {"/": text_of(name)}, "name": text, "size": size, "tags": tags}


def block():
    """A list of records of ten million bytes, and the data."""
    chance = random.Random(11)
    spellings, data, size = [], [], 0
    while size < SIZE:
        spelling, it = record(chance, len(data))
        spellings.append(spelling)
        data.append(it)
        size += len(spelling)
    return head(4, len(data)) + b"".join(spellings), data


def shown(program, given, data):
    """The processor seconds of the program, and of Python, which give the same text."""
    answer, took = answered([program, "show"], given)
    began = time.process_time()
    text = json.dumps(data, ensure_ascii=False, separators=(",", ":"))
    theirs = time.process_time() - began
    if answer != text.encode() + b"\n":
        sys.exit("bench/shown.py: `dagcar show` and json.dumps differ")
    return took.processor, theirs


def measure(section):
    program, (given, data) = section.dagcar(), block()
    ours, theirs = map(min, zip(*[shown(program, given, data) for _ in range(section.runs)]))
    library = heap_counter(section.folder)
    factor = tree = ""
    if library:
        factor = f"{answered([program, 'show'], given, library)[1].heap / len(given):.1f}"
        tree = f"{heap_of_call(built('dagcbor_bench'), 'from_slice::<Ipld>', given, library) / len(given):.1f}"
    section.measured()
    title = f"One block of {len(given) / 1e6:.0f} MB, {len(data):,} records"
    section.head(title, "s", "heap at its peak, as a factor of the block")
    section.row("`dagcar show`", f"{ours:.3g}", factor)
    section.row("the tree alone, an `Ipld`", "", tree)
    section.row("Python's `json.dumps`", f"{theirs:.3g}", "")


if __name__ == "__main__":
    sys.exit("bench/shown.py is a part of bench/speed.py: bench/speed.py shown")
