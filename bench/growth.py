#!/usr/bin/env python3
"""Memory and time against size: the library's calls, proved and built, for a thousand to a million items.

    bench/growth.py [WORD..]
    bench/growth.py page

It prints a line for each call, or for each whose name has one of the words: the processor time for an item at each size, and the
most heap that was live beyond what was there before, as a factor of the block's bytes. If the numbers of a call stay the same, its
time grows linearly. For a call of `to_vec` the value that is written was there before. With `page` it puts the time of some calls
over blocks of 1 KB to 100 MB into docs/MEASURED.md, and draws it (bench/curves.py)."""

import random
import subprocess

from measuring import built, called, curves, heap_counter, in_c, measure, seconds_of_calls
from blocks import LINK, digits, keyed, listed, numbers, record, string

SIZES = (1_000, 10_000, 100_000, 1_000_000)
# The items that are gone through at each size, so that the time can be measured.
ITEMS = 2_000_000
# The keys whose hashes agree, and the bits in which they do.
KEYS, BITS = 12_800, 14
NUMBER = b"\x18\x18"

# The name of each block, and how to make one of a number of items.
BLOCKS = {
    "list of 00": lambda n: listed(n, b"\x00"),
    "list of a1 60 00": lambda n: listed(n, b"\xa1\x60\x00"),
    "list of 61 61": lambda n: listed(n, b"\x61a"),
    "list of 81 00": lambda n: listed(n, b"\x81\x00"),
    "list of 18 18": lambda n: listed(n, NUMBER),
    "list of 18 18, its number last": lambda n: listed(n, NUMBER),
    "list of links": lambda n: listed(n, LINK),
    "stream of 63 61 62 63": lambda n: b"\x63abc" * n,
    "byte string": string,
    "map": digits,
    "map, in key order": digits,
    "map, in another order": numbers,
}
# Each call, and its blocks.
CALLS = {
    "check_slice": ("list of 00", "list of a1 60 00", "map"),
    "links_from_slice": ("list of 00", "list of links"),
    "from_slice::<IgnoredAny>": ("map",),
    "from_reader::<IgnoredAny>": ("map",),
    "from_slice::<Ipld>": ("list of 00", "list of 61 61", "list of 81 00", "list of a1 60 00", "map"),
    "from_reader::<Ipld>": ("list of 00", "map"),
    "from_slice::<Vec<u64>>": ("list of 18 18",),
    "from_reader::<Vec<u64>>": ("list of 18 18",),
    "from_slice::<BTreeMap>": ("map",),
    "from_reader::<BTreeMap>": ("map",),
    "from_slice::<HashMap>": ("map",),
    "from_slice::<Bytes>": ("byte string",),
    "from_reader::<Bytes>": ("byte string",),
    "iter_from_reader::<String>": ("stream of 63 61 62 63",),
    "to_vec::<Ipld>": ("list of 00", "map"),
    "to_vec::<Vec<u64>>": ("list of 18 18",),
    "to_vec::<Bag<u64>>": ("list of 18 18, its number last",),
    "to_vec::<BTreeMap>": ("map, in key order", "map, in another order"),
    "to_vec::<HashMap>": ("map",),
    "to_vec::<Bytes>": ("byte string",),
}

# What is drawn: each call over blocks of about these sizes, which are read until this many bytes are read.
BYTES = {"1 KB": 10**3, "10 KB": 10**4, "100 KB": 10**5, "1 MB": 10**6, "10 MB": 10**7, "100 MB": 10**8}
READ = 2 * 10**7
RECORD = record(random.Random(1))
OF_BYTES = {
    "records": lambda size: listed(size // len(RECORD), RECORD),
    "numbers": lambda size: listed(size // len(NUMBER), NUMBER),
    # Each key has eight digits, and its entry ten bytes.
    "a map": lambda size: digits(size // 10, 8),
}
DRAWN = {
    "records": ("check_slice", "links_from_slice", "from_slice::<Ipld>", "to_vec::<Ipld>"),
    "numbers": ("from_slice::<Vec<u64>>", "from_reader::<Vec<u64>>"),
    "a map": ("check_slice", "from_slice::<Ipld>", "to_vec::<Ipld>"),
}


def chosen_keys(folder):
    """Keys of eight letters in their order, whose hashes agree in their low bits."""
    found = subprocess.run([in_c(folder, "chosen_keys.c"), str(KEYS), str(BITS)], capture_output=True, check=True).stdout
    return sorted(found[i : i + 8] for i in range(0, len(found), 8))


def rows(folder, words):
    """The calls whose names have one of the words: for each its name, the call, the items, the block, and how often it is called."""
    is_wanted = lambda name: not words or any(word in name for word in words)
    for call, kinds in CALLS.items():
        for kind in kinds:
            if is_wanted(f"{call}, {kind}"):
                yield from ((f"{call}, {kind}", call, items, BLOCKS[kind](items), max(1, ITEMS // items)) for items in SIZES)
    if is_wanted("chosen keys"):
        keys = chosen_keys(folder)
        for call in ("from_slice::<HashMap>", "from_slice::<BTreeMap>"):
            counts = (KEYS // 16, KEYS // 4, KEYS // 2, KEYS)
            yield from ((f"{call}, chosen keys", call, items, keyed(keys[:items]), 1) for items in counts)


def lines(section):
    """The time and heap of the calls beyond those of a run that prepares and calls nothing."""
    program, library = built("dagcbor_bench"), heap_counter(section.folder)
    if library is None:
        return
    section.tell(f"{'call':48} {'items':>9} {'bytes':>9} {'ns an item':>11} {'heap, as a factor':>18}")
    for name, call, items, block, times in rows(section.folder, section.words):
        none, some = (called(program, call, n, block, library=library) for n in (0, times))
        each = max(0, some.processor - none.processor) * 1e9 / times / items
        section.tell(f"{name:48} {items:9} {len(block):9} {each:11.1f} {(some.heap - none.heap) / len(block):18.2f}")


def seconds(program, call, block):
    """The processor time of one call, the least of three runs."""
    return max(1e-9, *seconds_of_calls(3, [(program, call)], max(1, READ // len(block)), block))


def growth(section):
    """With `page`, what is drawn; else the lines of calls."""
    if "page" not in section.words:
        lines(section)
        return
    program = built("dagcbor_bench")
    section.measured("processor time, ")
    section.head(curves.FIRST, *BYTES)
    for call, kind in ((call, kind) for kind, calls in DRAWN.items() for call in calls):
        section.row(f"`{call}`, {kind}", *(f"{seconds(program, call, OF_BYTES[kind](size)):.2e}" for size in BYTES.values()))


measure({"growth.py": growth}, runs=3)
