#!/usr/bin/env python3
"""The proved program against size: `dagcbor check` and `dagcbor links` over one block of a thousand to a million items.

    bench/program.py

It prints a line for each: the processor time for an item, and the most heap that was live, as a factor of the block's bytes. If the
numbers of a call stay the same, its time grows linearly. The program reads hexadecimal text and keeps a line of it, so
a part of time and heap is that of the text."""

import sys

from measuring import answered, built, heap_counter, measure
from blocks import LINK, digits, listed, string

SIZES = (1_000, 10_000, 100_000, 1_000_000)
# The name of each block, and how to make one of a number of items.
BLOCKS = {
    "list of 00": lambda items: listed(items, b"\x00"),
    "list of 81 00": lambda items: listed(items, b"\x81\x00"),
    "list of a1 60 00": lambda items: listed(items, b"\xa1\x60\x00"),
    "list of texts of a byte": lambda items: listed(items, b"\x61a"),
    "list of links of eight bytes": lambda items: listed(items, LINK),
    "map": digits,
    "byte string": string,
}


def program(section):
    path, library = built("dagcbor_tool"), heap_counter(section.folder)
    if library is None:
        return
    section.tell(f"{'call':40} {'items':>9} {'bytes':>9} {'ns an item':>11} {'heap, as a factor':>18}")
    for command in ("check", "links"):
        for name, block_of in BLOCKS.items():
            for items in SIZES:
                block = block_of(items)
                answer, took = answered([path, command], block.hex().encode() + b"\n", library)
                if answer.startswith(b"refused"):
                    sys.exit(f"bench/program.py: {command} answered {answer[:80]}")
                cells = f"{items:9} {len(block):9} {took.processor * 1e9 / items:11.0f} {took.heap / len(block):18.2f}"
                section.tell(f"{command + ', ' + name:40} {cells}")


measure({"program.py": program})
