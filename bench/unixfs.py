#!/usr/bin/env python3
"""Speed and memory of `dagcar cat` and `ls` over files of IPFS, compared with `dagcar verify`, which hashes the same blocks.

    bench/unixfs.py [RUNS] [PROGRAM] [page]

It prints a row for a file of 100 MB, and for files and directories that are made to be costly, at two sizes each: the processor
time, and the peak of the process's memory. RUNS is 5 if none is given. bench/measuring.py says the rest."""

import os
import subprocess
import sys

from measuring import ROOT, least, measure, used

sys.path.insert(0, f"{ROOT}/faults")

import dagpb
import unixfs
from car_bytes import file_of, text_of

CHUNK, LINKS = 262_144, 174


def put(blocks, block, name=unixfs.leaf_name):
    blocks[name(block)] = block
    return name(block)


def node(blocks, links, *message):
    """A node whose links, with names, texts and sizes, stand as they are given."""
    tags = dagpb.HASH, dagpb.NAME, dagpb.TSIZE
    messages = (b"".join(map(dagpb.field, tags, link)) for link in links)
    block = b"".join(dagpb.field(dagpb.LINKS, it) for it in messages) + dagpb.field(dagpb.DATA, unixfs.spelled(*message))
    return put(blocks, block, unixfs.node_name)


def file(blocks, parts):
    """A file of these parts, each with a name and a size, and its size."""
    sizes = [size for _, size in parts]
    return node(blocks, [(name, b"", size) for name, size in parts], unixfs.FILE, None, sum(sizes), sizes), sum(sizes)


def large(blocks, size):
    """A balanced file of random bytes."""
    level = [(put(blocks, os.urandom(min(CHUNK, size - at))), min(CHUNK, size - at)) for at in range(0, size, CHUNK)]
    while len(level) > 1:
        level = [file(blocks, level[at : at + LINKS]) for at in range(0, len(level), LINKS)]
    return level[0][0]


def wide(blocks, count):
    """A file of this many links to one leaf of a byte."""
    return file(blocks, [(put(blocks, b"x"), 1)] * count)[0]


def chain(blocks, count):
    """A file of this many nodes, one below the other, above a leaf of a byte."""
    name = put(blocks, b"x")
    for _ in range(count):
        name, _ = file(blocks, [(name, 1)])
    return name


def fan(blocks, count):
    """A file of this many links to a chain of 250 nodes, which ends in a byte."""
    return file(blocks, [(chain(blocks, 250), 1)] * count)[0]


def listed(blocks, count, content=b"x"):
    """A directory of this many entries, which all are one leaf."""
    leaf = put(blocks, content)
    return node(blocks, [(leaf, b"%07d" % at, len(content)) for at in range(count)], unixfs.DIRECTORY)


def one_block(blocks, count):
    return listed(blocks, count, bytes(1_000_000))


CASES = [
    ("a file of so many bytes, in leaves of 256 KB", "cat", large, [10_000_000, 100_000_000]),
    ("a file of so many links to one byte", "cat", wide, [100_000, 1_000_000]),
    ("a file of so many links to 250 nodes above a byte", "cat", fan, [1_000, 10_000]),
    ("so many nodes above a byte, refused", "cat", chain, [100_000, 1_000_000]),
    ("a directory of so many entries", "ls", listed, [100_000, 1_000_000]),
    ("a directory of so many entries, all one leaf of 1 MB", "ls", one_block, [10_000, 100_000]),
]


def make(case, size, path):
    """Writes the CAR file, and prints its root."""
    blocks = {}
    root = CASES[case][2](blocks, size)
    with open(path, "wb") as out:
        out.write(file_of([root], blocks))
    print(text_of(root))


def files(section):
    program, path = section.dagcar(), f"{section.folder}/file.car"
    section.measured()
    section.head("Input", "size", "MB", "word", "s of the processor", "s of `verify`", "memory, MB")
    for case, (name, word, _, sizes) in enumerate(CASES):
        for size in sizes:
            # A process of its own makes the file, because a child begins with the memory of its parent.
            made = [sys.executable, os.path.abspath(__file__), "--make", str(case), str(size), path]
            root = subprocess.run(made, stdout=subprocess.PIPE, text=True, check=True).stdout.strip()
            runner = lambda *words: lambda: used([program, *words], path, statuses=(0, 1), stderr=subprocess.DEVNULL)
            ours, verify = least(section.runs, runner(word, root), runner("verify"))
            taken = f"{ours.processor:.2f}", f"{verify.processor:.2f}", f"{ours.memory / 1000:.3g}"
            section.row(name, f"{size:,}", f"{os.path.getsize(path) / 1e6:.3g}", f"`{word}`", *taken)


if sys.argv[1:2] == ["--make"]:
    make(int(sys.argv[2]), int(sys.argv[3]), sys.argv[4])
else:
    measure({"unixfs.py": files}, runs=5)
