#!/usr/bin/env python3
"""Compares the cost of a hostile input with that of an honest one of the same bytes: processor seconds, at some sizes.

    bench/hostile.py            prints the table of all cases
    bench/hostile.py CASE..     prints that of these: roots, trees
    bench/hostile.py --program PATH ..    measures this build of the program, not the one in crates/

A case makes a hostile input of some size, and an honest one of as many bytes. The program is the
one that `rt run` built (`./dagstore`): each run is a process with a store of its own. The least
processor time of three runs counts. A run of more than a minute of processor time is ended, and shown as `-`."""

import os
import random
import resource
import signal
import subprocess
import sys
import tempfile

from measuring import ROOT, measure, put, used
import signed_trees as made
from car_bytes import cid, counted, header, section, spelled

RUNS = 3
LIMIT = 60


def block_of(number, size):
    """A byte string of about this many bytes that begins with the number."""
    return spelled(2, number.to_bytes(8, "little") + bytes(max(0, size - 11)))


def honest_file(size, block=41):
    """A file of one root and of blocks of about as many bytes as a link has, of exactly `size` bytes."""
    first = block_of(0, block)
    out = [counted(header(cid(first))), section(first)]
    left, number = size - sum(map(len, out)), 1
    while left > 2 * block + 200:
        out.append(section(block_of(number, block)))
        left -= len(out[-1])
        number += 1
    fitting = (section(block_of(number, less - 40)) for less in range(left, 60, -1))
    return b"".join(out) + next(it for n, it in enumerate(fitting) if len(it) <= left - n)


def roots(count):
    """A file that is a header with many roots, all different."""
    draw = random.Random(count)
    hostile = counted(header(*(b"\x01\x71\x12\x20" + draw.randbytes(32) for _ in range(count))))
    return hostile, honest_file(len(hostile))


def keys_of(count):
    return [f"com.example.record/{number:08d}".encode() for number in range(count)]


def trees(count):
    """A repository whose root has many keys, each over one chain of 127 nodes without keys; and an honest one."""
    chain = made.Node(None, [])
    for _ in range(126):
        chain = made.Node(chain, [])
    chain.name = lambda name=chain.name(): name
    keys = keys_of(count)
    rows = [made.Row(made.shared_front(before, key), key, made.record(key), chain) for before, key in zip([b"", *keys], keys)]
    root = made.Node(None, rows)
    hostile = made.file_of(made.commit(root.name()), [root, *chain.all()])
    return hostile, honest_tree(len(hostile))


def honest_tree(size):
    """A repository of as many records as fit into this many bytes, without the blocks of records, and one block that fills it up."""
    def made_of(count):
        tree = made.tree_of({key: cid(b"%d" % number) for number, key in enumerate(keys_of(count))})
        return made.file_of(made.commit(tree.name()), tree.all())

    low, high = 0, size // 80
    while high - low > 1:
        middle = (low + high) // 2
        low, high = (middle, high) if len(made_of(middle)) + 100 <= size else (low, middle)
    file = made_of(low)
    fillings = (section(block_of(0, size - len(file) - less)) for less in range(36, 60))
    return file + next(it for it in fillings if len(file) + len(it) == size)


# the program, the words after it (the store's file takes the place of {}), the input, and sizes
CASES = {
    "roots": ("dagstore", ["{}", "import"], roots, (1000, 2000, 4000)),
    "trees": ("dagcar", ["records"], trees, (80, 300, 1000)),
}


def limit():
    resource.setrlimit(resource.RLIMIT_CPU, (LIMIT, LIMIT))


def least(program, words, given):
    """The least processor seconds of some runs, each with a new folder for the store's file; None if a run took too long."""
    # 1 is a refusal
    how = {"statuses": (0, 1, -signal.SIGKILL, -signal.SIGXCPU), "stderr": subprocess.DEVNULL, "preexec_fn": limit}
    took = []
    for _ in range(RUNS):
        with tempfile.TemporaryDirectory() as folder:
            words_there = [program, *(word.replace("{}", f"{folder}/store.db") for word in words)]
            took.append(used(words_there, put(f"{folder}/input", given), **how).processor)
        if took[-1] > LIMIT - 1:
            return None
    return min(took)


def cases(section):
    words, chosen = section.words, None
    if words[:1] == ["--program"]:
        chosen, words = words[1], words[2:]
    unknown = [word for word in words if word not in CASES]
    if unknown:
        sys.exit(f"no case: {' '.join(unknown)}; there are: {' '.join(CASES)}")
    section.head("Case", "Size", "KB", "Hostile, s", "Honest, s", "Times")
    for case in words or CASES:
        crate, given, make, sizes = CASES[case]
        program = chosen or f"{ROOT}/crates/{crate}/out/{crate}"
        if not os.access(program, os.X_OK):
            sys.exit(f"{case}: {program} is not built: run ./{crate} first, or name a build with --program")
        for size in sizes:
            both = make(size)
            bad, good = (least(program, given, it) for it in both)
            cells = ["-" if it is None else f"{it:.2f}" for it in (bad, good)] + [f"{bad / good:.1f}" if bad and good else "-"]
            section.row(case, f"{size:,}", f"{len(both[0]) / 1000:,.0f}", *cells)


measure({"hostile.py": cases})
