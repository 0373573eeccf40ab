#!/usr/bin/env python3
"""Repositories of signed records: the time of `dagcar records`, compared with SHA-256 of the same bytes, and with a Python.

    bench/signed_records.py [RUNS] [PROGRAM] [page]

The repository has 100,000 records of 300 bytes. RUNS is 5 if none is given. bench/measuring.py says the rest."""

import os
import random

from measuring import LANGUAGES, PYTHON, heap_counter, least, measure, python_package, ratio, used
from blocks import put_string
import signed_trees as made

RECORDS, SIZE = 100_000, 300


def put(path, count):
    """Makes the file of a repository of this many records, each a block of bytes."""
    rng = random.Random(7)
    blocks = {f"app.bsky.feed.post/3k{number:09x}".encode(): made.spelled(2, rng.randbytes(SIZE)) for number in range(count)}
    nodes = []
    root = spell(made.tree_of({key: made.named(block) for key, block in blocks.items()}), nodes)
    block = made.commit(root)
    with open(path, "wb") as file:
        file.write(made.counted(made.header(made.named(block))))
        file.writelines(map(made.section, [block, *nodes, *blocks.values()]))


def spell(node, out):
    """Appends the blocks of the node and of those below it, each once, and returns its name."""
    for it in node.below():
        it.name = lambda name=spell(it, out): name
    out.append(node.block())
    return made.named(out[-1])


def times(section, program, given):
    """Processor time of each word, and of others, in turn."""
    put(given, RECORDS)
    string, env = put_string(f"{section.folder}/string", given), python_package(section.folder)
    python = [PYTHON, f"{LANGUAGES}/signed_records.py"]
    rows = {
        "SHA-256 of the toolchain over the same bytes: `dagcar name`": lambda: used([program, "name"], string),
        "`dagcar records`": lambda: used([program, "records"], given),
        "`dagcar verify`": lambda: used([program, "verify"], given),
        "Python: `loads` of each node, dicts, and the tree made anew": lambda: used(python, given, env=env),
    }
    size = os.path.getsize(given) / 1e6
    section.head(f"{RECORDS:,} records of {SIZE} bytes, a file of {size:.0f} MB", "s", "user alone, s", "by SHA-256 alone")
    took = least(section.runs, *rows.values())
    for name, it in zip(rows, took):
        section.row(name, f"{it.processor:.3g}", f"{it.user:.3g}", ratio(it.user, took[0].user))


def repositories(section):
    program, given = section.dagcar(), f"{section.folder}/repo.car"
    section.measured("processor time, ")
    times(section, program, given)
    library = heap_counter(section.folder)
    if library:
        section.head("Records", "heap of `dagcar records` at its peak, MB", "a record, bytes")
        for count in (1_000, 10_000, RECORDS):
            put(given, count)
            most = used([program, "records"], given, library=library).heap
            section.row(f"{count:,}", f"{most / 1e6:.1f}", f"{most / count:,.0f}")


measure({"signed_records.py": repositories}, runs=5)
