#!/usr/bin/env python3
"""Speed of a path in a block, compared with reading the whole block: the library's calls, and the package for Python.

    bench/paths.py [RUNS] [page]

The block is a list of 10,000 records, and the path leads to a number in the one in the middle. RUNS is 9 if none is given.
bench/measuring.py says the rest."""

from measuring import built, in_python, measure, put, seconds_of_calls
from blocks import PERSON, listed

PATH = "5000/year_of_birth"  # as crates/dagcbor_bench has it
CALLS = ["find_slice", "check_slice", "from_slice::<Ipld>"]
BLOCK = listed(10_000, PERSON)


def paths(section):
    program = built("dagcbor_bench")
    seconds = seconds_of_calls(section.runs, [(program, call) for call in CALLS], 20, BLOCK)
    section.measured("nanoseconds of processor time, ")
    section.table("10,000 records", CALLS, {PATH: [1e9 * it for it in seconds]}, [(0, 1), (0, 2)])
    rows = in_python(section.folder, "paths.py", section.runs, put(f"{section.folder}/block", BLOCK), PATH)
    section.table("Python", ["find", "loads, and indexing"], {PATH: rows[0]}, [(0, 1)])


measure({"paths.py": paths})
