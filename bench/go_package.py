#!/usr/bin/env python3
"""Speed of the package for Go, compared with Debian's golang-github-fxamacker-cbor-dev: bench/go_package.py [RUNS] [page]

RUNS is 9 if none is given. DAGCBOR_LIBRARY may name another libdagcbor_ffi.a. bench/measuring.py says the rest."""

import sys

from measuring import ffi, in_go, measure, printed

NAMES = ["a struct, 66 bytes", "1,000 of these", "4,744 integers of 3 bytes", "a map of 1,000 keys"]
NAMES += ["a post, 293 bytes", "10,000 integers", "2,000 texts in Cyrillic"]
CALLS = ["Marshal", "Unmarshal", "into any"]


def package(section):
    program = in_go(section.folder, "languages/package", ffi())
    if program is None:
        sys.exit(1)
    rows = printed(program, section.runs)
    section.measured("nanoseconds of processor time, ")
    section.table("Go", CALLS + [f"cbor's {call}" for call in CALLS], dict(zip(NAMES, rows)), [(0, 3), (1, 4), (2, 5)])


measure({"go_package.py": package})
