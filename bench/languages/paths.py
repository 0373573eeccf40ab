"""Nanoseconds of a path in the block of a file, the least of RUNS: paths.py RUNS FILE PATH

Prints `find` of ours, and `loads` with the keys and indices of the path behind it."""

import sys
from functools import reduce

from dagcbor import find, loads
from least import least

with open(sys.argv[2], "rb") as file:
    block = file.read()
path = sys.argv[3]
keys = [int(it) if it.isdecimal() else it for it in path.split("/")]
indexed = lambda block: reduce(lambda data, key: data[key], keys, loads(block))
assert find(block, path) == indexed(block)
print(*least([(lambda it: find(it, path), block), (indexed, block)], int(sys.argv[1])))
