"""Nanoseconds of each call for the block of each file, the least of RUNS: calls.py RUNS FILE..

Prints `loads` and `dumps` of ours, those of cbor2's accelerator (0 where it is not there), and
those of json for the same data (0 where it has no such data), one line for each file."""

import json
import sys

import dagcbor
from least import least

try:
    import _cbor2 as cbor2
except ImportError:
    cbor2 = None


def measure(block, runs):
    value = dagcbor.loads(block)
    calls = [(dagcbor.loads, block), (dagcbor.dumps, value)]
    if cbor2:
        calls += [(cbor2.loads, block), (cbor2.dumps, cbor2.loads(block))]
    try:
        calls += [(json.loads, json.dumps(value)), (json.dumps, value)]
    except TypeError:
        pass
    found = least(calls, runs)
    if not cbor2:
        found[2:2] = [0, 0]
    return found + [0] * (6 - len(found))


for path in sys.argv[2:]:
    with open(path, "rb") as file:
        print(*measure(file.read(), int(sys.argv[1])))
