"""Nanoseconds of each call about the text of a CID, the least of RUNS: texts.py RUNS HEX..

Prints `str(cid)` and `CID(text)` of ours, and `b32encode` and `b32decode` of Python's base64 for the
same bytes, one line for each CID."""

import base64
import sys

from dagcbor import CID
from least import least

for given in sys.argv[2:]:
    binary = bytes.fromhex(given)
    cid, padded = CID(binary), base64.b32encode(binary)
    text = "b" + padded.decode().rstrip("=").lower()
    assert binary[0] != 1 or (CID(text), str(cid)) == (cid, text)
    calls = [(str, cid), (CID, str(cid)), (base64.b32encode, binary), (base64.b32decode, padded)]
    print(*least(calls, int(sys.argv[1])))
