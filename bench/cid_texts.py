#!/usr/bin/env python3
"""Speed of the texts of CIDs through the package for Python, compared with Python's own base32: bench/cid_texts.py [RUNS] [page]

RUNS is 9 if none is given. Python's `base64` knows nothing about CIDs: it writes large letters and padding, and judges no CID.
bench/measuring.py says the rest."""

from measuring import in_python, measure

DIGEST = bytes(range(7, 7 + 64))
CIDS = {
    "version 1, SHA-256, 36 bytes: base32": b"\x01\x71\x12\x20" + DIGEST[:32],
    "version 1, 64 bytes of digest: base32": b"\x01\x71\x13\x40" + DIGEST,
    "version 0, 34 bytes: base58btc": b"\x12\x20" + DIGEST[:32],
}


def texts(section):
    rows = in_python(section.folder, "texts.py", section.runs, *(it.hex() for it in CIDS.values()))
    section.measured("nanoseconds of processor time, ")
    section.table("Python", ["str(cid)", "CID(text)", "b32encode", "b32decode"], dict(zip(CIDS, rows)), [(0, 2), (1, 3)])


measure({"cid_texts.py": texts})
