"""Lets each allocation of each call fail, and then all from each on.

An answer is right, or there is no memory."""

import hashlib
import io
import os
import sys

from dagcbor import CID, DagCborError, _native, check, check_car, dumps, links, loads, loads_first
from dagcbor import from_json, name, read_car, read_commit, record_proof, to_json, verify, write_car
from dagcbor.atproto import read_event, verify_event
from plain import same
from conformance import cars
from cars import header, section
from cars import name as cid

sys.path.append(os.path.join(os.path.dirname(os.path.realpath(__file__)), "../../../conformance"))

import events

try:
    from _testcapi import remove_mem_hooks, set_nomemory
except ImportError:
    print("this Python lets no allocation fail: it has no _testcapi")
    sys.exit(77)

CIDS = [name(bytes([it])) for it in range(60)]
VALUE = {
    "a" * i: [i, -i, 2**64 - 1 - i, -(2**64) + i, "é" * i, b"x" * i, None, CIDS[i], {"k": [i]}]
    for i in range(60)
}
BLOCK = dumps(VALUE)
BLOCK_NAME = name(BLOCK)
BAD = [VALUE, {"a": [2**64]}]
TEXT = str(CIDS[0])
JSON = to_json(BLOCK)
FILE = header(cid(b"\xf6")) + section(BLOCK) + section(dumps(CIDS[:50]))
MISSING = sorted({CIDS[0], *CIDS, CID(cid(b"\xf6"))})
VERDICTS = {"ok list": 1, "ok map": 1}
FRAME = next(row[1] for row in events.frames_of(1) if row[4] == "ok")
# Keys, and numbers, each a record.
RECORDS = {f"app.bsky.feed.post/{n}": n for n in range(20)}


def repository():
    """A file of a commit, its tree, and its records."""
    tree = events.whole({key.encode(): events.record(n) for key, n in RECORDS.items()})
    commit = events.commit_of(events.name(tree))
    made = {events.record(n): events.enc({"n": n}) for n in RECORDS.values()}
    blocks = {events.cid(commit): commit, **events.nodes(tree, {}), **made}
    return events.car(events.cid(commit), list(blocks.items()))


REPOSITORY = repository()


def read(file):
    return [(bytes(it.cid), it.block, it.verdict) for it in read_car(io.BytesIO(file))]


def checked(file, sha256=None):
    found = check_car(io.BytesIO(file), sha256=sha256)
    return [found.verdicts, found.missing, [bytes(it) for it in found.held]]


def hashed(file):
    return checked(file, hashlib.sha256)


def refused(file):
    """Not by a `raise`: with no memory for it, Python 3.11 may say SystemError."""
    _, verdicts, _, _, error = _native.check_car(file, None)
    return [error.kind, error.place, verdicts]


def written(blocks):
    file = io.BytesIO()
    write_car(file, [CID(cid(b"\xf6"))], blocks)
    return file.getvalue()


def replaced(value):
    return dumps(value, default=list)


def of_parts(given):
    return CID.of(given.codec, given.hash_code, given.digest)


def verified(block):
    return verify(BLOCK_NAME, block)


def followed(frame):
    event, rest = read_event(frame)
    commit = verify_event(event)
    return [event.seq, rest, commit.did, commit.commit, commit.signed, [list(it) for it in commit.changes]]


def proved(file):
    commit = read_commit(file)
    return [commit.cid, commit.did, commit.signed, record_proof(file, "app.bsky.feed.post/7")]


CALLS = [
    (read, FILE, [(cid(it), it, verdict) for it, verdict in (
        (BLOCK, "ok map"), (dumps(CIDS[:50]), "ok list"))]),
    (checked, FILE, [VERDICTS, MISSING, [cid(BLOCK), cid(dumps(CIDS[:50]))]]),
    (hashed, FILE, [VERDICTS, MISSING, [cid(BLOCK), cid(dumps(CIDS[:50]))]]),
    (refused, FILE + b"\0", ["InvalidCid", len(FILE), VERDICTS]),
    (written, {name(BLOCK): BLOCK, name(dumps(CIDS[:50])): dumps(CIDS[:50])}, FILE),
    (dumps, VALUE, BLOCK), (loads, BLOCK, VALUE), (loads, bytearray(BLOCK), VALUE),
    (links, BLOCK, CIDS), (check, BLOCK, "map"), (to_json, BLOCK, JSON), (from_json, JSON, BLOCK),
    (name, BLOCK, name(BLOCK)), (CID, TEXT, CIDS[0]), (CID, bytes(CIDS[0]), CIDS[0]),
    (str, CIDS[0], TEXT), (repr, CIDS[0], f"CID('{TEXT}')"),
    (dumps, BAD, "CastOverflow"), (loads, BLOCK[:-1], "Eof"), (check, b"\x18\x17", "NonMinimal"),
    (dumps, [1.5], "Unsupported"), (CID, b"", "InvalidCid"),
    (loads_first, BLOCK + b"\xf6", (VALUE, len(BLOCK))), (replaced, [(1, {2})], dumps([[1, [2]]])),
    (of_parts, CIDS[0], CIDS[0]), (verified, BLOCK, True), (followed, FRAME, followed(FRAME)),
    (proved, REPOSITORY, proved(REPOSITORY)),
]


def answer(call, given, first, last):
    set_nomemory(first, last)
    try:
        return call(given)
    except MemoryError:
        return MemoryError
    except DagCborError as refusal:
        return refusal.kind
    finally:
        remove_mem_hooks()


failed = 0
for call, given, wanted in CALLS:
    for ends in (1, 0):  # one allocation, or all from there on
        # Up to the first that is not reached, and some after it: for big calls one in a few.
        first, unreached = 0, 0
        while unreached < 3:
            found = answer(call, given, first, first + 1 if ends else 0)
            assert found is MemoryError or same(found, wanted), (call, first, found)
            failed += found is MemoryError
            unreached = 0 if found is MemoryError else unreached + 1
            first += 1
print(f"{failed} failed for memory")
