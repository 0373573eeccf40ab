#!/usr/bin/env python3
"""Prints frames and repositories as JSON, and what is to be read of them: by conformance/events.py
and faults/signed_trees.py, which share nothing with what is proved. Bytes are in hexadecimal, and a
CID is a map of its own.

    atproto_cases.py frames          frames, what is known, the verdict, and what is verified
    atproto_cases.py repositories    files, and what is read of them, or what a line says of them"""

import json
import os
import random
import sys

ROOT = os.path.join(os.path.dirname(os.path.realpath(__file__)), "../../..")
sys.dont_write_bytecode = True
sys.path[:0] = [f"{ROOT}/faults", f"{ROOT}/conformance"]

import events
from car_bytes import link, missing_line, section
from repositories import DAMAGES, WORDS, over, way_to
from signed_trees import Pool, commit, file_of, named, record, spelled, tree_of

FIELDS = ("seq", "repo", "rev", "since", "tooBig", "rebase", "time")
KEY = b"app.bsky.feed.post/self"


def told(cid):
    return None if cid is None else {"cid": bytes(cid).hex()}


def body_of(frame):
    return events.dec(frame, events.dec(frame)[1])[0]


def event_of(frame):
    """What is told of the frame of a commit."""
    body = body_of(frame)
    names = {key: told(body.get(key)) for key in ("commit", "prevData")}
    ops = [{**op, "cid": told(op["cid"]), "prev": told(op.get("prev"))} for op in body["ops"]]
    more = {"blobs": [told(it) for it in body["blobs"]], "blocks": body["blocks"].hex()}
    return {**{key: body[key] for key in FIELDS}, **names, **more, "ops": ops}


def verified(frame, known, rev):
    body = body_of(frame)
    made = events.verify(body, known, rev)
    return {
        "did": made["did"],
        "rev": made["rev"],
        "data": told(made["data"]),
        "prev": told(made["prev"]),
        "sig": made["sig"].hex(),
        "before": told(body.get("prevData") or known),
        "commit": told(body["commit"]),
        "signed": events.enc({key: it for key, it in made.items() if key != "sig"}).hex(),
        "changes": [
            {"key": op["path"], "old": told(op.get("prev")), "new": told(op["cid"])}
            for op in body["ops"]
        ],
        "known": {"root": told(made["data"]), "rev": made["rev"]},
    }


def frames():
    for what, frame, known, rev, verdict in events.frames_of(1) + events.frames_of(2):
        row = {"what": what, "frame": frame.hex(), "root": known.hex(), "rev": rev}
        found = verified(frame, known, rev) if verdict == "ok" else None
        yield {**row, "verdict": verdict, "event": event_of(frame), "verified": found}


def commit_of(tree, changed):
    """What is read of a commit over the tree, but for fields that are changed."""
    return {
        "cid": told(named(commit(tree.name(), **changed))),
        "did": "did:plc:abc",
        "rev": "3jzfcijpj2z2a",
        "data": told(tree.name()),
        "prev": None,
        "sig": bytes(range(64)).hex(),
        "signed": commit(tree.name(), **{**changed, "sig": None}).hex(),
    }


def sound(what, records, key, fields=None, more=b"", **changed):
    """A whole repository, and the file that decides which record the key has, or that none is."""
    tree = tree_of(records)
    way = file_of(commit(tree.name(), **changed), way_to(tree, key))
    return {
        "what": what,
        "file": (over(tree, **changed) + more).hex(),
        "commit": {**commit_of(tree, changed), **(fields or {})},
        "records": [[name.hex(), told(records[name])] for name in sorted(records)],
        "key": key.hex(),
        "proof": (way + more).hex(),
    }


def odd():
    """Keys that are no text, and some that are."""
    keys = [b"\xff/a", b"\x80", b"\0", *(it.encode() for it in ("\u00e9/\u00fc", "\U0001f600"))]
    return {key: record(key) for key in keys}


def repositories():
    rng = random.Random(20261130)
    pool = Pool(rng)
    before, did, here = record(b"before"), "did:web:\u00e9", spelled(2, b"here")
    yield sound("no records", {}, b"a")
    yield sound("keys that are no text", odd(), b"\xfe")
    many = {b"a" * 1000 + f"/{n:05}".encode(): record(b"1") for n in range(500)}
    yield sound("an answer that is longer than the file", many, b"b" * 2000)
    changed = {"prev": link(before), "sig": spelled(2, b""), "did": spelled(3, did.encode())}
    fields = {"prev": told(before), "sig": "", "did": did}
    yield sound("other fields", pool.take(rng), b"b", fields, **changed)
    records = {**pool.take(rng), KEY: record(b"here")}
    yield sound("a record that is there", records, KEY, more=section(here))
    said, file = missing_line(record(b"here")), over(tree_of(records)).hex()
    yield {"what": "a record that is not there", "file": file, "key": KEY.hex(), "said": said}
    for number in range(40):
        yield sound(f"random, {number}", pool.take(rng), rng.randbytes(5))
    for damage in DAMAGES:
        file, wanted = damage(rng, pool)
        yield {"what": damage.__name__, "file": file.hex(), "said": WORDS.get(wanted, wanted)}


print(json.dumps(list({"frames": frames, "repositories": repositories}[sys.argv[1]]())))
