"""Compares what `dagcar event` says of frames with a judge in Python (conformance/events.py): streams, and random events, good and
faulty."""

import collections
import random

import events
import running

# How many random events there are: each is there without a fault, and faulty in each way.
RANDOM_EVENTS = 60

# What the program says, by the judge's word.
TOLD = {
    "big": "the event does not tell all: tooBig",
    "rebase": "the event tells of a rebase",
    "known": "the event has no prevData, and no root is known",
    "form": "an operation lacks a record of its action, or has one more",
    "root": "the first root of the blocks is not the commit",
    "repository": "the commit is of another repository",
    "revision": "the commit is of another revision",
    "state": "the tree has not what an operation leads to",
    "before": "the operations lead from another root",
}


def rows_of_streams(folder):
    """Each stream of the reference."""
    for number, (_, stream, said, told) in enumerate(events.streams_of(1)):
        file = running.put(f"{folder}/{number}.frames", stream)
        yield ["event", file], b"", (int(bool(told)), said.encode(), told.encode())


def is_told(line, verdict):
    """Returns true if the line says what the judge says."""
    word = verdict.split()[0]
    if word in ("missing", "commit"):
        return line.startswith("missing ") and line.endswith(" dag-cbor")
    if word == "bytes":
        return line.endswith(" other bytes")
    return line == TOLD[word]


def random_events(path, folder, count):
    """All frames of this many random events, in one stream; and how many are answered wrongly, by what is so of them."""
    rng = random.Random(20261130)
    rows = [row for number in range(count) for row in events.events_of(rng, f"did:plc:{number}")]
    file = running.put(f"{folder}/random.frames", b"".join(frame for _, frame in rows))
    _, *answer = running.answer([path, "event", file])
    said, told = (it.decode() for it in answer)
    lines = dict(line.split(" at byte ", 1) for line in told.splitlines())
    wrong, at, good = collections.Counter(), 0, ""
    for number, (what, frame) in enumerate(rows, 1):
        verdict = events.judge(frame, None, None)
        line = lines.pop(f"frame {number}", None)
        # In another order the judge may open a node between two trees that neither has, where `event` computes no root.
        if verdict == "ok" or what == "the order turned" and verdict.startswith("missing") and line is None:
            good += events.lines_of(events.dec(frame, events.dec(frame)[1])[0])
            wrong[what] += line is not None
        else:
            wrong[what] += line is None or not line.startswith(f"{at}: ") or not is_told(line.partition(": ")[2], verdict)
        at += len(frame)
    wrong["good"] += said != good or bool(lines)
    return wrong


def small():
    """A stream of three frames, and what the program says of it."""
    for what, stream, said, told in events.streams_of(1):
        if what == "a chain":
            assert not told
            return stream, {"event": (0, said.encode())}
    raise LookupError("a chain")


def sweep(path, folder, report, count=RANDOM_EVENTS):
    running.sweep(report, "events, streams of the reference", path, rows_of_streams(folder))
    for what, wrong in random_events(path, folder, count).items():
        report(f"events, {what}", count, [what] * wrong)
