"""Frames of a host's stream, good and faulty, as conformance/events.py makes and judges them."""

import dataclasses
import io
import os
import sys

import pytest
from dagcbor import CID, DagCborError, atproto, dumps, loads, read_car
from dagcbor.atproto import Change, EventError, Known, read_event, read_events, verify_event

sys.path.append(os.path.join(os.path.dirname(os.path.realpath(__file__)), "../../../conformance"))

import events

KINDS = {
    "big": {"TooBig"}, "rebase": {"Rebase"}, "after": {"NotAfter"}, "known": {"OtherRoot"}, "form": {"OtherForm"}, "car": {"NoCar"},
    "root": {"OtherCommit"}, "commit": {"NoCommit"}, "repository": {"OtherRepository"}, "revision": {"OtherRevision"},
    "before": {"LeadsElsewhere"}, "missing": {"MissingNode"}, "bytes": {"OtherBytes"}, "state": {"OtherState"},
    "shape": {"OtherTree", "NoNode", "KeyLength"},
}
ROWS = events.frames_of(1) + events.frames_of(2)
GOOD = [row for row in ROWS if row[4] == "ok"]
TIME = "2026-01-01T00:00:00Z"


def link(cid):
    return CID(bytes(cid)) if cid else None


def frame_of(kind, **body):
    return dumps({"op": 1, "t": kind}) + dumps(body)


def wanted(frame, known, rev):
    """What is verified, by the reference."""
    body = events.dec(frame, events.dec(frame)[1])[0]
    commit = events.verify(body, known, rev)
    return {
        "did": commit["did"],
        "rev": commit["rev"],
        "data": link(commit["data"]),
        "prev": None,
        "before": link(body.get("prevData") or known),
        "commit": link(body["commit"]),
        "sig": commit["sig"],
        "signed": events.enc({key: it for key, it in commit.items() if key != "sig"}),
        "changes": tuple(Change(op["path"], link(op.get("prev")), link(op["cid"])) for op in body["ops"]),
    }


def told(verified):
    return {it.name: getattr(verified, it.name) for it in dataclasses.fields(verified)}


@pytest.mark.parametrize("what, frame, known, rev, verdict", ROWS, ids=[row[0] for row in ROWS])
def test_frames_are_judged(what, frame, known, rev, verdict):
    held = Known(link(known), rev)
    if verdict == "ok":
        verified = verify_event(frame, held)
        assert told(verified) == wanted(frame, known, rev)
        assert verified.known == Known(verified.data, verified.rev)
        return
    with pytest.raises(EventError) as error:
        verify_event(frame, held)
    word, *node = verdict.split()
    assert error.value.kind in KINDS[word]
    assert error.value.node == (CID(bytes.fromhex(node[0])) if node else None)


@pytest.mark.parametrize("what, frame, known, rev, verdict", GOOD, ids=[row[0] for row in GOOD])
def test_what_is_known(what, frame, known, rev, verdict):
    event, rest = read_event(frame)
    assert rest == b"" and event.frame == frame
    if event.prev_data:
        assert told(verify_event(event)) == wanted(frame, None, None)
    else:
        with pytest.raises(EventError) as error:
            verify_event(event)
        assert error.value.kind == "NoRoot"
    verified = verify_event(memoryview(frame), Known(link(known), rev))
    for other, kind in [(Known(verified.data, rev), "OtherRoot"), (Known(link(known), event.rev), "NotAfter")]:
        if other.rev == event.rev or event.prev_data:
            with pytest.raises(EventError) as error:
                verify_event(frame, other)
            assert error.value.kind == kind
    for other in (Known(b"\x01\x71", rev), Known(link(known), "\ud800")):
        with pytest.raises(EventError) as error:
            verify_event(frame, other)
        assert error.value.kind == "NoKnown"


def test_a_commit_as_it_is_told():
    event, rest = read_event(bytearray(GOOD[3][1] + b"\xf6"))
    body = events.dec(GOOD[3][1], events.dec(GOOD[3][1])[1])[0]
    assert rest == b"\xf6" and isinstance(event, atproto.CommitEvent)
    assert (event.seq, event.repo, event.rev, event.since, event.time) == (7, "did:plc:abc", "3kabcdefghi22", None, TIME)
    assert (event.too_big, event.rebase, event.blobs) == (False, False, ())
    assert (event.commit, event.prev_data) == (link(body["commit"]), link(body["prevData"]))
    assert [it._asdict() for it in event.ops] == [
        {"action": op["action"], "path": op["path"], "cid": link(op["cid"]), "prev": link(op.get("prev"))} for op in body["ops"]
    ]
    assert event.blocks == body["blocks"] and read_car(event.blocks).roots == [event.commit]
    with pytest.raises(dataclasses.FrozenInstanceError):
        event.seq = 8


OTHERS = [
    (frame_of("#sync", seq=1, did="did:plc:abc", rev="3k", blocks=b"\1\2", time=TIME), atproto.SyncEvent,
     {"seq": 1, "did": "did:plc:abc", "rev": "3k", "blocks": b"\1\2", "time": TIME}),
    (frame_of("#identity", seq=2, did="did:plc:abc", time=TIME), atproto.IdentityEvent,
     {"seq": 2, "did": "did:plc:abc", "handle": None, "time": TIME}),
    (frame_of("#identity", seq=2, did="did:plc:abc", time=TIME, handle="a.example"), atproto.IdentityEvent,
     {"seq": 2, "did": "did:plc:abc", "handle": "a.example", "time": TIME}),
    (frame_of("#account", seq=3, did="did:plc:abc", time=TIME, active=False, status="takendown"), atproto.AccountEvent,
     {"seq": 3, "did": "did:plc:abc", "active": False, "status": "takendown", "time": TIME}),
    (frame_of("#info", name="OutdatedCursor"), atproto.InfoEvent, {"name": "OutdatedCursor", "message": None}),
    (dumps({"op": -1}) + dumps({"error": "FutureCursor", "message": "no"}), atproto.StreamError,
     {"error": "FutureCursor", "message": "no"}),
    (frame_of("#new", it=[1]), atproto.OtherEvent, {"name": "#new", "body": {"it": [1]}}),
]


@pytest.mark.parametrize("frame, kind, fields", OTHERS)
def test_other_kinds(frame, kind, fields):
    event, rest = read_event(frame + b"\0")
    assert type(event) is kind and rest == b"\0"
    assert told(event) == {**fields, "frame": frame}
    with pytest.raises(EventError) as error:
        verify_event(frame)
    assert error.value.kind == "NoCommitFrame"


@pytest.mark.parametrize("frame, kind", [
    (b"", "NoEnd"), (b"\xa0", "NoEnd"), (GOOD[0][1][:-1], "NoEnd"), (b"\xf6\xf6", "NoHeader"), (dumps({"t": "#info"}) + b"\xf6", "NoHeader"),
    (dumps({"op": 2}) + b"\xf6", "OtherOperation"), (dumps({"op": 1}) + b"\xf6", "NoKind"),
    (dumps({"op": 1, "t": "#info"}) + b"\xf6", "NoBody"), (dumps({"op": 1, "t": "#commit"}) + dumps({"seq": 1}), "NoBody"),
    (dumps({"op": 1, "t": "#new"}) + b"\xa1\x01\x01", "NoBody"),
])
def test_what_is_no_frame(frame, kind):
    for call in (read_event, verify_event):
        with pytest.raises(DagCborError) as error:
            call(frame)
        assert type(error.value) is EventError and error.value.kind == kind and error.value.node is None
        assert str(error.value) != "no reason is known"


class Short:
    """Gives a byte, then two and so on."""

    def __init__(self, file):
        self.file, self.count = io.BytesIO(file), 0

    def read(self, most):
        self.count = min(self.count + 1, most)
        return self.file.read(self.count)


def test_streams(tmp_path):
    frames = [row[1] for row in ROWS] + [row[0] for row in OTHERS] + [frame_of("#new", long=bytes(1 << 20))]
    stream = b"".join(frames)
    (tmp_path / "frames").write_bytes(stream)
    with open(tmp_path / "frames", "rb") as file:
        for source in (stream, bytearray(stream), io.BytesIO(stream), Short(stream), file):
            assert [it.frame for it in read_events(source)] == frames
    assert list(read_events(b"")) == list(read_events(io.BytesIO())) == []
    for source in (stream[:-1], io.BytesIO(stream[:-1])):
        found = []
        with pytest.raises(EventError, match="not two items"):
            found.extend(it.frame for it in read_events(source))
    read = read_events(io.BytesIO(frames[0] + b"\xf6\xf6" + frames[1]))
    assert next(read).frame == frames[0]
    with pytest.raises(EventError) as error:
        next(read)
    assert error.value.kind == "NoHeader"
    for other in ("text", 5, None):
        for call in (read_event, verify_event, lambda it: next(read_events(it))):
            with pytest.raises(TypeError):
                call(other)


class Waiting:
    """Gives these pieces; None says that there are no bytes yet."""

    def __init__(self, *pieces):
        self.pieces = iter(pieces)

    def read(self, most):
        return next(self.pieces)


def test_a_file_that_has_no_bytes_yet():
    """It is not at its end, and is not taken to be."""
    one, other = GOOD[0][1], GOOD[1][1]
    for pieces, frames in [
        ([None], []), ([one, None, None], [one]), ([one, other[:9], None, None], [one]), ([one, other, None], [one, other]),
    ]:
        found = []
        with pytest.raises(BlockingIOError):
            found.extend(it.frame for it in read_events(Waiting(*pieces)))
        assert found == frames


def test_a_frame_comes_once_it_is_there():
    """Whoever sends may wait for an answer before sending more, or say nothing for hours."""
    frames = [GOOD[0][1], GOOD[5][1], GOOD[1][1]]
    source, sink = os.pipe()
    with open(source, "rb") as file:
        events = read_events(file)
        for frame in frames:
            for half in (frame[:9], frame[9:]):
                os.write(sink, half)
            assert next(events).frame == frame
        os.set_blocking(source, False)
        with pytest.raises(BlockingIOError):
            next(events)
    os.close(sink)


@pytest.mark.parametrize("byte", range(0, len(GOOD[5][1]), 7))
def test_a_byte_that_is_another(byte):
    """It is refused, or nothing that is verified is another."""
    what, frame, known, rev, _ = GOOD[5]
    damaged = frame[:byte] + bytes([frame[byte] ^ 1]) + frame[byte + 1:]
    try:
        verified = verify_event(damaged, Known(link(known), rev))
    except EventError:
        return
    assert told(verified) == wanted(frame, known, rev)


def test_headers_beside_others():
    """Keys of a header and of a body that are not asked for are let be."""
    frame = dumps({"op": 1, "t": "#info", "z": 1}) + dumps({"name": "a", "more": [1]})
    try:
        event, _ = read_event(frame)
    except EventError as error:
        assert error.kind in ("NoHeader", "NoBody")
    else:
        assert event.name == "a" and loads(frame[len(dumps({"op": 1, "t": "#info", "z": 1})):])["more"] == [1]
