"""Where paths lead over links, beside a walk over the data of the blocks in Python."""

import hashlib
import pickle

import pytest
from dagcbor import CID, DagCborError, MissingBlock, dumps, name, resolve

LEAF = {"b": "hi", "list": [1, [2, None]], "": 3}
RAW = b"raw bytes"
RAW_NAME = CID.of(0x55, 0x12, hashlib.sha256(RAW).digest())
INSIDE = CID.of(0x71, 0x00, dumps({"kept": "in the name"}))
MIDDLE = {"leaf": name(dumps(LEAF)), "none": name(b"none is held"), "raw": RAW_NAME, "in": INSIDE}
ROOT = {"links": [name(dumps(MIDDLE)), name(dumps(LEAF))], "a": {"b": True}}
ONLY = name(dumps(MIDDLE))  # a block that is a link
BLOCKS = {name(dumps(it)): dumps(it) for it in (LEAF, MIDDLE, ROOT, ONLY)} | {RAW_NAME: RAW}
DATA = {name(dumps(it)): it for it in (LEAF, MIDDLE, ROOT, ONLY)} | {INSIDE: {"kept": "in the name"}}
PATHS = [
    "", "/", "a", "a/b", "a/b/c", "links", "links/0", "links/0/", "links/0/leaf", "links/0/leaf/b", "links/0/leaf/list/1/0",
    "links/1/b", "links/1/list/1/1", "links/1/list/2", "links/1/c", "links/2", "links/00", "links/0/none", "links/0/in/kept",
    "links/0/in/lost", "//links//0//leaf//b//", "links/0/raw", "links/1/b/c", "x" * 1_000_000, "links/" + "9" * 5000,
]


def walked(root, path):
    """The data to which the path leads, or a KeyError."""
    data, segments = DATA[root], [it for it in path.split("/") if it]
    while segments:
        if isinstance(data, CID):
            data = DATA[data]
        elif isinstance(data, dict) and segments[0] in data:
            data = data[segments.pop(0)]
        elif isinstance(data, list) and segments[0] in map(str, range(len(data))):
            data = data[int(segments.pop(0))]
        else:
            raise KeyError
    return data


@pytest.mark.parametrize("get", [BLOCKS, BLOCKS.get], ids=["a mapping", "a call"])
@pytest.mark.parametrize("path", PATHS, ids=lambda it: it[:30])
def test_a_path(get, path):
    try:
        wanted = walked(name(dumps(ROOT)), path)
    except KeyError:
        with pytest.raises(KeyError):
            resolve(get, name(dumps(ROOT)), path)
    else:
        assert resolve(get, name(dumps(ROOT)), path) == wanted


@pytest.mark.parametrize("path", PATHS, ids=lambda it: it[:30])
def test_its_segments(path):
    segments = [it for it in path.split("/") if it]
    try:
        wanted = walked(name(dumps(ROOT)), path)
    except KeyError:
        with pytest.raises(KeyError):
            resolve(BLOCKS, name(dumps(ROOT)), segments)
    else:
        assert resolve(BLOCKS, name(dumps(ROOT)), segments) == wanted


def test_segments_over_links():
    """Keys that no text reaches, before a link and after it."""
    held = {"": {"/": "found"}, "c/d": [name(dumps(LEAF))]}
    root = {"a/b": [name(dumps(held))], "": name(dumps(LEAF))}
    blocks = BLOCKS | {name(dumps(it)): dumps(it) for it in (held, root)}
    rows = [
        ((), root), (("a/b",), root["a/b"]), (("a/b", "0"), name(dumps(held))), (("a/b", "0", ""), {"/": "found"}),
        (("a/b", "0", "", "/"), "found"), (("a/b", "0", "c/d", "0", "list", "1", "0"), 2), (("", ""), 3), (("", "b"), "hi"),
    ]
    for segments, wanted in rows:
        assert resolve(blocks, name(dumps(root)), list(segments)) == wanted
        assert resolve(blocks.get, name(dumps(root)), segments) == wanted
    for segments, end, left in [
        (["a/b", "0", "/", ""], held, ["/", ""]), (["a", "b", "0"], root, ["a", "b", "0"]), (["", "b", ""], LEAF, [""]),
        (["a/b", "", "0"], root, ["", "0"]), (["a/b", "0", "", "", "/"], held, ["", "/"]),
    ]:
        with pytest.raises(KeyError) as none:
            resolve(blocks, name(dumps(root)), segments)
        assert none.value.args == (name(dumps(end)), left)
    with pytest.raises(MissingBlock) as missing:
        resolve(blocks, name(dumps(ROOT)), ["links", "0", "none", ""])
    assert missing.value.cid == MIDDLE["none"]
    with pytest.raises(DagCborError) as refused:
        resolve(blocks | {name(dumps(held)): dumps(1)}, name(dumps(root)), ["a/b", "0", ""])
    assert refused.value.kind == "OtherBytes"


def test_a_block_that_is_a_link():
    assert resolve(BLOCKS, name(dumps(ONLY)), "leaf/b") == "hi"
    assert resolve(BLOCKS, name(dumps(ONLY)), ["leaf", "b"]) == "hi"
    assert resolve(BLOCKS, name(dumps(ONLY)), "") == ONLY


def test_nothing_names_the_block_and_what_is_left():
    with pytest.raises(KeyError) as none:
        resolve(BLOCKS, name(dumps(ROOT)), "links/0/leaf/list/7/x")
    assert none.value.args == (name(dumps(LEAF)), "7/x")


def test_a_missing_block_is_no_absence():
    with pytest.raises(MissingBlock) as missing:
        resolve(BLOCKS, name(dumps(ROOT)), "links/0/none/x")
    assert missing.value.cid == MIDDLE["none"] and not isinstance(missing.value, KeyError)
    other = pickle.loads(pickle.dumps(missing.value))
    assert str(other) == str(missing.value) == f"no block is held under {other.cid}" and other.cid == missing.value.cid
    with pytest.raises(MissingBlock):
        resolve({}, name(dumps(ROOT)), "")


def test_bytes_that_are_not_the_block():
    for block, kind in [(dumps(1), "OtherBytes"), (dumps(LEAF) + b"\0", "OtherBytes")]:
        with pytest.raises(DagCborError) as refused:
            resolve(BLOCKS | {name(dumps(LEAF)): block}, name(dumps(ROOT)), "links/1/b")
        assert refused.value.kind == kind
    with pytest.raises(DagCborError) as refused:
        resolve(BLOCKS, name(dumps(ROOT)), "links/0/raw/x")
    assert refused.value.kind == "NotRead"
    other = CID.of(0x71, 0x1B, bytes(32))
    with pytest.raises(DagCborError) as refused:
        resolve({other: b"\0"}, other, "x")
    assert refused.value.kind == "NotVerified"
    long = CID.of(0x71, 0x12, hashlib.sha256(b"\x18\x17").digest())
    with pytest.raises(DagCborError) as refused:
        resolve({long: b"\x18\x17"}, long, "x")
    assert (refused.value.kind, refused.value.place) == ("NonMinimal", 1)


def test_other_arguments():
    with pytest.raises(TypeError):
        resolve(BLOCKS, name(dumps(ROOT)), 0)
    with pytest.raises(TypeError):
        resolve(None, name(dumps(ROOT)), "a")
    with pytest.raises(UnicodeEncodeError):
        resolve(BLOCKS, name(dumps(ROOT)), "\ud800")


@pytest.mark.parametrize("path", ["a", ["a"]])
def test_bytes_that_are_written_meanwhile(path):
    """What is verified is what is read, even if another thread writes the buffer after the verdict."""
    good, evil = dumps({"a": "good"}), dumps({"a": "evil"})
    held = bytearray(good)

    class Writing:
        hash_code, codec = 0x12, 0x71

        def __ne__(self, other):
            held[:] = evil
            return bool(other != name(good))

    assert resolve(lambda _: held, Writing(), path) == "good"
