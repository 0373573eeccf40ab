"""What those who come from other packages are used to."""

import array
import collections
import ctypes
import hashlib
import io
import os
import pickle
import tomllib

import dagcbor
import pytest
from dagcbor import CID, DagCborError, check, dump, dumps, iter_loads, load, loads, loads_first, name
from dagcbor import verify, write_car


def refusal(call, *args, **named):
    with pytest.raises(DagCborError) as caught:
        call(*args, **named)
    return caught.value


Point = collections.namedtuple("Point", "x y")


def test_tuples_are_lists():
    assert dumps((1, (), [(2,)])) == dumps([1, [], [[2]]]) == bytes.fromhex("83018081 8102")
    assert loads(dumps(Point(1, "a"))) == [1, "a"]
    deep = None
    for _ in range(127):
        deep = (deep,)
    assert len(dumps(deep)) == 128
    for value in ((deep,), [deep]):
        error = refusal(dumps, value)
        assert error.kind == "DepthOverflow" and error.place == (0,) * 127


def test_default():
    assert dumps([{3}, {"a": 1j}], default=lambda it: [str(it)]) == dumps([["{3}"], {"a": ["1j"]}])
    assert dumps(1.5, default=str) == dumps("1.5") and dumps(1, default=None) == dumps(1)
    # What it gives may want it again; what it gives for ever does not end well.
    assert dumps({1}, default=lambda it: list(it) if isinstance(it, set) else {2}) == dumps([1])
    with pytest.raises(RecursionError):
        dumps(1.5, default=lambda it: it)
    with pytest.raises(ZeroDivisionError):
        dumps([1.5], default=lambda it: 1 / 0)
    assert refusal(dumps, [1.5], default=lambda it: {1: 2}).place == (0,)
    for wrong in [{"other": 1}, {"default": 1}]:
        with pytest.raises(TypeError):
            dumps([1.5], **wrong)
    with pytest.raises(TypeError):
        dumps([1.5], str)


def test_items_one_behind_the_other():
    items = [{"op": 1, "t": "#commit"}, list(range(1000)), None, "hi", 2**64 - 1, {}]
    stream = b"".join(map(dumps, items))
    assert list(iter_loads(stream)) == list(iter_loads(bytearray(stream))) == items
    assert loads_first(stream) == (items[0], len(dumps(items[0])))
    place = len(dumps(items[0]))
    assert loads_first(stream, place)[0] == loads_first(stream, start=place)[0] == items[1]
    assert list(iter_loads(b"")) == [] and refusal(loads_first, b"").kind == "Eof"
    error = refusal(list, iter_loads(stream + b"\x18\x17"))
    assert (error.kind, error.place) == ("NonMinimal", len(stream) + 1)
    error = refusal(loads_first, stream, len(stream))
    assert (error.kind, error.place) == ("Eof", len(stream))
    for start in (-1, len(stream) + 1):
        with pytest.raises(IndexError):
            loads_first(stream, start)


def test_parts_of_a_cid():
    cid = name(b"\xf6")
    assert (cid.version, cid.codec, cid.hash_code) == (1, 0x71, 0x12)
    assert cid.digest == hashlib.sha256(b"\xf6").digest()
    old = CID("QmdfTbBqBPQ7VNxZEYEj14VmRuZBkqFbiwReogJgS1zR1n")
    assert (old.version, old.codec, old.hash_code) == (0, 0x70, 0x12)
    assert bytes(old)[2:] == old.digest == hashlib.sha256(b"").digest()
    for codec, code, digest in [(0x55, 0, b""), (2**64 - 1, 2**63, b"x" * 64), (300, 127, b"a" * 63)]:
        cid = CID.of(codec, code, digest)
        assert (cid.version, cid.codec, cid.hash_code, cid.digest) == (1, codec, code, digest)
        assert CID(str(cid)) == CID(bytes(cid)) == cid
    for length in (65, 127, 128, 1000):
        assert refusal(CID.of, 0x71, 0x12, b"a" * length).kind == "InvalidCid"
    for wrong in [(2**64, 0, b""), (0, 2**64, b""), (-1, 0, b"")]:
        with pytest.raises(OverflowError):
            CID.of(*wrong)
    for wrong in [("raw", 0, b""), (0, 0, "a"), (0, 0)]:
        with pytest.raises(TypeError):
            CID.of(*wrong)


class Foreign:
    """As the CID of `multiformats`."""

    version, codec, hashfun = 1, "raw", "identity"

    def __init__(self, binary):
        self.binary = binary

    def __bytes__(self):
        return self.binary


def test_cids_of_others():
    cid = name(b"\xf6")
    assert dumps({"a": Foreign(bytes(cid))}) == dumps({"a": cid}) and CID(Foreign(bytes(cid))) == cid
    assert dumps(Foreign(bytes(cid)), default=str) == dumps(cid)
    error = refusal(dumps, [Foreign(b"\0")])
    assert (error.kind, error.place) == ("InvalidCid", (0,))
    assert refusal(CID, Foreign(b"")).kind == "InvalidCid"
    assert CID(cid) is cid
    with pytest.raises(TypeError):
        dumps(Foreign("text"))


def test_verify():
    block = dumps({"a": 1})
    assert verify(name(block), block) and verify(name(block), bytearray(block))
    assert not verify(name(block), block + b"\0") and verify(name(b"\xff"), b"\xff")
    assert verify(CID.of(0x55, 0, b"abc"), b"abc") and not verify(CID.of(0x55, 0, b"abc"), b"ab")
    assert refusal(verify, CID.of(0x71, 0x1E, b"a" * 32), block).kind == "NotVerified"
    with pytest.raises(TypeError):
        verify(str(name(block)), block)


def test_buffers():
    """Those of bytes are bytes; of others `default` says what they are."""
    for it in (bytearray(b"abc"), memoryview(b"abc"), memoryview(array.array("B", b"abc"))):
        assert dumps(it) == dumps(b"abc")
    for it in (array.array("B", b"abc"), pickle.PickleBuffer(b"abc"), (ctypes.c_uint8 * 3)(*b"abc")):
        assert refusal(dumps, it).kind == "Unsupported"
        assert dumps([it], default=memoryview) == dumps([b"abc"])
    assert check(array.array("B", b"\x01")) == "integer"


def test_version():
    with open(os.path.join(os.path.dirname(__file__), "../pyproject.toml"), "rb") as file:
        assert dagcbor.__version__ == tomllib.load(file)["project"]["version"]


def test_foreign_cids_are_taken_where_a_cid_is():
    block = dumps({"a": 1})
    cid, own, foreign = name(block), io.BytesIO(), io.BytesIO()
    assert verify(Foreign(bytes(cid)), block) and not verify(Foreign(bytes(cid)), b"\xf6")
    write_car(own, [cid], {cid: block})
    write_car(foreign, [Foreign(bytes(cid))], [(Foreign(bytes(cid)), block)])
    assert own.getvalue() == foreign.getvalue()
    for wrong in (str(cid), bytes(cid), 7, None):
        with pytest.raises(TypeError):
            verify(wrong, block)
        with pytest.raises(TypeError):
            write_car(io.BytesIO(), [wrong], {})


def test_files_of_one_block(tmp_path):
    value = {"a": [1, "hi", b"\0"], "of": name(b"\xf6")}
    with open(tmp_path / "block", "wb") as file:
        dump(value, file)
    assert (tmp_path / "block").read_bytes() == dumps(value)
    with open(tmp_path / "block", "rb") as file:
        assert load(file) == value
        assert refusal(load, file).kind == "Eof"  # the file is at its end
    assert load(io.BytesIO(dumps("x" * 1_000_000))) == "x" * 1_000_000
    none = io.BytesIO()
    assert refusal(dump, [1.5], none).place == (0,) and none.getvalue() == b""
    dump({1}, none, default=list)
    assert none.getvalue() == dumps([1])
