"""What is refused, and how it is told."""

import copy
import pickle

import pytest
from conformance import block_of, cidtexts, load
from dagcbor import CID, DagCborError, _native, check, dumps, links, loads, name


def refusal(call, *args):
    with pytest.raises(DagCborError) as caught:
        call(*args)
    return caught.value


@pytest.mark.parametrize("block, kind, place", [
    ("1817", "NonMinimal", 1), ("", "Eof", 0), ("8201", "Eof", 2), ("8200f7", "Unsupported", 2),
    ("f600", "TrailingData", 1),
    ("830102030405", "TrailingData", 4), ("62c328", "RequireUtf8", 2),
    ("a2616201616102", "UnorderedKey", 5), ("ff", "IndefiniteSize", 0),
    ("82" + "fb3ff199999999999a" + "00", "Unsupported", 1),
    ("81" * 128 + "80", "DepthOverflow", 127), ("d82a40", "Msg", 2),
])
def test_place_in_bytes(block, kind, place):
    for given in (bytes.fromhex(block), bytearray.fromhex(block)):
        error = refusal(loads, given)
        assert isinstance(error, ValueError) and (error.kind, error.place) == (kind, place)
        assert refusal(check, given).place == place and str(error).endswith(f", at {place}")
    other = pickle.loads(pickle.dumps(error))
    assert (str(other), other.kind, other.place) == (str(error), kind, place)


@pytest.mark.parametrize("value, kind, place, said", [
    (1.5, "Unsupported", (), "float"),
    ([0, {"a": [None, float("nan")]}], "Unsupported", (1, "a", 1), "float"),
    (2**64, "CastOverflow", (), "int"), (-(2**64) - 1, "CastOverflow", (), "int"),
    ([10**400], "CastOverflow", (0,), "int"),
    ({1: 2}, "Mismatch", (), "int"), ({"a": {b"b": 1}}, "Mismatch", ("a",), "bytes"),
    ({None: 1}, "Mismatch", (), "NoneType"),
    ("\ud800", "RequireUtf8", (), "str"), ({"\udfff": 1}, "RequireUtf8", (), "str"),
    ([(1, {2})], "Unsupported", (0, 1), "set"),
    ({"b": 1, "a": {1, 2}}, "Unsupported", ("a",), "set"), (object(), "Unsupported", (), "object"),
    (CID, "Unsupported", (), "type"),
])
def test_place_in_data(value, kind, place, said):
    error = refusal(dumps, value)
    assert (error.kind, error.place) == (kind, place) and str(error).startswith(said + ": ")
    assert str(error).endswith("".join(f"[{it!r}]" for it in place))
    assert pickle.loads(pickle.dumps(error)).place == place


def nested(levels, inner):
    for _ in range(levels):
        inner = [inner] if levels % 2 else {"": inner}
    return inner


@pytest.mark.parametrize("inner", [[], {}, 1])
def test_deep(inner):
    for levels in (126, 127):
        assert loads(dumps(nested(levels, inner))) == nested(levels, inner)
    assert refusal(dumps, nested(128, inner)).kind == "DepthOverflow"
    assert refusal(dumps, nested(100_000, 0)).kind == "DepthOverflow"


def test_order_of_keys():
    assert dumps({"b": 0, "a": 1, "": 2, "aa": 3}) == bytes.fromhex("a460026161016162006261 6103")
    assert list(loads(dumps({"bb": 1, "c": 2}))) == ["c", "bb"]
    rising = {chr(it): it for it in range(1, 301)}
    assert dumps(dict(reversed(rising.items()))) == dumps(rising)


def test_not_buffers():
    for call in (loads, check, links, name):
        for given in ("text", None, 1, [1], memoryview(b"abcd")[::2]):
            with pytest.raises((TypeError, BufferError)):
                call(given)
    with pytest.raises(TypeError):
        loads()
    assert loads(memoryview(b"\x83\x01\x02\x03").cast("B", (2, 2))) == [1, 2, 3]


def test_buffers_as_values():
    buffers = [bytearray(b"ab"), memoryview(b"cd"), memoryview(bytearray())]
    assert dumps(buffers) == bytes.fromhex("8342616242636440")


def test_cid():
    block = b"\xf6"
    cid = name(block)
    assert str(cid).startswith("bafyrei")
    assert CID(str(cid)) == cid == CID(bytes(cid)) == CID(bytearray(bytes(cid)))
    assert repr(cid) == f"CID('{cid}')"
    assert hash(cid) == hash(CID(bytes(cid))) and {cid: 1}[CID(str(cid))] == 1
    assert cid != bytes(cid) and cid != str(cid) and cid <= cid
    assert sorted([cid, name(b"")]) == sorted([name(b""), cid])
    with pytest.raises(TypeError):
        cid < bytes(cid)
    assert pickle.loads(pickle.dumps(cid)) == cid == copy.deepcopy([cid])[0]
    with pytest.raises(AttributeError):
        cid.other = 1
    with pytest.raises(TypeError):
        type("Sub", (CID,), {})
    assert loads(dumps({"a": cid})) == {"a": cid}


def test_cid_texts():
    for vector in load(["cid-texts"]):
        given = block_of(vector).decode()
        if vector["verdict"] == "ok":
            cid = CID(given)
            assert bytes(cid).hex() == vector["cid"] and str(cid) == vector["written"], given
            assert CID(str(cid)) == cid
        else:
            assert refusal(CID, given).kind == cidtexts.VARIANTS[vector["cause"]], given


@pytest.mark.parametrize("given, kind", [
    ("bafy\0", "InvalidCharacter"), ("é" * 20, "UnknownBase"), ("z" * 5000, "TooLong"),
    ("b" + "é" * 200, "TooLong"), ("bé", "InvalidCharacter"),
    (b"", "InvalidCid"), (b"\x01", "InvalidCid"), (b"\0" * 36, "InvalidCid"),
    (b"\x01\x71\x12\x20", "InvalidCid"), (b"\x01" * 300, "InvalidCid"),
    (b"\x12\x20" + b"\0" * 31, "InvalidCid"), (b"\x01\x71\x12\x41" + b"\0" * 65, "InvalidCid"),
])
def test_no_cid(given, kind):
    assert refusal(CID, given).kind == kind


def test_no_cid_argument():
    for args in [(), (1,), (None,), ("a", "b")]:
        with pytest.raises(TypeError):
            CID(*args)
    with pytest.raises(TypeError):
        CID(value=b"")
    with pytest.raises(UnicodeError):
        CID("\ud800")


def test_each_number_that_is_named_has_words():
    # A bad token, no room, no such path, a path that is not UTF-8 and out of memory: no call here gives these.
    unsaid = {-20, -21, -36, -37, -42}
    for code in [9, *range(-60, 0)]:
        error = _native.refusal(code, 5)
        has_words = "no reason is known" not in str(error)
        assert has_words == (error.kind != "none" and code not in unsaid), code
        assert error.place == 5 and _native.refusal(code).place is None
