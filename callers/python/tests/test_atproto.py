"""JSON of the AT Protocol. The examples are those of the protocol's data model, and cases by hand."""

import json

import pytest
from dagcbor import CID, DagCborError, atproto, dumps, loads

LINK = "bafyreidfayvfuwqa7qlnopdjiqrxzs6blmoeu4rujcjtnci5beludirz2a"

CASES = [
    ({"$link": LINK}, CID(LINK)),
    ({"$bytes": "nFERjvLLiw9qm45JrqH9QTzyC2Lu1Xb4ne6+sBrCzI0"}, bytes.fromhex("9c51118ef2cb8b0f6a9b8e49aea1fd413cf20b62eed576f89deebeb01ac2cc8d")),
    ({"$bytes": ""}, b""),
    ({"$bytes": "AA"}, b"\0"),
    ({"a": [{"$link": LINK}, {"$bytes": "AAE"}, None, True, -1, "\u00e9"]}, {"a": [CID(LINK), b"\0\1", None, True, -1, "\u00e9"]}),
    ({"$type": "blob", "ref": {"$link": LINK}, "size": 1}, {"$type": "blob", "ref": CID(LINK), "size": 1}),
    ({"/": LINK}, {"/": LINK}),  # no link here: DAG-JSON has that key
]


@pytest.mark.parametrize("told, value", CASES)
def test_both_ways(told, value):
    block = dumps(value)
    assert json.loads(atproto.to_json(block)) == told
    assert atproto.from_json(json.dumps(told)) == atproto.from_json(json.dumps(told).encode()) == block
    assert atproto.from_json(atproto.to_json(block)) == block


def test_padding_may_be_there():
    for text in ("AAE", "AAE="):
        assert loads(atproto.from_json(json.dumps({"$bytes": text}))) == b"\0\1"


@pytest.mark.parametrize("text", [
    '{"a":1,"a":2}', '{"$link":"%s","a":1}' % LINK, '{"$bytes":"AA","$link":"%s"}' % LINK, '{"$link":1}',
    '{"$bytes":null}', '{"$bytes":"A"}', '{"$bytes":"AB"}', '{"$bytes":"A-"}', '{"$bytes":"A A"}', "{", "",
    '{"$bytes":"="}', '{"$bytes":"===="}', '{"$bytes":"AA="}', '{"$bytes":"AA==="}', '{"$bytes":"AAEC="}', '{"$bytes":"A==="}',
])
def test_what_is_none(text):
    with pytest.raises(ValueError):
        atproto.from_json(text)


@pytest.mark.parametrize("front, end", [("[", "]"), ('{"a":', "}")])
def test_what_is_nested_too_deep(front, end):
    assert loads(atproto.from_json(front * 127 + "1" + end * 127))
    for levels in (128, 500, 100_000):
        with pytest.raises(ValueError):
            atproto.from_json(front * levels + "1" + end * levels)


def test_refusals_of_the_library():
    for text in ("1.5", '{"a":[1.0]}', '{"$link":"zz"}', "NaN", "18446744073709551616"):
        with pytest.raises(DagCborError):
            atproto.from_json(text)
    with pytest.raises(DagCborError):
        atproto.to_json(b"\x18\x17")


@pytest.mark.parametrize("key", ["$link", "$bytes"])
def test_a_block_that_would_look_like_a_link(key):
    with pytest.raises(ValueError):
        atproto.to_json(dumps([{key: "AA"}]))
