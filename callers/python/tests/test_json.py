"""DAG-JSON both ways, over the vectors of all codecs, and over random data beside a second writer."""

import os
import random
import sys
import time

import pytest
from conformance import block_of, dagjson, load
from dagcbor import CID, DagCborError, dumps, from_json, loads, to_json
from plain import random_value

sys.path.append(os.path.join(os.path.dirname(os.path.realpath(__file__)), "../../../conformance"))

from judge import judge


def refusal(call, given):
    with pytest.raises(DagCborError) as caught:
        call(given)
    return caught.value


def test_texts():
    rows = list(load(["dag-json"]))
    assert rows
    for vector in rows:
        text = block_of(vector)
        if vector["verdict"] == "ok":
            block = bytes.fromhex(vector["block"])
            assert from_json(text) == from_json(text.decode()) == block, vector["id"]
            assert to_json(block) == vector["written"], vector["id"]
        else:
            error = refusal(from_json, text)
            assert error.kind == dagjson.VARIANTS[vector["cause"]], vector["id"]
            assert 0 <= error.place <= len(text), vector["id"]


def test_blocks():
    for vector in load():
        if "tokens" not in vector:
            continue
        block = block_of(vector)
        if vector["verdict"] != "ok":
            error, wanted = refusal(to_json, block), refusal(loads, block)
            assert (error.kind, error.place) == (wanted.kind, wanted.place), vector["id"]
        elif dagjson.has_reserved_key(judge(block)):
            assert refusal(to_json, block).kind == "ReservedKey", vector["id"]
        else:
            assert to_json(block) == vector["dag_json"], vector["id"]


def test_random_data():
    seed = time.time_ns()
    drawn = random.Random(seed)
    for _ in range(300):
        block = dumps(random_value(drawn))
        data = judge(block)
        text = dagjson.to_json(data)
        if not dagjson.has_reserved_key(data):
            assert to_json(block) == text and from_json(text) == block, seed


def test_places():
    for text, kind, place in (
        ('{"a": [1, 1.5]}', "Float", 10),
        (b'"\xc3\xa9\xff"', "NoText", 3),
        ("[1,]", "NoJson", 3),
        ('"\ud800"', "NoText", 1),
        ("1 2", "TrailingData", 2),
    ):
        error = refusal(from_json, text)
        assert (error.kind, error.place) == (kind, place), text
    error = refusal(to_json, b"\x82\x00\x18\x17")
    assert (error.kind, error.place) == ("NonMinimal", 3)
    assert refusal(to_json, dumps({"a": [{"/": "b"}]})).kind == "ReservedKey"


def test_other_buffers():
    block = dumps({"b": b"\0", "a": CID("bafkqaaa")})
    text = '{"a":{"/":"bafkqaaa"},"b":{"/":{"bytes":"AA"}}}'
    assert to_json(bytearray(block)) == to_json(memoryview(block)) == text
    assert from_json(bytearray(text.encode())) == from_json(memoryview(text.encode())) == block
    long = dumps(["\x1f" * 100_000, b"x" * 100_000])  # six bytes of a text for each of the first
    assert from_json(to_json(long)) == long
    for call in (to_json, from_json):
        with pytest.raises(TypeError):
            call(None)
    with pytest.raises(TypeError):
        to_json("f6")
