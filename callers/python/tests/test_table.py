"""The answers over the vectors of all codecs, over examples of the standard, and over random blocks."""

import os
import random
import time

import pytest
from conformance import SOUND, VARIANTS, block_of, load
from dagcbor import DagCborError, check, dumps, links, loads, name
from plain import links_in, mutated, random_value, same, spelling

KINDS = ["null", "bool", "integer", "string", "bytes", "list", "map", "link"]


def told(call, block):
    """Returns what it answers, or the name of the refusal."""
    try:
        return call(block)
    except DagCborError as refusal:
        return refusal.kind


def place_told(call, block):
    with pytest.raises(DagCborError) as caught:
        call(block)
    return caught.value.place


def place_by_fronts(block):
    """The length of the shortest front that is refused for more than its end, less one."""
    answers = (told(check, block[: at + 1]) for at in range(len(block)))
    places = (at for at, answer in enumerate(answers) if answer not in ("Eof", *KINDS))
    return next(places, len(block))


def test_vectors():
    vectors = list(load())
    for vector in vectors:
        block, wanted = block_of(vector), vector.get("kind") or VARIANTS[vector["cause"]]
        given = [block, bytearray(block), memoryview(block), memoryview(b"\0" + block)[1:]]
        for it in given if len(block) < 99 else given[:1]:
            assert told(check, it) == wanted, vector["id"]
            if vector["verdict"] == "ok":
                assert list(map(str, links(it))) == vector["links"] and str(name(it)) == vector["cid"]
                assert spelling(loads(it)) == block == dumps(loads(it))
            else:
                assert told(loads, it) == wanted, vector["id"]
                assert place_told(loads, it) == place_told(check, it) == vector["at"], vector["id"]
                # What comes after the first item is not looked at for its links.
                of_item = links(block[: vector["at"]]) if wanted == "TrailingData" else wanted
                assert told(links, it) == of_item, vector["id"]
    assert len(vectors) > 1000


@pytest.mark.parametrize("digits, value", SOUND.items())
def test_an_example_of_the_standard(digits, value):
    block = bytes.fromhex(digits)
    assert same(loads(block), value) and dumps(value) == block


def test_random_round():
    seed = int(os.environ.get("DAGCBOR_SEED", time.time_ns()))
    rng, end = random.Random(seed), time.monotonic() + float(os.environ.get("DAGCBOR_SECONDS", 3))
    tried = refused = 0
    # At least this many, however slow the machine is.
    while time.monotonic() < end or tried <= 100 or refused <= 50:
        value = random_value(rng)
        block = spelling(value)
        assert dumps(value) == block, seed
        assert same(loads(block), value) and links(block) == links_in(value), seed
        bad = mutated(rng, block)
        answer = told(lambda it: [loads(it)], bad)
        if isinstance(answer, list):
            assert spelling(answer[0]) == bad == dumps(answer[0]) and check(bad), seed
        else:
            assert told(check, bad) == answer, seed
            assert len(bad) > 1000 or place_told(loads, bad) == place_by_fronts(bad), seed
            refused += 1
        tried += 1
