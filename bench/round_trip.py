#!/usr/bin/env python3
"""Sends random data through `dagcar make` and `dagcar show`, and back.

    bench/round_trip.py [COUNT]    sends COUNT trees, 10,000 if no number is given

conformance/ writes the block (DAG-CBOR) of each tree and the text that `show` must say (DAG-JSON), apart from the crates. This
script writes another text of the same data: with spaces, with escapes, its keys in any order. `make` must give the block for both
texts, and `show` the text for the block. The seeds are fixed. The last line is 'N passed, N failed', and the status is 0 if and
only if none failed. It needs the program built (`./dagcar one </dev/null`)."""

import random
import subprocess
import sys
from concurrent.futures import ThreadPoolExecutor

from measuring import ROOT
import cidtexts
from dagjson import to_json, unpadded
from judge import Link, spell

PROGRAM = f"{ROOT}/crates/dagcar/out/dagcar"
SHORT = {'"': '\\"', "\\": "\\\\", "\b": "\\b", "\t": "\\t", "\n": "\\n", "\f": "\\f", "\r": "\\r"}


def cid_text(rng, name):
    """A CID in any base; one of version 0 in its only base."""
    texts = ("b" + cidtexts.base32(name), "B" + cidtexts.base32(name).upper(), "f" + name.hex(), "z" + cidtexts.base58(name))
    chosen = rng.choice(texts)
    return cidtexts.written(name) if name[:1] == b"\x12" else chosen


def spaced(rng, *parts):
    """The parts, with spaces around each."""
    spaces = lambda: "".join(rng.choice(" \t\n\r") for _ in range(rng.choice((0, 0, 0, 1, 2))))
    return spaces() + "".join(part + spaces() for part in parts)


def escaped(rng, text):
    """A text with some characters as escapes, in large or small letters."""
    out = ""
    for it in text:
        units = it.encode("utf-16-be")
        pairs = "".join("\\u" + rng.choice((units[i : i + 2].hex(), units[i : i + 2].hex().upper())) for i in range(0, len(units), 2))
        kinds = [pairs] + ([SHORT[it]] if it in SHORT else []) + ["\\/"] * (it == "/") + [it] * 3 * (it >= " " and it not in '"\\')
        out += rng.choice(kinds)
    return '"' + out + '"'


def loose(rng, data):
    """Another text of the data."""
    if isinstance(data, str):
        return spaced(rng, escaped(rng, data))
    if isinstance(data, Link):
        return loose_map(rng, [("/", spaced(rng, escaped(rng, cid_text(rng, data))))])
    if isinstance(data, bytes):
        return loose_map(rng, [("/", loose_map(rng, [("bytes", spaced(rng, escaped(rng, unpadded(data))))]))])
    if isinstance(data, list):
        return spaced(rng, "[", *[part for it in data for part in (",", loose(rng, it))][1:], "]")
    if isinstance(data, dict):
        return loose_map(rng, [(key, loose(rng, data[key])) for key in rng.sample(list(data), len(data))])
    return spaced(rng, "-0" if data == 0 and data is not False and rng.random() < 0.5 else to_json(data))


def loose_map(rng, entries):
    """A map of these keys, and texts of values."""
    parts = [part for key, text in entries for part in (",", escaped(rng, key), ":", text)]
    return spaced(rng, "{", *parts[1:], "}")


def random_text(rng):
    ranges = ((0, 31), (32, 126), (34, 34), (92, 92), (47, 47), (127, 2047), (2048, 0xD7FF), (0xE000, 0xFFFF), (0x10000, 0x10FFFF))
    return "".join(chr(rng.randint(*rng.choice(ranges))) for _ in range(rng.choice((0, 1, 2, 5, 20))))


def random_link(rng):
    digest = rng.randbytes(32)
    if rng.random() < 0.3:
        return Link(b"\x12\x20" + digest)
    return Link(rng.choice((b"\x01\x71\x12\x20" + digest, b"\x01\x55\x12\x20" + digest, b"\x01\x71\x00" + bytes([5]) + digest[:5])))


def random_data(rng, depth):
    kind = rng.randrange(9 if depth else 7)
    if kind < 2:
        edge = rng.choice((0, 23, 24, 255, 256, 65535, 65536, (1 << 32) - 1, 1 << 32, (1 << 64) - 1))
        return rng.choice((edge, -1 - edge, rng.randint(-(1 << 64), (1 << 64) - 1)))
    if kind == 2:
        return rng.choice((None, False, True))
    if kind in (3, 4):
        return random_text(rng)
    if kind == 5:
        return rng.randbytes(rng.choice((0, 1, 2, 3, 30)))
    if kind == 6:
        return random_link(rng)
    count = rng.choice((0, 1, 2, 3, 8))
    if kind == 7:
        return [random_data(rng, depth - 1) for _ in range(count)]
    keys = (random_text(rng) for _ in range(count))
    return {key: random_data(rng, depth - 1) for key in keys if key != "/"}


def run(word, given):
    ran = subprocess.run([PROGRAM, word], input=given, capture_output=True, timeout=60, check=False)
    return ran.returncode, ran.stdout, ran.stderr


def goes_around(seed):
    """Returns None if the data of the seed passes, or else what went wrong."""
    rng = random.Random(seed)
    data = random_data(rng, rng.choice((0, 1, 2, 4)))
    block, text, other = spell(data), (to_json(data) + "\n").encode(), loose(rng, data).encode()
    for word, given, wanted in (("make", other, block), ("show", block, text), ("make", text, block)):
        found = run(word, given)
        if found != (0, wanted, b""):
            return f"seed {seed}, {word}: {given[:200]!r} gives {found!r:.400}"
    return None


def main():
    count = int(sys.argv[1]) if len(sys.argv) > 1 else 10_000
    with ThreadPoolExecutor(4) as pool:
        wrong = [it for it in pool.map(goes_around, range(count)) if it]
    for it in wrong[:5]:
        print(it)
    print(f"{count - len(wrong)} passed, {len(wrong)} failed")
    return 1 if wrong else 0


if __name__ == "__main__":
    sys.exit(main())
