"""Random blocks by the grammar, and damaged ones: each a vector that the judge judges."""

import random
import struct

import vectors
from grammar import EDGES, V0, link, wide
from judge import Link, head, spell

LETTERS = ("abcdefgh", "a\0é水𐅑\ud7ff\ue000\U0010ffff", "0123456789", "/_$")


def text(rng):
    letters = rng.choice(LETTERS)
    return "".join(rng.choice(letters) for _ in range(rng.choice((0, 1, 1, 2, 2, 3, 8, 23, 24, 40))))


def integer(rng):
    number = rng.choice(EDGES) if rng.random() < 0.3 else rng.getrandbits(rng.choice((4, 8, 16, 32, 53, 64)))
    return number if rng.random() < 0.6 else -1 - number


def cid(rng):
    codec, length = rng.choice((b"\x71", b"\x55", b"\x80\x02")), rng.choice((0, 4, 20, 32, 64))
    return Link(V0 if rng.random() < 0.2 else b"\x01" + codec + b"\x12" + bytes([length]) + rng.randbytes(length))


def real(rng):
    """A float that is finite."""
    number = rng.choice((0.0, -0.0, 1.0, 1.5, -1.0, 0.1, 5e-324, 2.0**53, 1.7e308))
    return number if rng.random() < 0.5 else struct.unpack(">d", rng.randbytes(1) + b"\x3f" + rng.randbytes(6))[0]


def data(rng, floats=False, levels=4):
    kind = rng.randrange(9 if levels else 6)
    if floats and rng.random() < 0.2:
        return real(rng)
    if kind < 6:
        leaves = (lambda: rng.choice((None, False, True)), integer, text, cid, lambda rng: rng.randbytes(rng.randrange(30)), integer)
        return leaves[kind]() if kind == 0 else leaves[kind](rng)
    count = rng.choice((0, 1, 2, 3, 5))
    if kind == 6:
        return [data(rng, floats, levels - 1) for _ in range(count)]
    return {text(rng): data(rng, floats, levels - 1) for _ in range(count)}


def any_head(rng, major, argument, fault):
    """The shortest head; or a longer one, if there is to be a fault."""
    if rng.random() < fault:
        return wide(major, argument, rng.choice([it for it in (1, 2, 4, 8) if argument < 256**it]))
    return head(major, argument)


def misspelled(rng, it, fault):
    """The data as CBOR, each part with this chance of a fault that DAG-CBOR forbids, or RFC 8949 too."""
    if rng.random() < fault / 3:
        return rng.choice((b"\xf7", b"\xf9\x3c\x00", b"\xfb\x3f\xf8" + bytes(6), b"\xc1\x00", b"\xff", b"\x1c", b"\xf8\x20", b"\x9f\xff"))
    if isinstance(it, Link):
        form = b"\xd8\x2b" if rng.random() < fault else b"\xd8\x2a"
        return link((b"" if rng.random() < fault else b"\0") + it, form)
    if isinstance(it, (str, bytes)):
        major, payload = (3, it.encode()) if isinstance(it, str) else (2, it)
        return any_head(rng, major, len(payload), fault) + payload
    if isinstance(it, list):
        return any_head(rng, 4, len(it), fault) + b"".join(misspelled(rng, part, fault) for part in it)
    if isinstance(it, dict):
        keys = sorted(it, key=lambda key: spell(key))
        if keys and rng.random() < fault:
            rng.choice((rng.shuffle, lambda them: them.append(them[0])))(keys)
        parts = (misspelled(rng, key, fault / 2) + misspelled(rng, it[key], fault) for key in keys)
        return any_head(rng, 5, len(keys), fault) + b"".join(parts)
    if type(it) is int:
        return any_head(rng, 0 if it >= 0 else 1, it if it >= 0 else -1 - it, fault)
    return spell(it)


def damaged(rng, block):
    """A byte changed, put in or left out, or the end."""
    block, at = bytearray(block), rng.randrange(len(block))
    how = rng.randrange(5)
    if how < 2:
        block[at] ^= 1 << rng.randrange(8)
    elif how == 2:
        block.insert(at, rng.randrange(256))
    elif how == 3:
        del block[at]
    else:
        del block[at:]
    return bytes(block)


def random_vectors(count, seed, floats=False):
    """This many blocks: a third sound, a third misspelled, a third damaged, if the judge finds so."""
    rng = random.Random(seed)
    for number in range(count):
        it = data(rng, floats)
        block = (spell(it), misspelled(rng, it, 0.25), damaged(rng, damaged(rng, spell(it)) or b"\0"))[number % 3]
        yield vector(f"random/{seed}-{number}", block)


def vector(name, block):
    return {"id": name, "group": "random", **vectors.packed(block), **vectors.expected(block)}
