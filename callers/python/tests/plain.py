"""A writer of blocks in Python alone, written apart from the library, and random data for it."""

import struct

from dagcbor import CID


def head(major, n):
    for width, code in (1, ">B"), (2, ">H"), (4, ">I"):
        if n < 24:
            return bytes([32 * major + n])
        if n < 256**width:
            return bytes([32 * major + 23 + width.bit_length()]) + struct.pack(code, n)
    return bytes([32 * major + 27]) + struct.pack(">Q", n)


def spelling(value):
    """The one block of the data."""
    if value is None or isinstance(value, bool):
        return {None: b"\xf6", False: b"\xf4", True: b"\xf5"}[value]
    if isinstance(value, int):
        return head(0, value) if value >= 0 else head(1, -1 - value)
    if isinstance(value, str):
        return head(3, len(value.encode())) + value.encode()
    if isinstance(value, CID):
        return b"\xd8\x2a" + spelling(b"\0" + bytes(value))
    if isinstance(value, bytes):
        return head(2, len(value)) + value
    if isinstance(value, list):
        return head(4, len(value)) + b"".join(map(spelling, value))
    # Heads of texts rise with their lengths: so the spellings of keys are in the order of keys.
    entries = sorted((spelling(key), spelling(it)) for key, it in value.items())
    return head(5, len(entries)) + b"".join(map(b"".join, entries))


def links_in(value):
    """The links of the data, in the order of its block."""
    if isinstance(value, CID):
        return [value]
    if isinstance(value, dict):
        value = [value[key] for key in sorted(value, key=spelling)]
    return [link for it in value for link in links_in(it)] if isinstance(value, list) else []


def random_integer(rng):
    bits = rng.choice((5, 8, 16, 31, 32, 33, 62, 63, 64))
    number = rng.getrandbits(bits) if rng.random() < 0.8 else min(2**64 - 1, 1 << bits)
    return number if rng.random() < 0.5 else -1 - number


def random_text(rng):
    letters = rng.choice(("abcdefgh", "a\0é水𐅑\ud7ff\ue000\U0010ffff"))
    count = rng.choice((0, 1, 2, 5, 23, 24, 40, 255, 256))
    return "".join(rng.choice(letters) for _ in range(count))


def random_cid(rng):
    if rng.random() < 0.2:
        return CID(b"\x12\x20" + rng.randbytes(32))
    codec, length = rng.choice((b"\x71", b"\x55", b"\x80\x02")), rng.randrange(65)
    return CID(b"\x01" + codec + b"\x12" + bytes([length]) + rng.randbytes(length))


def random_value(rng, levels=5):
    kind = rng.randrange(8 if levels else 6)
    if kind < 2:
        return rng.choice((None, False, True)) if kind == 0 else random_integer(rng)
    if kind == 2:
        return random_text(rng)
    if kind == 3:
        return rng.randbytes(rng.choice((0, 1, 23, 24, 300)))
    if kind == 4:
        return random_cid(rng)
    count = rng.choice((0, 1, 2, 3, 5, 24)) if levels > 3 else rng.randrange(4)
    if kind == 5 or kind == 6:
        return [random_value(rng, levels - 1) for _ in range(count)] if levels else []
    return {random_text(rng): random_value(rng, levels - 1) for _ in range(count)}


def mutated(rng, block):
    """The block with a byte changed, put in, or left out."""
    block, at = bytearray(block), rng.randrange(len(block))
    how = rng.randrange(4)
    if how < 2:
        block[at] ^= 1 << rng.randrange(8)
    elif how == 2:
        block.insert(at, rng.randrange(256))
    else:
        del block[at]
    return bytes(block)


def same(one, other):
    """Equal, and of the same types."""
    if type(one) is not type(other):
        return False
    if isinstance(one, dict):
        return one.keys() == other.keys() and all(same(one[key], other[key]) for key in one)
    if isinstance(one, list):
        return len(one) == len(other) and all(map(same, one, other))
    return one == other
