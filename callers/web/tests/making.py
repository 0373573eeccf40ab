"""Blocks and CAR files, made apart from the library, and the tables that all callers share."""

import hashlib
import os

TABLES = os.path.join(os.path.dirname(os.path.realpath(__file__)), "..", "..", "tables")
ALPHABET = "abcdefghijklmnopqrstuvwxyz234567"


def head(major, number):
    if number < 24:
        return bytes([major << 5 | number])
    width = next(it for it in range(4) if number < 1 << (8 << it))
    return bytes([major << 5 | 24 + width]) + number.to_bytes(1 << width, "big")


def text(value):
    return head(3, len(value.encode())) + value.encode()


def octets(value):
    return head(2, len(value)) + value


def items(*held):
    return head(4, len(held)) + b"".join(held)


def entries(**held):
    """A map: the shorter keys first, those of one length by their bytes."""
    order = sorted(held, key=lambda it: (len(it), it))
    return head(5, len(held)) + b"".join(text(it) + held[it] for it in order)


def link(cid):
    return b"\xd8\x2a" + octets(b"\0" + cid)


def named(block, codec=0x71):
    return bytes([1, codec, 0x12, 0x20]) + hashlib.sha256(block).digest()


def varint(number):
    out = bytearray()
    while number > 127:
        out.append(number & 127 | 128)
        number >>= 7
    return bytes(out) + bytes([number])


def section(cid, block):
    return varint(len(cid) + len(block)) + cid + block


def header(*roots):
    block = entries(roots=items(*map(link, roots)), version=b"\x01")
    return varint(len(block)) + block


def second(inner, behind=b""):
    """A file of version 2 around one of version 1."""
    numbers = b"".join(it.to_bytes(8, "little") for it in (0, 0, 51, len(inner), 0))
    return b"\x0a\xa1\x67version\x02" + numbers + inner + behind


def cid_text(cid):
    bits = "".join(f"{it:08b}" for it in cid)
    bits += "0" * (-len(bits) % 5)
    return "b" + "".join(ALPHABET[int(bits[i : i + 5], 2)] for i in range(0, len(bits), 5))


def some(rows):
    """One of the many that a page is asked in a minute."""
    return rows[::20]


def rows(table):
    """The rows of a table that conformance/rows writes, by words."""
    with open(f"{TABLES}/{table}.txt", encoding="utf-8") as file:
        return [it.split(" ") for it in file.read().split("\n") if it and not it.startswith("#")]
