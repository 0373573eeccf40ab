"""The blocks that are measured: lists of equal items, a record, and files of records."""

import os
import random
import shutil

from car_bytes import cid, counted, head, header, link, spelled

# A link whose digest is empty: eight bytes.
LINK = bytes.fromhex("d82a450001550000")
# 66 bytes: a map of two texts and a number.
PERSON = bytes.fromhex(
    "a3646e616d656c477261636520486f707065726a70726f66657373696f6e72636f6d707574657220"
    "736369656e746973746d796561725f6f665f6269727468190772"
)
# The size of a record, in a file of a hundred million bytes.
FILE, RECORD = 100_000_000, 1000


def listed(items, item):
    """A list of this many times the item."""
    return head(4, items) + item * items


def keyed(keys):
    """A map with these keys, which are in their order, each to 0."""
    return head(5, len(keys)) + b"".join(spelled(3, key) + b"\x00" for key in keys)


def digits(entries, width=7):
    """A map with this many keys of seven digits, each to 0."""
    return keyed([b"%0*d" % (width, n) for n in range(entries)])


def numbers(entries):
    """A map with the numbers from 0 in decimal digits as keys, each to 0. A `BTreeMap` walks them by their bytes, which is another
    order."""
    return keyed([b"%d" % n for n in range(entries)])


def string(size):
    """A byte string of this many bytes."""
    return spelled(2, b"\xa5" * size)


def record(chance):
    """84 bytes: a map of four, with a link, and a list of three numbers that ends in a byte of its own."""
    letters = bytes(chance.randrange(97, 123) for _ in range(9))
    tags = b"".join(b"\x19" + chance.randrange(256, 1 << 16).to_bytes(2, "big") for _ in range(2))
    return (
        b"\xa4\x63seq\x1a" + chance.randrange(1 << 16, 1 << 32).to_bytes(4, "big")
        + b"\x64link" + link(b"\x01\x71\x12\x20" + chance.randbytes(32))
        + b"\x64name\x69" + letters + b"\x64tags\x83" + tags + bytes([chance.randrange(24)])
    )


def put_records(path, count=FILE // RECORD, size=RECORD):
    """Makes a CAR file of this many records, each a map of a link to the record before and of bytes; and returns its size."""
    chance, before = random.Random(3), cid(b"\xf6")
    sections = [counted(before + b"\xf6")]
    for _ in range(count):
        data = chance.randbytes(size - 54 - len(head(2, size)))
        block = b"\xa2\x64data" + spelled(2, data) + b"\x66before" + link(before)
        before = cid(block)
        sections.append(counted(before + block))
    with open(path, "wb") as file:
        file.write(counted(header(before)))
        file.writelines(sections)
    return os.path.getsize(path)


def told(path):
    """The name of the file of records in tables."""
    return f"{os.path.getsize(path) / 1e6:.0f} MB of blocks of {RECORD} bytes, {FILE // RECORD + 1:,} sections"


def put_string(path, given):
    """Makes the block of one byte string that has the bytes of the file, and returns its path."""
    with open(given, "rb") as source, open(path, "wb") as file:
        file.write(head(2, os.path.getsize(given)))
        shutil.copyfileobj(source, file)
    return path
