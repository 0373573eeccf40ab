"""Blocks, their names, and CAR files of them, as bytes: how they are written, and how the front of what is left is read."""

import base64
import hashlib

# The beginning of a file of version 2.
PRAGMA = b"\x0a\xa1\x67version\x02"
# The names of codecs (multicodec table).
CODECS = {0x55: "raw", 0x70: "dag-pb", 0x71: "dag-cbor", 0x72: "libp2p-key", 0x0129: "dag-json", 0x0200: "json"}
MOST_DIGEST = 64


class Refusal(Exception):
    """The variant of `CarError`."""


# ---- written


def head(major, number):
    """The shortest head of an item of DAG-CBOR."""
    if number < 24:
        return bytes([major << 5 | number])
    width, info = next((width, info) for width, info in ((1, 24), (2, 25), (4, 26), (8, 27)) if number < 256**width)
    return bytes([major << 5 | info]) + number.to_bytes(width, "big")


def spelled(major, data):
    """A byte string or a text."""
    return head(major, len(data)) + data


def link(name):
    return b"\xd8\x2a" + spelled(2, b"\x00" + name)


def varint(number):
    groups = []
    while number >= 128:
        groups.append(number % 128 + 128)
        number //= 128
    return bytes([*groups, number])


def cid(block, codec=0x71):
    """The CID of version 1 by SHA-256."""
    return b"\x01" + varint(codec) + b"\x12\x20" + hashlib.sha256(block).digest()


def counted(body):
    return varint(len(body)) + body


def header(*roots):
    """The block at the beginning of a file with these roots."""
    return b"\xa2\x65roots" + head(4, len(roots)) + b"".join(map(link, roots)) + b"\x67version\x01"


def section(block, codec=0x71, name=None):
    return counted((cid(block, codec) if name is None else name) + block)


def file_of(roots, blocks):
    """A file of these roots, and of blocks by their names."""
    return counted(header(*roots)) + b"".join(counted(name + block) for name, block in blocks.items())


def wrapped(file, padding=b"", after=b"", begin=None, size=None, index=0, characteristics=bytes(range(16))):
    """The file within one of version 2."""
    fields = (51 + len(padding) if begin is None else begin, len(file) if size is None else size, index)
    return PRAGMA + characteristics + b"".join(it.to_bytes(8, "little") for it in fields) + padding + file + after


def text_of(name):
    """A CID as the programs print it: base32, or base58btc for version 0."""
    if name[:1] != b"\x12":
        return "b" + base64.b32encode(name).decode().rstrip("=").lower()
    number, text = int.from_bytes(name, "big"), ""
    while number:
        number, digit = divmod(number, 58)
        text = "123456789ABCDEFGHJKLMNPQRSTUVWXYZabcdefghijkmnopqrstuvwxyz"[digit] + text
    return text


def missing_line(name):
    """The line for a name that leads nowhere, with its codec."""
    codec = parts_of(name)[0]
    return f"missing {text_of(name)} {CODECS.get(codec, f'codec {codec:#x}')}"


def lines_of(lines):
    return "".join(f"{line}\n" for line in lines).encode()


# ---- read


def varint_at(bytes_, at):
    """A varint in shortest form, below 2^64, and the place after it. A varint has at most ten bytes."""
    number, shift = 0, 0
    while True:
        if at >= len(bytes_):
            raise Refusal("Truncated")
        byte = bytes_[at]
        number, at = number + (byte % 128 << shift), at + 1
        if byte == 0 and shift or number >= 1 << 64 or (shift == 63 and byte > 127):
            raise Refusal("InvalidLength")
        if byte < 128:
            return number, at
        shift += 7


def counted_at(bytes_, at):
    """As many bytes as the length that stands there says, and the place after them."""
    size, at = varint_at(bytes_, at)
    if len(bytes_) - at < size:
        raise Refusal("Truncated")
    return bytes_[at : at + size], at + size


def parts_of(body):
    """The codec, hash code and digest of the name at the front of what a section holds, and the place after the name."""
    if body[:2] == b"\x12\x20":
        if len(body) < 34:
            raise Refusal("InvalidCid")
        return 0x70, 0x12, body[2:34], 34
    numbers, at = [], 0
    try:
        for _ in range(4):
            number, at = varint_at(body, at)
            numbers.append(number)
    except Refusal:
        raise Refusal("InvalidCid") from None
    version, codec, code, size = numbers
    if version != 1 or size > MOST_DIGEST or len(body) - at < size:
        raise Refusal("InvalidCid")
    return codec, code, body[at : at + size], at + size


def sections_of(file, at=None):
    """The name and the block of each section after the header, or from this place on; and if bytes are left, why there are no
    more sections."""
    sections = []
    try:
        if at is None:
            _, at = counted_at(file, 0)
        while at < len(file):
            body, at = counted_at(file, at)
            end = parts_of(body)[3]
            sections.append((body[:end], body[end:]))
    except Refusal as refusal:
        return sections, str(refusal)
    return sections, None
