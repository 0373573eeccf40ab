"""Files of IPFS: what the data of a node says, and the bytes of a file. Written from the specification of UnixFS, and from the
encoding of protocol buffers."""

import hashlib

import dagpb
from car_bytes import cid, missing_line, parts_of, text_of

RAW, DIRECTORY, FILE, METADATA, SYMLINK, SHARD = range(6)
MOST_DEPTH = 256


class Refused(Exception):
    """The variant of the refusal."""


class Stop(Exception):
    """The line that tells why the reading of a file stops."""


def number(data, at):
    """The number at this place, in any form of at most ten bytes, and where it ends."""
    try:
        return dagpb.number(data, at, len(data))
    except dagpb.Refused as refused:
        raise Refused(dagpb.VARIANTS[refused.args[0]]) from None


def held(data, at, count):
    if count > len(data) - at:
        raise Refused("Truncated")
    return data[at : at + count], at + count


def field(data, at):
    """The field at this place: its tag, what it holds, and where it ends."""
    tag, at = number(data, at)
    wire = tag % 8
    if wire == 0:
        return tag, *number(data, at)
    if wire in (1, 5):
        return tag, *held(data, at, 8 if wire == 1 else 4)
    if wire == 2:
        count, at = number(data, at)
        return tag, *held(data, at, count)
    raise Refused("UnexpectedField")


def message(data):
    """What the message says: kind, content, file size, block sizes."""
    said, sizes, at = {}, [], 0
    while at < len(data):
        tag, value, at = field(data, at)
        if tag == 0x08 and value > SHARD:
            raise Refused("UnknownKind")
        if tag == 0x22:
            raise Refused("PackedSizes")
        if tag == 0x20:
            sizes.append(value)
        elif tag in (0x08, 0x12, 0x18, 0x28, 0x30):
            said[tag] = value
        elif tag < 0x38 or tag >= 2**32:
            raise Refused("UnexpectedField")
    if 0x08 not in said:
        raise Refused("NoKind")
    return said[0x08], said.get(0x12), said.get(0x18), sizes


def codec_of(name):
    return parts_of(name)[0]


def block_of(blocks, name):
    """The block under the name, if it has the bytes that the name says."""
    _, code, digest, _ = parts_of(name)
    block = blocks.get(name, digest if code == 0 else None)
    if block is None:
        raise Stop(missing_line(name))
    if code != 0 and (code != 0x12 or len(digest) != 32):
        raise Stop(f"{text_of(name)} not verified")
    if digest != (block if code == 0 else hashlib.sha256(block).digest()):
        raise Stop(f"{text_of(name)} other bytes")
    return block


def part(name, block, size, depth):
    """The bytes of the file in the block, and what is wanted after them: names, each with its size."""
    if depth == 0:
        raise Refused("TooDeep")
    codec = codec_of(name)
    if codec == 0x55:
        if size not in (None, len(block)):
            raise Refused("WrongSize")
        return block, []
    if codec != 0x70:
        raise Refused("OtherCodec")
    links, data = dagpb.read(block)
    if data is None:
        raise Refused("NoData")
    kind, content, file_size, sizes = message(data)
    if kind not in (RAW, FILE):
        raise Refused("NotAFile")
    content = content or b""
    if 0 in sizes:
        raise Refused("EmptyPart")
    total = len(content) + sum(sizes)
    if file_size not in (None, total) or size not in (None, total):
        raise Refused("WrongSize")
    if len(links) != len(sizes):
        raise Refused("WrongLinks")
    return content, [(hash, size) for (hash, _, _), size in zip(links, sizes)]


def cat(blocks, root):
    """The bytes of the file, as many as can be read, and the line that tells why no more can, if no more can."""
    out, wanted = [], [(root, None, MOST_DEPTH)]
    while wanted:
        name, size, depth = wanted.pop()
        try:
            block = block_of(blocks, name)
            try:
                if codec_of(name) == 0x70:
                    dagpb.read(block)
                content, after = part(name, block, size, depth)
            except Refused as refused:
                raise Stop(f"{text_of(name)} refused {refused}") from None
            except dagpb.Refused as refused:
                raise Stop(f"{text_of(name)} refused {dagpb.VARIANTS[refused.args[0]]}") from None
        except Stop as stop:
            return b"".join(out), str(stop)
        out.append(content)
        wanted += [(below, of_size, depth - 1) for below, of_size in reversed(after)]
    return b"".join(out), None


KINDS = ("file", "directory", "file", "metadata", "symlink", "shard")


def entity(blocks, name):
    """The kind and the size of the block under the name, in the words of a line, and if it has a kind."""
    try:
        block = block_of(blocks, name)
    except Stop as stop:
        return "missing -" if str(stop).startswith("missing ") else "refused -", False
    try:
        if codec_of(name) == 0x55:
            return f"file {len(block)}", True
        if codec_of(name) != 0x70:
            raise Refused("OtherCodec")
        _, data = dagpb.read(block)
        if data is None:
            raise Refused("NoData")
        kind, content, file_size, sizes = message(data)
    except (Refused, dagpb.Refused):
        return "refused -", False
    size = len(content or b"")
    if KINDS[kind] == "file":
        size = size + sum(sizes) if file_size is None else file_size
        size = None if size >= 2**64 else size
    elif kind != SYMLINK:
        size = None
    return f"{KINDS[kind]} {'-' if size is None else size}", True


def shown(name):
    """The name, as it stands in a line."""
    return b"".join(b"\\x%02x" % byte if byte < 0x20 or byte in (0x7F, 0x5C) else bytes([byte]) for byte in name or b"")


def ls(blocks, root):
    """The lines of a directory that is there, and if each entry has a kind."""
    links, _ = dagpb.read(blocks[root])
    told = [(entity(blocks, hash), hash, name) for hash, name, _ in links]
    lines = [f"{words} {text_of(hash)} ".encode() + shown(name) + b"\n" for (words, _), hash, name in told]
    return b"".join(lines), all(is_well for (_, is_well), _, _ in told)


def spelled(kind, content=None, file_size=None, sizes=()):
    """The message, as writers put it."""
    numbers = [(0x08, kind)] + ([] if content is None else [(0x12, content)]) + ([] if file_size is None else [(0x18, file_size)])
    return b"".join(dagpb.field(tag, value) for tag, value in [*numbers, *((0x20, size) for size in sizes)])


def node_name(block):
    return cid(block, 0x70)


def leaf_name(block):
    return cid(block, 0x55)
