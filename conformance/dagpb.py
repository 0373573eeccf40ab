"""Blocks of DAG-PB: the links and the data of a node, or its first fault. Written from the specification of DAG-PB, and from the encoding of
protocol buffers."""

import math

import cidtexts
from grammar import varint
from judge import MOST_DIGEST, Link, is_cid

CAUSES = {
    "truncated": ("the block, or a link's message, ends within a number, or before as many bytes follow as it says", "protobuf, Length-Delimited Records: so many bytes follow"),
    "number": ("a number has more than ten bytes, or is not below 2^64", "protobuf, Base 128 Varints: a number has at most ten bytes, and 64 bits"),
    "field": ("a field that is none of the message's, or stands a second time, or out of order", "DAG-PB, Protobuf Strictness: other fields, repeated fields, and fields out of order are invalid"),
    "no hash": ("a link is empty", "DAG-PB, Serial Format: the hash of a link is not optional"),
    "no CID": ("a link's hash is no binary CID", "DAG-PB, Logical Format: the hash of a link is a link to another block"),
}  # fmt: skip
# The library's name of each cause.
VARIANTS = {"truncated": "Truncated", "number": "InvalidVarint", "field": "UnexpectedField", "no hash": "NoHash", "no CID": "InvalidCid"}
OPEN = {
    "spelling": "a writer sorts links by their names, and writes numbers in the shortest form; a reader need not refuse others",
    "names": "the specification calls names text; many readers take other bytes",
    "digests": cidtexts.OPEN["digests"],
    "varints": cidtexts.OPEN["varints"],
}
DATA, LINKS = 0x0A, 0x12  # of a node
HASH, NAME, TSIZE = 0x0A, 0x12, 0x18  # of a link


class Refused(Exception):
    """The cause, a key of CAUSES, and how many bytes come before what is wrong: a number, a tag, or a CID."""


def number(block, at, end):
    """The number at this place, in any form of at most ten bytes, and where it ends."""
    value = 0
    for count in range(10):
        if at + count == end:
            raise Refused("truncated", at)
        group = block[at + count]
        value |= (group & 127) << 7 * count
        if value >= 2**64:
            break
        if group < 128:
            return value, at + count + 1
    raise Refused("number", at)


def counted(block, at, end):
    """Returns where as many bytes begin and end as the number at this place says."""
    count, begin = number(block, at, end)
    if count > end - begin:
        raise Refused("truncated", at)
    return begin, begin + count


def link(block, at, end, most_digest):
    """The link whose message stands there: its hash, name and size."""
    found = {}
    while at < end:
        tag, value = number(block, at, end)
        if tag not in (HASH, NAME, TSIZE) or tag <= max(found, default=0) or (tag != HASH and not found):
            raise Refused("field", at)
        if tag == TSIZE:
            found[tag], at = number(block, value, end)
        else:
            begin, at = counted(block, value, end)
            found[tag] = block[begin:at]
        if tag == HASH and not is_cid(found[tag], most_digest):
            raise Refused("no CID", begin)
    if not found:
        raise Refused("no hash", at)
    return tuple(map(found.get, (HASH, NAME, TSIZE)))


def read(block, most_digest=MOST_DIGEST):
    """The links of a node, and its data, or None. The data stands after the links, or before them."""
    links, data, at, is_closed = [], None, 0, False
    while at < len(block):
        tag, value = number(block, at, len(block))
        if tag not in (DATA, LINKS):
            raise Refused("field", at)
        begin, end = counted(block, value, len(block))
        found = link(block, begin, end, most_digest) if tag == LINKS else block[begin:end]
        if is_closed if tag == LINKS else data is not None:
            raise Refused("field", at)
        if tag == LINKS:
            links.append(found)
        else:
            data, is_closed = found, bool(links)
        at = end
    return links, data


def is_node(block, most_digest):
    try:
        return bool(read(block, most_digest))
    except Refused:
        return False


def field(tag, value):
    """A field, as it is written; or nothing, if there is no such field."""
    if value is None:
        return b""
    return varint(tag) + (varint(value) if isinstance(value, int) else varint(len(value)) + value)


def spell(links, data=None):
    """The node as a writer puts it: the links sorted by their names, and then the data."""
    messages = (field(HASH, cid) + field(NAME, name) + field(TSIZE, size) for cid, name, size in sorted(links, key=lambda it: it[1] or b""))
    return b"".join(field(LINKS, it) for it in messages) + field(DATA, data)


def is_text(name):
    try:
        return name is None or isinstance(name.decode(), str)
    except UnicodeDecodeError:
        return False


def question(block, links, data):
    """The open question about a node, or None."""
    if block not in (spell(links, data), field(DATA, data) + spell(links)):
        return "spelling"
    if not all(is_text(name) for _, name, _ in links):
        return "names"
    return "varints" if any(cidtexts.has_long_varint(cid) for cid, _, _ in links) else None


def model(links, data=None):
    """The data model of a node (Logical Format), or None if a name is not UTF-8."""
    if not all(is_text(name) for _, name, _ in links):
        return None
    parts = [{"Hash": Link(hash)} | ({} if name is None else {"Name": name.decode()}) | ({} if size is None else {"Tsize": size}) for hash, name, size in links]
    return {"Links": parts} | ({} if data is None else {"Data": data})


def in_words(hash, name, size):
    return {"hash": cidtexts.written(hash)} | ({} if name is None else {"name": name.hex()}) | ({} if size is None else {"tsize": size})


def expected(block):
    """The right answer for the block, in the words of a vector."""
    try:
        links, data = read(block)
    except Refused as refused:
        cause, at = refused.args
        is_open = cause == "no CID" and is_node(block, math.inf)
        return {"verdict": "refused", "cause": cause, "at": at} | ({"open": "digests"} if is_open else {})
    said = {"verdict": "ok", "node": [in_words(*it) for it in links], "links": [cidtexts.written(cid) for cid, _, _ in links]}
    said |= {} if data is None else {"data": data.hex()}
    found = question(block, links, data)
    return said | ({"open": found} if found else {})


def judged(block):
    """The verdict of the programs on the block, and its links."""
    try:
        return "ok node", [cid for cid, _, _ in read(block)[0]]
    except Refused as refused:
        return f"refused {VARIANTS[refused.args[0]]}", []
