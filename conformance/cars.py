"""CAR files, from the specifications of versions 1 and 2: what is in one, or its first fault; and makers of them."""

import hashlib
import math

import cidtexts
from judge import KINDS, MOST_DIGEST, Link, Refused, judge, links_of, spell, varint
from judge import VARIANTS as OF_BLOCKS

PRAGMA = bytes.fromhex("0aa16776657273696f6e02")  # of version 2: a header of version 1 that says version 2
FIRST = 51  # the least number of bytes before the file of version 1: the pragma, 16 of characteristics, three numbers
CAUSES = {
    "truncated": ("the bytes end before what is announced", "CARv1, Data: as many bytes follow as a length announces", "CARv2, Header: the file of version 1 has as many bytes as are announced"),
    "length": ("a length is no varint in shortest form below 2^64", "unsigned-varint, Specification: the shortest form, of at most 63 bits"),
    "no CID": ("no binary CID stands before a block, or it goes on behind its section", "CARv1, Data: a section is a length, a CID and bytes"),
    "no block": ("the header is no block of DAG-CBOR", "CARv1, Header: one block of DAG-CBOR"),
    "other header": ("the header is another map than that of roots and of version 1", "CARv1, Header: `version`, which is 1, and `roots`, a list of CIDs"),
    "offset": ("of version 2: the file of version 1 begins before byte 51, or ends at 2^64 or behind it", "CARv2, Header: the offset is counted from the file's first byte, and the pragma and the header are 51 bytes"),
}  # fmt: skip
VARIANTS = {
    "truncated": "Truncated", "length": "InvalidLength", "no CID": "InvalidCid", "no block": "NoBlock", "other header": "OtherHeader", "offset": "InvalidOffset",
}  # fmt: skip
OPEN = {
    "digests": cidtexts.OPEN["digests"],
    "varints": cidtexts.OPEN["varints"],
    "verification": "a reader of files need not hold a block against its CID, nor read it",
    "roots": "CARv1 wants a root, and many files have none",
}


class Fault(Exception):
    """The cause, a key of CAUSES, and the place: where what is faulty begins; for a header that is not a block, that block's cause too."""


def counted(body):
    return written_varint(len(body)) + body


def written_varint(number):
    groups = []
    while number >= 128:
        groups.append(number % 128 + 128)
        number //= 128
    return bytes([*groups, number])


def name(block, codec=0x71, code=0x12):
    """The name of version 1, by SHA-256 or the identity hash; for another code, a digest of that form."""
    digest = block if code == 0 else hashlib.sha256(block).digest()
    return b"\x01" + written_varint(codec) + written_varint(code) + bytes([len(digest)]) + digest


RAW = name(b"", 0x55, 0)  # the name of no bytes, by the identity hash: a root that is never missing


def header(*roots):
    return counted(spell({"roots": [Link(it) for it in roots], "version": 1}))


def section(block, cid=None):
    return counted((name(block) if cid is None else cid) + block)


def second(inner, begin=FIRST, size=None, index=0, behind=b"", characteristics=b"\x80" + bytes(15)):
    """A file of version 2 around one of version 1."""
    numbers = b"".join(it.to_bytes(8, "little") for it in (begin, len(inner) if size is None else size, index))
    return PRAGMA + characteristics + numbers + b"\xee" * (min(begin, 200) - FIRST) + inner + behind


def counted_at(file, at, end):
    """Returns where the bytes of the length that stands there begin and end."""
    for count in range(1, 11):
        if at + count > end:
            raise Fault("truncated", at)
        if file[at + count - 1] < 128:
            break
    found = varint(file[at : at + count])
    if found is None:
        raise Fault("length", at)
    if end - at - count < found[0]:
        raise Fault("truncated", at)
    return at + count, at + count + found[0]


def cid_front(body, most_digest=MOST_DIGEST):
    """The CID at the front of the bytes: its length, codec, hash code and digest; or None."""
    if body[:2] == b"\x12\x20":
        return (34, 0x70, 0x12, body[2:34]) if len(body) >= 34 else None
    rest, numbers = body, []
    for _ in range(4):
        found = varint(rest)
        if found is None:
            return None
        numbers, rest = [*numbers, found[0]], found[1]
    version, codec, code, count = numbers
    if version != 1 or not count <= min(len(rest), most_digest):
        return None
    return len(body) - len(rest) + count, codec, code, rest[:count]


def verdict_on(codec, code, digest, block):
    """The verdict on a block under such a CID."""
    if code not in (0, 0x12) or (code and len(digest) != 32):
        return "not verified"
    if digest != (hashlib.sha256(block).digest() if code else block):
        return "other bytes"
    if codec != 0x71:
        return "not read"
    try:
        return f"ok {KINDS[type(judge(block))]}"
    except Refused as refused:
        return f"refused {refused.cause}"


def in_variants(verdict):
    """The same with the library's name of a cause."""
    word, _, cause = verdict.partition(" ")
    return f"refused {OF_BLOCKS[cause]}" if word == "refused" else verdict


def span(file):
    """Returns where the file of version 1 begins and ends; for version 1 itself it has no end."""
    if PRAGMA.startswith(file[:11]) and len(file) < 11 or file[:11] == PRAGMA and len(file) < FIRST:
        raise Fault("truncated", 0)
    if file[:11] != PRAGMA:
        return 0, None
    begin, size = (int.from_bytes(file[it : it + 8], "little") for it in (27, 35))
    if begin < FIRST or begin + size >= 2**64:
        raise Fault("offset", 0)
    return begin, begin + size


def header_at(file, at, end):
    """Returns the roots, and where the first section begins."""
    begin, behind = counted_at(file, at, end)
    try:
        data = judge(file[begin:behind])
    except Refused as refused:
        raise Fault("no block", at, refused.cause) from None
    roots = data.get("roots") if isinstance(data, dict) else None
    is_header = isinstance(data, dict) and set(data) == {"roots", "version"} and data["version"] == 1 and data["version"] is not True
    if not is_header or not isinstance(roots, list) or not all(isinstance(it, Link) for it in roots):
        raise Fault("other header", at)
    return roots, behind


def sections_at(file, at, end, most_digest):
    """For each section: where it begins, its CID, where its block begins and where it ends, and the verdict on the block."""
    while at < end:
        begin, behind = counted_at(file, at, end)
        found = cid_front(file[begin:behind], most_digest)
        if not found:
            raise Fault("no CID", at)
        block = begin + found[0]
        yield {"at": at, "cid": file[begin:block], "block": block, "end": behind, "verdict": verdict_on(*found[1:], file[block:behind])}
        at = behind


def read(file, most_digest=MOST_DIGEST):
    """What is found, up to the first fault: the span, the roots, where the sections begin, the sections; the fault, or None."""
    found = {"sections": []}
    try:
        begin, stop = span(file)
        found |= {"span": [begin, stop]} if stop is not None else {}
        end = len(file) if stop is None else min(stop, len(file))
        found["roots"], found["behind"] = header_at(file, begin, max(end, begin))
        at = found["behind"]
        for it in sections_at(file, at, end, most_digest):
            found["sections"].append(it)
            at = it["end"]
        if stop is not None and stop > len(file):
            raise Fault("truncated", at)
    except Fault as fault:
        return found, fault.args
    return found, None


def follow(links):
    """The links, with those by the identity hash replaced by the links in their blocks."""
    for it in links:
        _, codec, code, digest = cid_front(it)
        if code:
            yield it
        elif codec == 0x71:
            try:
                yield from follow(links_of(judge(digest)))
            except Refused:
                pass


def missing(file, found):
    """The names that lead to no verified block of the file, in the order of bytes."""
    held = {it["cid"] for it in found["sections"] if it["verdict"] not in ("other bytes", "not verified")}
    blocks = [file[it["block"] : it["end"]] for it in found["sections"] if it["verdict"].startswith("ok ")]
    return sorted(set(follow([*found["roots"], *(link for it in blocks for link in links_of(judge(it)))])) - held)


def expected(file):
    """The right answer for the file, in the words of a vector."""
    found, fault = read(file)
    said = {"verdict": "refused" if fault else "ok"}
    if fault:
        said |= {"cause": fault[0], "at": fault[1]} | ({"block_cause": fault[2]} if fault[2:] else {})
    said |= {"span": found["span"]} if "span" in found else {}
    if "roots" in found:
        sections = [{**it, "cid": cidtexts.written(it["cid"])} for it in found["sections"]]
        said |= {"roots": [cidtexts.written(it) for it in found["roots"]], "behind": found["behind"], "sections": sections}
    if not fault:
        said["missing"] = [cidtexts.written(it) for it in missing(file, found)]
    question = open_question(file, found, fault)
    return said | ({"open": question} if question else {})


def open_question(file, found, fault):
    if fault:
        return "digests" if fault[0] == "no CID" and read(file, math.inf)[1] is None else None
    if any(map(cidtexts.has_long_varint, [*found["roots"], *(it["cid"] for it in found["sections"])])):
        return "varints"
    are_well = all(it["verdict"].startswith("ok ") or it["verdict"] == "not read" for it in found["sections"])
    return "roots" if not found["roots"] else None if are_well else "verification"
