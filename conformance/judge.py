"""What DAG-CBOR is, as a judge of bytes: a second specification, from RFC 8949, the DAG-CBOR and the CID specifications.

Nothing here knows the library. `judge` reads from the front and stops at the first fault; `causes` tells all that stand at its byte;
`spell` is the other way. A block is `bytes`; its data is None, bool, int, str, bytes, list, dict (in the order of the block) and
Link; with `floats` also float."""

import math
import struct
from dataclasses import dataclass, field

# Each cause, what it is, and the rules that it breaks, as standards.py has them. If a reader only `should` refuse it by the standard, it
# may be lenient; a block it is not.
SHORTEST = "DAG-CBOR, Strictness 2: integers, and lengths in major types 2 to 5, are as short as possible; a decoder should refuse others"
CAUSES = {
    "truncated": ("the bytes end before the item does", "RFC 8949, appendix F: too little data is not well-formed"),
    "trailing data": ("a byte is left behind the item", "DAG-CBOR, Strictness 4: a single top-level object alone; what stands behind it must be refused", "RFC 8949, appendix F: too much data, where one item is wanted"),
    "reserved": ("additional information 28 to 30", "RFC 8949, 3: the values 28 to 30 are reserved, and the item is not well-formed"),
    "indefinite length": ("additional information 31, save in a break", "DAG-CBOR, Strictness 2: only items of definite length are usable; a decoder should refuse others", "RFC 8949, 3: with the major types 0, 1 and 6 the item is not well-formed"),
    "break": ("a break, which ends an indefinite length", "DAG-CBOR, Strictness 2: the break is not supported either", "RFC 8949, 3.2.1: elsewhere than directly in an item of indefinite length the enclosing item is not well-formed"),
    "non-minimal": ("an argument in more bytes than it needs", SHORTEST, "RFC 8949, 4.2.1: the argument of a head, that of a tag too, is as short as possible"),
    "invalid UTF-8": ("a text that is not UTF-8", "RFC 8949, 3.1: a text that holds an invalid UTF-8 sequence is well-formed but invalid"),
    "key no text": ("a map's key of another kind than text", "DAG-CBOR, Map Keys: the keys of maps must be strings; others should be refused"),
    "unordered key": ("a key before which a longer one stands, or one of its length with greater bytes", "DAG-CBOR, Strictness 2: keys are sorted, the shorter first, then by their bytes; a decoder should refuse others"),
    "repeated key": ("a key that is there twice, one behind the other", "RFC 8949, 3.1: a map that has duplicate keys is not valid", "DAG-CBOR, Strictness 2: of two keys one sorts earlier"),
    "other tag": ("a head of major type 6 that is not the tag 42 as d8 2a", "DAG-CBOR, Strictness 1: no tags other than 42; a decoder must refuse others"),
    "tag without bytes": ("tag 42 on something else than a byte string", "DAG-CBOR, Links: a link is a byte string (major type 2) under tag 42"),
    "no CID": ("tag 42 on a byte string that is not a zero and a binary CID", "DAG-CBOR, Links: the identity prefix of multibase, 00, which must not be omitted, and behind it the binary form of a CID"),
    "simple value": ("a simple value other than false, true and null", "DAG-CBOR, Strictness 3: other simple values are not supported, undefined neither", "RFC 8949, 3.3: a value below 32 in two bytes is not well-formed"),
    "float": ("a floating-point number: any, or with floats one that is not of 64 bits, or NaN, or infinite", "DAG-CBOR, Strictness 3: floats are always of 64 bits, and NaN and the infinities must not be accepted", "no standard has DAG-CBOR without floats; a codec may have none, and names that profile"),
    "too deep": ("an item with 128 or more lists and maps around it", "no standard bounds depth; this codec does, as RFC 8949, 10 wants of a decoder whose stack is bounded"),
}  # fmt: skip
# The library's name of each cause.
VARIANTS = {
    "truncated": "Eof", "trailing data": "TrailingData", "reserved": "Unsupported", "indefinite length": "IndefiniteSize",
    "break": "IndefiniteSize", "non-minimal": "NonMinimal", "invalid UTF-8": "RequireUtf8", "key no text": "Mismatch",
    "unordered key": "UnorderedKey", "repeated key": "UnorderedKey", "other tag": "Mismatch", "tag without bytes": "Unsupported",
    "no CID": "Msg", "simple value": "Unsupported", "float": "Unsupported", "too deep": "DepthOverflow",
}  # fmt: skip
DEEPEST = 127  # lists and maps around an item: no standard bounds them; this codec does
MOST_DIGEST = 64  # bytes of a digest: likewise
MOST_NUMBERS = 22  # bytes of the version, the codec, the hash code and such a digest's length: one, ten, ten and one
WIDTHS = {24: 1, 25: 2, 26: 4, 27: 8}
PROFILES = {
    "no-floats": "DAG-CBOR without floats, as the proved codec",
    "floats": "DAG-CBOR with floats of 64 bits, neither NaN nor infinite, as the specification",
}
KINDS = {type(None): "null", bool: "bool", int: "integer", str: "string", bytes: "bytes", list: "list", dict: "map", float: "float"}


TOKENS = {"null": 0, "bool": 1, "integer": 2, "string": 3, "bytes": 4, "list": 5, "map": 6, "link": 7, "negative": 8}


class Link(bytes):
    """A binary CID."""


KINDS[Link] = "link"


class Refused(Exception):
    """The cause, a key of CAUSES, and its place: the offset of the byte with which it is told, or after all bytes; and the causes that
    stand there as well, or None if reading on may show some."""

    def __init__(self, cause, place, also=()):
        super().__init__(cause, place)
        self.cause, self.place, self.also = cause, place, also


@dataclass
class Reader:
    """The bytes, what is asked about them, and how many were taken."""

    block: bytes
    floats: bool = False  # true if a float of 64 bits is an item
    deepest: float = DEEPEST
    most_digest: float = MOST_DIGEST
    overlooked: set | frozenset = frozenset()  # causes and places that do not stop it
    at: int = 0
    tokens: list = field(default_factory=list)  # for each item its kind, its number and its payload's place, and where its payload ends

    def note(self, kind, number=0, payload=0):
        self.tokens.append((kind, number, self.at - payload, self.at))

    def fault(self, cause, place):
        if (cause, place) not in self.overlooked:
            raise Refused(cause, place, None)

    def take(self, count):
        """Takes this many bytes more."""
        taken = self.block[self.at : self.at + count]
        if len(taken) < count:
            raise Refused("truncated", len(self.block))
        self.at += count
        return taken

    def head(self, wanted=None, otherwise=None):
        """Major type and argument (RFC 8949, 3). Only the shortest head of an argument is valid (DAG-CBOR, Strictness)."""
        first, major, information = self.first(wanted, otherwise)
        if information not in WIDTHS:
            return major, information
        argument = int.from_bytes(self.take(WIDTHS[information]), "big")
        if len(head(major, argument)) <= WIDTHS[information]:
            self.fault("non-minimal", self.at - 1)
        return major, argument

    def first(self, wanted, otherwise):
        """The first byte of a head, if it may begin one of the wanted major type, or of any."""
        at, first = self.at, self.take(1)[0]
        major, information = first >> 5, first & 31
        found = [otherwise] if wanted is not None and major != wanted else []
        if information == 31:
            found.append("break" if major == 7 else "indefinite length")
        if major == 6 and first != 0xD8:
            found.append("other tag")
        if major == 6 and information in WIDTHS and self.is_long_tag(information):
            found.append("non-minimal")
        if major == 7 and (information < 20 or 22 < information < 25):
            found.append("simple value")
        if major == 7 and 25 <= information <= 27 and not (first == 0xFB and self.floats):
            found.append("float")
        if 28 <= information <= 30:
            found.append("reserved")
        if found:
            raise Refused(found[0], at, found[1:])
        return first, major, information

    def is_long_tag(self, information):
        """Returns true if the number of the tag that begins before this byte has a shorter head. Not all of the number need be there."""
        number = self.block[self.at : self.at + WIDTHS[information]]
        return len(number) == WIDTHS[information] and len(head(6, int.from_bytes(number, "big"))) <= len(number)

    def text(self, length):
        """UTF-8 in the sense of RFC 3629: no overlong form, no surrogate, nothing beyond U+10FFFF."""
        payload = self.take(length)
        try:
            return payload.decode("utf-8")
        except UnicodeDecodeError:
            self.fault("invalid UTF-8", self.at - 1)
            return payload.decode("utf-8", "surrogateescape")

    def link(self):
        """After d8: the tag's number 42, and a byte string of a zero and a CID."""
        number = self.take(1)
        if number != b"\x2a":
            raise Refused("other tag", self.at - 1, ["non-minimal"] if number[0] < 24 else [])
        _, length = self.head(2, "tag without bytes")
        if length > 1 + MOST_NUMBERS + self.most_digest:
            self.fault("no CID", self.at - 1)
        payload = self.take(length)
        if payload[:1] != b"\0" or not is_cid(payload[1:], self.most_digest):
            raise Refused("no CID", self.at - 1)
        self.note(TOKENS["link"], length - 1, length - 1)
        return Link(payload[1:])

    def entries(self, count, around):
        """This many keys and values; keys are texts and rise: the shorter first, those of one length by their bytes."""
        found, before = {}, None
        for _ in range(count):
            _, length = self.head(3, "key no text")
            key = self.text(length)
            self.note(TOKENS["string"], length, length)
            order = (length, key.encode("utf-8", "surrogateescape"))
            if before is not None and order <= before:
                self.fault("repeated key" if order == before else "unordered key", self.at - 1)
            found[key], before = self.item(around), order
        return found

    def item(self, around=0):
        """An item with this many lists and maps around it."""
        if around > self.deepest:
            raise Refused("too deep", self.at - 1)
        if self.block[self.at : self.at + 1] == b"\xd8":
            self.at += 1
            return self.link()
        if self.floats and self.block[self.at : self.at + 1] == b"\xfb":
            return self.float()
        major, argument = self.head()
        if major in (2, 3):
            payload = self.take(argument) if major == 2 else self.text(argument)
            self.note(TOKENS["bytes" if major == 2 else "string"], argument, argument)
            return payload
        self.note(*{0: (2, argument), 1: (8, argument), 4: (5, argument), 5: (6, argument), 7: (argument < 22, argument == 21)}[major])
        if major < 2:
            return argument if major == 0 else -1 - argument
        if major == 4:
            return list(self.items(argument, around + 1))
        if major == 5:
            return self.entries(argument, around + 1)
        return {20: False, 21: True, 22: None}[argument]

    def items(self, count, around):
        for _ in range(count):
            yield self.item(around)

    def float(self):
        """64 bits, and neither NaN nor an infinity (DAG-CBOR, Strictness 3)."""
        (number,) = struct.unpack(">d", self.take(9)[1:])
        if not math.isfinite(number):
            raise Refused("float", self.at - 1)
        return number


def causes(block, **asked):
    """For a block that is refused, the Refused, with all causes that stand at its byte; else None."""
    found, place = [], None
    while True:
        refused = refusal(block, overlooked={(it, place) for it in found}, **asked)
        if refused is None or place not in (None, refused.place):
            break
        found, place = [*found, refused.cause, *(refused.also or ())], refused.place
        if refused.also is not None:
            break
    return Refused(found[0], place, found[1:]) if found else None


def refusal(block, **asked):
    try:
        judge(block, **asked)
        return None
    except Refused as refused:
        return refused


def tokens(block):
    """For each item, in the order of the block, its kind, its number and the place of its payload, or the place after its head if it
    has none; for refused bytes, the items that stand whole before the place."""
    reader, place = Reader(block), len(block)
    try:
        reader.item()
    except Refused as refused:
        place = refused.place
    return [token for *token, end in reader.tokens if end <= place]


def judge(block, **asked):
    """Returns the data of the block; or raises Refused."""
    reader = Reader(block, **asked)
    data = reader.item()
    if reader.at < len(block):
        raise Refused("trailing data", reader.at)
    return data


def varint(data):
    """The number at the front of the bytes, an unsigned varint below 2^64 in shortest form, and the rest; or None."""
    number = 0
    for at, byte in enumerate(data[:10]):
        number |= (byte & 127) << 7 * at
        if byte < 128:
            return (number, data[at + 1 :]) if number < 2**64 and (byte or at == 0) else None
    return None


def is_cid(data, most_digest=MOST_DIGEST):
    """Version 0: 12 20 and 32 bytes. Version 1: 01, codec, hash code, and the length of the digest as varints; the digest."""
    if data[:2] == b"\x12\x20":
        return len(data) == 34
    rest, numbers = data, []
    for _ in range(4):
        found = varint(rest)
        if found is None or (not numbers and found[0] != 1):
            return False
        numbers.append(found[0])
        rest = found[1]
    return numbers[3] == len(rest) <= most_digest


def head(major, argument):
    """The shortest head."""
    if argument < 24:
        return bytes([major << 5 | argument])
    information, width = next((key, it) for key, it in WIDTHS.items() if argument < 256**it)
    return bytes([major << 5 | information]) + argument.to_bytes(width, "big")


def spell(data):
    """The block of the data: maps may come in any order."""
    if isinstance(data, bool) or data is None:
        return {None: b"\xf6", False: b"\xf4", True: b"\xf5"}[data]
    if isinstance(data, int):
        return head(0, data) if data >= 0 else head(1, -1 - data)
    if isinstance(data, float):
        return b"\xfb" + struct.pack(">d", data)
    if isinstance(data, Link):
        return b"\xd8\x2a" + head(2, 1 + len(data)) + b"\0" + data
    if isinstance(data, bytes):
        return head(2, len(data)) + data
    if isinstance(data, str):
        return head(3, len(data.encode())) + data.encode()
    if isinstance(data, list):
        return head(4, len(data)) + b"".join(map(spell, data))
    keys = sorted(data, key=lambda key: (len(key.encode()), key.encode()))
    return head(5, len(data)) + b"".join(spell(key) + spell(data[key]) for key in keys)


def links_of(data):
    """The links, in the order of the block."""
    if isinstance(data, Link):
        return [data]
    return [link for part in parts_of(data) for link in links_of(part)]


def parts_of(data):
    """The items of a list, or the values of a map."""
    return list(data.values()) if isinstance(data, dict) else data if isinstance(data, list) else []
