"""Data as DAG-JSON, both ways: from the DAG-JSON specification over RFC 8259."""

import base64
import binascii
import hashlib
import json
import math
import re

import cidtexts
from judge import CAUSES as OF_BLOCKS
from judge import DEEPEST, Link, parts_of, spell

CAUSES = {
    "no UTF-8": ("the bytes are not UTF-8", "RFC 8259, 8.1: a text is encoded in UTF-8"),
    "no JSON": ("it is no JSON; half of a surrogate pair, or a byte order mark, is none here", "RFC 8259, 2: the grammar of JSON", "RFC 8259, 8.1: no byte order mark is added", "RFC 8259, 8.2: what half of a pair means is not predictable"),
    "trailing data": ("more stands after the value", "RFC 8259, 2: a text is one value"),
    "too deep": OF_BLOCKS["too deep"],
    "float": ("a number with a fraction or an exponent", "DAG-JSON, Floats: with a point it is a float", "no standard has DAG-JSON without floats; a codec may have none"),
    "range": ("an integer below -2^64, or above 2^64 - 1", "RFC 8949, 3.1: major types 0 and 1 hold -2^64 to 2^64 - 1", "DAG-CBOR, Strictness 1: no tags, and so no bignums"),
    "repeated key": ("a key that is there twice, compared behind its escapes", "DAG-JSON, Maps: keys are unique"),
    "reserved key": ("a map that has the key `/`, and is neither a link nor bytes", "DAG-JSON, Reserved namespace: no other map has that key"),
    "no CID": ("the text of a link that is of no CID", "DAG-JSON, Links: the text of a CID"),
    "no base64": ("the text of bytes that is not base64, or has padding", "DAG-JSON, Bytes: base64 without padding", "RFC 4648, 4: its alphabet"),
}  # fmt: skip
VARIANTS = {
    "no UTF-8": "NoText", "no JSON": "NoJson", "trailing data": "TrailingData", "too deep": "TooDeep", "float": "Float", "range": "OutOfRange",
    "repeated key": "RepeatedKey", "reserved key": "ReservedKey", "no CID": "NoCid", "no base64": "NoBase64",
}  # fmt: skip
OPEN = {
    "spelling": "the data has another spelling, with spaces, escapes or another order of keys: a decoder may refuse it",
    "floats": "DAG-JSON has floats; a codec may have none: open where it names no profile",
}


class Refused(Exception):
    """The cause, a key of CAUSES."""


class Number(str):
    """One with a fraction or an exponent."""


class Members(list):
    """The keys and values of a map, in the text's order."""


def name(block):
    """The CID of the block: version 1, DAG-CBOR, SHA-256."""
    return b"\x01\x71\x12\x20" + hashlib.sha256(block).digest()


def unpadded(data):
    return base64.b64encode(data).decode().rstrip("=")


def plain(data):
    """The data for the module json. Keys come in the order of their bytes."""
    if isinstance(data, Link):
        return {"/": cidtexts.written(data)}
    if isinstance(data, bytes):
        return {"/": {"bytes": unpadded(data)}}
    if isinstance(data, list):
        return [plain(it) for it in data]
    if isinstance(data, dict):
        return {key: plain(data[key]) for key in sorted(data, key=str.encode)}
    return data


def has_reserved_key(data):
    """Returns true if a map in it has the key `/`: no text is read as such data."""
    if isinstance(data, dict):
        return "/" in data or any(map(has_reserved_key, data.values()))
    return isinstance(data, list) and any(map(has_reserved_key, data))


def to_json(data):
    return json.dumps(plain(data), ensure_ascii=False, separators=(",", ":"))


def read(text, floats=False):
    """Returns the data of a text, given as bytes; or raises Refused: for what is not JSON first, then for the first that is not data."""
    try:
        told = text.decode("utf-8")
    except UnicodeDecodeError:
        raise Refused("no UTF-8") from None
    return of_json(json_of(told), floats)


def json_of(told):
    """The value, with each map as its Members, and each number that is not an integer as a Number."""

    def no_constant(_):
        raise Refused("no JSON")

    reader = json.JSONDecoder(object_pairs_hook=Members, parse_float=Number, parse_constant=no_constant)
    blank = " \t\n\r"
    try:
        value, end = reader.raw_decode(told.lstrip(blank))
    except (ValueError, RecursionError):
        raise Refused("no JSON") from None
    if re.search("[\ud800-\udfff]", json.dumps(value, ensure_ascii=False)):
        raise Refused("no JSON")
    rest = told.lstrip(blank)[end:]
    if isinstance(value, (int, Number)) and not isinstance(value, bool) and rest.strip(f'{blank}[]{{}},:"')[:1] == rest[:1] != "":
        raise Refused("no JSON")  # an invalid number, such as 01 or 1x
    if rest.strip(blank):
        raise Refused("trailing data")
    return value


def of_json(value, floats, around=0):
    """The data of the value, with this many lists and maps around it."""
    if around > DEEPEST:
        raise Refused("too deep")
    if isinstance(value, Number):
        if floats and math.isfinite(float(value)):
            return float(value)
        raise Refused("float")
    if type(value) is int and not -(2**64) <= value < 2**64:
        raise Refused("range")
    if isinstance(value, Members):
        is_reserved = any(key == "/" for key, _ in value)
        return reserved(value) if is_reserved else of_members(value, floats, around + 1)
    if isinstance(value, list):
        return [of_json(it, floats, around + 1) for it in value]
    return value


def of_members(members, floats, around):
    data = {}
    for key, value in members:
        if key in data:
            raise Refused("repeated key")
        data[key] = of_json(value, floats, around)
    return data


def reserved(members):
    """The link or the bytes that a map with the key `/` says."""
    inner = members[0][1]
    if len(members) == 1 and type(inner) is str:
        try:
            return Link(cidtexts.read(inner))
        except cidtexts.Refused:
            raise Refused("no CID") from None
    is_bytes = len(members) == 1 and isinstance(inner, Members) and len(inner) == 1 and inner[0][0] == "bytes"
    if not is_bytes or type(inner[0][1]) is not str:
        raise Refused("reserved key")
    told = inner[0][1]
    try:
        data = base64.b64decode(told + "=" * (-len(told) % 4), validate=True)
    except (binascii.Error, ValueError):
        raise Refused("no base64") from None
    if unpadded(data) != told:
        raise Refused("no base64")
    return data


def expected(given):
    """The right answer for a text, in the words of a vector: without floats, and with them if that differs."""
    text = given.encode() if isinstance(given, str) else given
    said, other = expected_in(text, False), expected_in(text, True)
    is_open = said["verdict"] != other["verdict"]
    return said | ({"open": "floats"} if is_open else {}) | ({} if said == other else {"with_floats": other})


def expected_in(text, floats):
    try:
        data = read(text, floats)
    except Refused as refused:
        return {"verdict": "refused", "cause": refused.args[0]}
    said = {"verdict": "ok", "block": spell(data).hex()}
    if has_float(data):
        return said
    written = to_json(data)
    return said | {"written": written} | ({} if written.encode() == text else {"open": "spelling"})


def has_float(data):
    return isinstance(data, float) or any(map(has_float, parts_of(data)))
