"""What bytes are by RFC 8949 alone, of which DAG-CBOR is a part: well-formed (3, and appendix C), valid (5.3), and their data.

It tells a peer that is not strict, because it never promised to be, from one that is wrong even as CBOR."""

import math
import struct


class NotWellFormed(Exception):
    pass


BREAK = object()


def argument_of(block, at):
    """Major type, information, argument (None if it is indefinite), and the place after them."""
    if at >= len(block):
        raise NotWellFormed
    major, information = block[at] >> 5, block[at] & 31
    if information < 24:
        return major, information, information, at + 1
    if information == 31 and major not in (0, 1, 6):
        return major, information, None, at + 1
    width = {24: 1, 25: 2, 26: 4, 27: 8}.get(information)
    if width is None or at + 1 + width > len(block):
        raise NotWellFormed
    return major, information, int.from_bytes(block[at + 1 : at + 1 + width], "big"), at + 1 + width


def string_of(block, at, major, length):
    """The chunks of a string: one, unless the length is indefinite."""
    if length is not None:
        if at + length > len(block):
            raise NotWellFormed
        return [block[at : at + length]], at + length
    chunks = []
    while True:
        if block[at : at + 1] == b"\xff":
            return chunks, at + 1
        other, _, length, at = argument_of(block, at)
        if other != major or length is None or at + length > len(block):
            raise NotWellFormed
        chunks.append(block[at : at + length])
        at += length


def simple_of(information, argument):
    """An item of major type 7 whose information is not 31."""
    if information < 24 or information == 24:
        if information == 24 and argument < 32:
            raise NotWellFormed
        return ("simple", argument)
    if information == 25:
        (number,) = struct.unpack(">e", argument.to_bytes(2, "big"))
    elif information == 26:
        (number,) = struct.unpack(">f", argument.to_bytes(4, "big"))
    else:
        (number,) = struct.unpack(">d", argument.to_bytes(8, "big"))
    return number_of(number)


def number_of(number):
    """A float that is an integer counts as that integer, because some languages have one kind of number."""
    if math.isfinite(number) and number == int(number) and (number or math.copysign(1, number) > 0):
        return ("integer", int(number))
    return ("float", repr(number))


def parts_of(block, at, count, faults):
    """This many items, or those up to the break."""
    parts = []
    while count is None or len(parts) < count:
        part, at = item_of(block, at, faults, count is None)
        if part is BREAK:
            break
        parts.append(part)
    return parts, at


def text_of(chunks, faults):
    """Each chunk is a text, so no character is spread over two (3.2.3)."""
    try:
        return ("text", "".join(it.decode("utf-8") for it in chunks))
    except UnicodeDecodeError:
        faults.append("invalid UTF-8")
        return ("text", b"".join(chunks))


def entries_of(parts, faults):
    if len(parts) % 2:
        raise NotWellFormed
    entries = list(zip(parts[::2], parts[1::2]))
    if len(set(map(repr, parts[::2]))) < len(entries):
        faults.append("repeated key")
    return ("map", sorted(entries, key=lambda entry: repr(entry[0])))


def tagged(number, inner):
    """A bignum is the integer that it says (3.4.3)."""
    if number in (2, 3) and inner[0] == "bytes":
        told = int.from_bytes(inner[1], "big")
        return ("integer", told if number == 2 else -1 - told)
    return ("tag", number, inner)


def item_of(block, at, faults, may_break=False):
    """The data of the item that stands there, and the place after it. What makes the item invalid is added to faults."""
    major, information, argument, at = argument_of(block, at)
    if major < 2:
        return ("integer", argument if major == 0 else -1 - argument), at
    if major < 4:
        chunks, at = string_of(block, at, major, argument)
        return (("bytes", b"".join(chunks)) if major == 2 else text_of(chunks, faults)), at
    if major == 4:
        parts, at = parts_of(block, at, argument, faults)
        return ("list", parts), at
    if major == 5:
        parts, at = parts_of(block, at, argument and 2 * argument, faults)
        return entries_of(parts, faults), at
    if major == 6:
        inner, at = item_of(block, at, faults)
        return tagged(argument, inner), at
    if argument is None:
        if not may_break:
            raise NotWellFormed
        return BREAK, at
    return simple_of(information, argument), at


def data_of(block):
    """Returns the data, and why it is not valid; or raises NotWellFormed."""
    faults = []
    found, at = item_of(block, 0, faults)
    if at < len(block):
        raise NotWellFormed
    return found, faults


def level(block):
    """`not well-formed`, `not valid` if a text is not UTF-8, `repeated keys`, or `CBOR`."""
    try:
        faults = data_of(block)[1]
    except NotWellFormed:
        return "not well-formed"
    return "CBOR" if not faults else "not valid" if "invalid UTF-8" in faults else "repeated keys"


def same_data(one, other):
    """Returns true if two byte strings are CBOR of the same data."""
    try:
        return data_of(one)[0] == data_of(other)[0]
    except NotWellFormed:
        return one == other
