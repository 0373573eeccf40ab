"""How far a path leads in a block, by its own walk over what `judge` reads: a path as a text, or as a list of segments.

A path is segments between slashes; empty ones say nothing, and nothing is escaped. From a map a segment leads to the value of that key,
and from a list to the item whose index it is, from 0, in decimal without a sign and without zeros in front. A list of segments is taken as
it stands: each may have slashes, or be empty."""

from judge import KINDS, Refused, head, judge, spell

CAUSES = {
    "no block": ("the bytes are no block, for the cause `block_cause`, which is told at `at`", "DAG-CBOR, Strictness 1: a decoder must refuse what is invalid"),
    "no such item": ("a segment is no key of the map, or no index of the list, or stands behind an item of another kind", "IPLD, Pathing: a segment is a key of a map, or an index of a list"),
}  # fmt: skip
VARIANTS = {"no such item": "NoSuchPath"}
OPEN = {
    "numerals": "no standard says whether an index may have a sign, or zeros in front; here it is none then",
    "slashes": "no standard says what an empty segment of a text means; here it says nothing",
}


def index_of(segment, count):
    """The index that the segment is, for this many items; or None."""
    is_decimal = segment.isascii() and segment.isdigit() and (segment == "0" or segment[0] != "0")
    return int(segment) if is_decimal and len(segment) < 20 and int(segment) < count else None


def part_of(data, segment):
    """The part to which the segment leads, and where it begins after the item's first byte; or None."""
    if isinstance(data, list):
        index = index_of(segment, len(data))
        if index is None:
            return None
        return data[index], len(head(4, len(data))) + sum(len(spell(it)) for it in data[:index])
    if isinstance(data, dict) and segment in data:
        keys = list(data)  # in the order of the block
        before = keys[: keys.index(segment)]
        place = len(head(5, len(data))) + sum(len(spell(key)) + len(spell(data[key])) for key in before)
        return data[segment], place + len(spell(segment))
    return None


def way(data, segments):
    """The last item to which segments from the front lead, where it begins, and how many lead there."""
    place = 0
    for number, segment in enumerate(segments):
        found = part_of(data, segment)
        if found is None:
            return data, place, number
        data, place = found[0], place + found[1]
    return data, place, len(segments)


def passed_by(path, count):
    """How many bytes of a text its first segments are: this many, with the slash after them."""
    if count == 0:
        return 0
    pieces, seen = path.split("/"), 0
    for number, it in enumerate(pieces, 1):
        seen += it != ""
        if seen == count:
            return len("/".join(pieces[:number]).encode()) + (number < len(pieces))


def expected(given):
    """The right answer for a block and a path, in the words of a vector."""
    block, path = given
    try:
        data = judge(block)
    except Refused as refused:
        return {"verdict": "refused", "cause": "no block", "block_cause": refused.cause, "at": refused.place}
    is_text = isinstance(path, str)
    segments = [it for it in path.split("/") if it] if is_text else path
    last, begin, count = way(data, segments)
    said = {"kind": KINDS[type(last)], "span": [begin, begin + len(spell(last))]}
    told = {"open": "slashes"} if is_text and path and "" in path.split("/") else {}
    if count == len(segments):
        return {"verdict": "ok", **said, **told}
    if isinstance(last, list) and is_numeral(segments[count]):
        told = {"open": "numerals"}
    return {"verdict": "refused", "cause": "no such item", **(said | {"passed": passed_by(path, count)} if is_text else {}), **told}


def is_numeral(segment):
    """Returns true if some read it as an index, and others do not."""
    digits = segment.strip().removeprefix("+").removeprefix("-")
    return digits.isascii() and digits.isdigit() and segment != str(int(digits))
