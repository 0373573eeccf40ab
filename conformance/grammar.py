"""The vectors' bytes, group by group, from the grammar: each a slug, bytes, why it is interesting, and the standard's section.

What is right of them is not said here: the judges say it. Heads of any width are made by `wide`."""

from judge import WIDTHS, Link, head, spell

NAMES = ("unsigned", "negative", "bytes", "text", "list", "map", "tag", "simple")
EDGES = (0, 1, 23, 24, 255, 256, 65535, 65536, 2**32 - 1, 2**32, 2**63 - 1, 2**63, 2**64 - 1)
HEADS, STRICT = "RFC 8949, 3", "DAG-CBOR, Strictness 2"
LINKS, CID, VARINT = "DAG-CBOR, Links", "CID, Binary format", "unsigned-varint"
UTF8, MAPS = "RFC 3629, 3", "DAG-CBOR, Strictness 2; DAG-CBOR, Map Keys"
SHA = bytes(range(32))
V1 = b"\x01\x71\x12\x20" + SHA
V0 = b"\x12\x20" + SHA


def wide(major, argument, width):
    """The head of the argument in this many bytes after the first; with width 0 in none."""
    if width == 0:
        return bytes([major << 5 | argument])
    information = next(key for key, it in WIDTHS.items() if it == width)
    return bytes([major << 5 | information]) + argument.to_bytes(width, "big")


def payload(major, argument):
    """What follows such a head: this many letters, zeros, or entries with keys in order."""
    if major in (2, 3):
        return b"a" * argument
    if major == 4:
        return b"\0" * argument
    if major == 5:
        keys = [chr(97 + n // 26) + chr(97 + n % 26) for n in range(argument)]
        return b"".join(spell(key) + b"\0" for key in keys)
    return b""


def heads():
    for major in range(6):
        for argument in EDGES:
            if major > 1 and argument > (256 if major == 5 else 65536):
                continue
            for width in (0, 1, 2, 4, 8):
                if argument < (24 if width == 0 else 256**width):
                    block = wide(major, argument, width) + payload(major, argument)
                    shortest = wide(major, argument, width) == head(major, argument)
                    why = "the shortest head" if shortest else "more bytes than the argument needs"
                    yield f"{NAMES[major]}-{argument}-in-{width}", block, f"{why} of {argument}", HEADS if shortest else STRICT
    for major in range(8):
        for information in (28, 29, 30):
            block = bytes([major << 5 | information])
            yield f"{NAMES[major]}-reserved-{information}", block, "reserved additional information", HEADS
            yield f"{NAMES[major]}-reserved-{information}-more", block + b"\0" * 8, "the same, with bytes behind it", HEADS
        for width in (1, 2, 4, 8):
            for there in range(width):
                block = wide(major, 256**width - 1, width)[: 1 + there]
                yield f"{NAMES[major]}-cut-{there}-of-{width}", block, "an argument that is cut", HEADS
    yield "none", b"", "no byte at all", HEADS


def integers():
    section = "RFC 8949, 3.1"
    for edge in (2**7, 2**8, 2**15, 2**16, 2**31, 2**32, 2**53, 2**63, 2**64):
        for number in (edge - 1, edge, edge + 1, -edge + 1, -edge, -edge - 1, -edge - 2):
            if -(2**64) <= number < 2**64:
                sign = "minus-" if number < 0 else ""
                yield f"{sign}{abs(number)}", spell(number), f"{number}, beside a power of two that types end at", section
    for number in (0, 1, 10, 23, 24, 25, 99, 100, 1000, 10**6, 10**12, -1, -10, -24, -25, -100, -1000):
        yield f"small-{'minus-' if number < 0 else ''}{abs(number)}", spell(number), "of RFC 8949, appendix A, or beside such a one", section
    yield "minus-zero", b"\x20", "-1: major type 1 has no zero below zero", section


TEXTS = [
    ("empty", b"", "no character"),
    ("nul", b"a\0b", "NUL in the middle: no end of the text"),
    ("only-nul", b"\0", "NUL alone"),
    ("controls", bytes(range(1, 32)) + b"\x7f", "control characters"),
    ("ascii", b"DAG-CBOR", "plain ASCII"),
    ("quotes", b"\"\\/'", "quotes and a backslash: nothing is escaped in CBOR"),
    ("two-bytes", "é".encode(), "two bytes"),
    ("three-bytes", "水".encode(), "three bytes"),
    ("four-bytes", "𐅑".encode(), "four bytes: a surrogate pair in UTF-16, none here"),
    ("first-of-two", b"\xc2\x80", "U+0080"),
    ("last-of-two", b"\xdf\xbf", "U+07FF"),
    ("first-of-three", b"\xe0\xa0\x80", "U+0800"),
    ("last-of-three", b"\xef\xbf\xbf", "U+FFFF, a noncharacter, which is UTF-8"),
    ("before-surrogates", b"\xed\x9f\xbf", "U+D7FF"),
    ("behind-surrogates", b"\xee\x80\x80", "U+E000"),
    ("first-of-four", b"\xf0\x90\x80\x80", "U+10000"),
    ("last-of-all", b"\xf4\x8f\xbf\xbf", "U+10FFFF"),
    ("mark", b"\xef\xbb\xbf", "a byte order mark, which is a character here"),
    ("mark-first", b"\xef\xbb\xbfa", "a byte order mark that must not be dropped"),
    ("replacement", b"\xef\xbf\xbd", "U+FFFD itself"),
    ("composed", "é".encode(), "U+00E9"),
    ("decomposed", "e\u0301".encode(), "e and U+0301: not to be made one character"),
    ("line-ends", b"a\r\nb\n", "line ends, to be left as they are"),
    ("beyond", b"\xf4\x90\x80\x80", "U+110000"),
    ("far-beyond", b"\xf7\xbf\xbf\xbf", "U+1FFFFF"),
    ("five", b"\xf8\x88\x80\x80\x80", "five bytes, of an older UTF-8"),
    ("six", b"\xfc\x84\x80\x80\x80\x80", "six bytes, of an older UTF-8"),
    ("fe", b"\xfe", "a byte that UTF-8 has nowhere"),
    ("ff", b"\xff", "a byte that UTF-8 has nowhere"),
    ("overlong-nul", b"\xc0\x80", "U+0000 in two bytes, as some languages write it"),
    ("overlong-slash", b"\xc0\xaf", "a slash in two bytes"),
    ("overlong-c1", b"\xc1\xbf", "U+007F in two bytes"),
    ("overlong-three", b"\xe0\x80\xaf", "a slash in three bytes"),
    ("overlong-three-last", b"\xe0\x9f\xbf", "U+07FF in three bytes"),
    ("overlong-four", b"\xf0\x80\x80\xaf", "a slash in four bytes"),
    ("overlong-four-last", b"\xf0\x8f\xbf\xbf", "U+FFFF in four bytes"),
    ("high-surrogate", b"\xed\xa0\x80", "U+D800 alone"),
    ("low-surrogate", b"\xed\xbf\xbf", "U+DFFF alone"),
    ("pair", b"\xed\xa0\x81\xed\xb0\x80", "a surrogate pair in six bytes (CESU-8)"),
    ("tail-alone", b"\x80", "a continuation byte alone"),
    ("tail-last", b"a\xbf", "a continuation byte behind a letter"),
    ("cut-two", b"\xc3", "the first byte of two"),
    ("cut-three", b"\xe6\xb0", "two bytes of three"),
    ("cut-four", b"\xf0\x90\x85", "three bytes of four"),
    ("cut-then-letter", b"\xe6\xb0a", "two bytes of three, then a letter"),
    ("latin-1", b"\xe9", "é in ISO 8859-1"),
    ("bad-far", b"a" * 40 + b"\xff" + b"a" * 40, "a bad byte far from both ends, beyond blocks of 16 and 32"),
    ("bad-last-of-32", b"a" * 31 + b"\xc3", "cut at the end of a block of 32"),
    ("good-across-32", b"a" * 31 + "é".encode(), "a character across the end of a block of 32"),
]


def texts():
    for slug, text, why in TEXTS:
        yield slug, head(3, len(text)) + text, why, UTF8
        yield f"{slug}-key", b"\xa1" + head(3, len(text)) + text + b"\0", f"as a key: {why}", UTF8
    for slug in ("c3", "e6b0", "f09085"):
        part = bytes.fromhex(slug)
        rest = {"c3": b"\xa9", "e6b0": b"\xb4", "f09085": b"\x91"}[slug]
        block = b"\x82" + head(3, len(part)) + part + head(3, len(rest)) + rest
        yield f"split-{slug}", block, "one character split over two texts: neither is UTF-8", UTF8
    yield "announced-short", b"\x61\xc3\xa9", "a length that cuts the character: counted are bytes", "RFC 8949, 3.1"
    yield "announced-characters", b"\x61\xe6\xb0\xb4", "a length in characters and not in bytes", "RFC 8949, 3.1"


def byte_strings():
    section = "RFC 8949, 3.1"
    rows = {
        "empty": b"", "zero": b"\0", "zeros": bytes(23), "all-ones": b"\xff" * 8, "no-utf8": b"\xc3\x28", "utf8": "é".encode(),
        "a-block": b"\x43\x01\x02\x03", "a-cid": V1, "a-zero-and-cid": b"\0" + V1, "every-byte": bytes(range(256)),
    }  # fmt: skip
    for slug, data in rows.items():
        yield slug, spell(data), "bytes that mean nothing here: they come back as they are", section
    yield "cut", b"\x43\x01\x02", "a payload that is cut by a byte", section
    yield "cut-all", b"\x43", "a payload of which nothing is there", section


def lists():
    section = "RFC 8949, 3.1"
    mixed = [None, False, True, 0, -1, b"\x01", "a", [], {}, Link(V1), [[]], {"a": []}]
    rows = {"empty": [], "of-one": [0], "mixed": mixed, "of-empty": [[], {}, "", b""], "of-links": [Link(V1), Link(V0)], "nulls": [None] * 24}
    for slug, data in rows.items():
        yield slug, spell(data), "a list", section
    yield "too-few", b"\x82\x01", "an item is missing", section
    yield "too-few-within", b"\x82\x82\x01\x02", "the inner list takes the outer's item", section
    yield "too-many", b"\x81\x01\x02", "an item too many is trailing data", section
    yield "non-minimal-within", b"\x82\x01\x18\x17", "a fault behind a sound item", STRICT
    yield "unordered-map-within", bytes.fromhex("81a2616200616100"), "a fault two levels down", STRICT


def entries(*keys):
    """A map of these keys in this order, sound or not. A key is a text, or the bytes of another item."""
    parts = [(key if isinstance(key, bytes) else spell(key)) + spell(n % 24) for n, key in enumerate(keys)]
    return head(5, len(keys)) + b"".join(parts)


ORDERS = [
    ("rising", ("a", "b", "c"), "by bytes"),
    ("falling", ("b", "a"), "of one length, the greater first"),
    ("shorter-first", ("b", "aa"), "the shorter first, though its letter is greater"),
    ("longer-first", ("aa", "b"), "in the order of a dictionary, which is not DAG-CBOR's"),
    ("shorter-first-23", ("z" * 23, "a" * 24), "of 23 and 24 bytes: heads of one and two bytes"),
    ("longer-first-24", ("a" * 24, "z" * 23), "of 24 and 23 bytes, the longer first"),
    ("shorter-first-255", ("z" * 255, "a" * 256), "of 255 and 256 bytes"),
    ("longer-first-256", ("a" * 256, "z" * 255), "of 256 and 255 bytes, the longer first"),
    ("prefix", ("a", "ab", "abc"), "each begins the next"),
    ("prefix-falling", ("ab", "a"), "the longer first, of which the other is the beginning"),
    ("late-difference", ("aaaaaaaaaaaaaaaab", "aaaaaaaaaaaaaaaaa"), "they differ in byte 17 alone, and fall"),
    ("third-unordered", ("a", "c", "b"), "the third stands before the second"),
    ("last-repeats-first", ("a", "b", "a"), "a key that comes again later: out of order"),
    ("repeated", ("a", "a"), "a key twice in a row"),
    ("repeated-empty", ("", ""), "the empty key twice"),
    ("repeated-long", ("k" * 30, "k" * 30), "a long key twice"),
    ("empty-key", ("",), "the empty key alone"),
    ("empty-first", ("", "a"), "the empty key is the shortest"),
    ("empty-last", ("a", ""), "the empty key behind another"),
    ("non-ascii", ("é", "水"), "two bytes before three"),
    ("non-ascii-by-length", ("zz", "é", "水"), "ASCII and two bytes are of one length: bytes decide"),
    ("by-bytes-not-characters", ("é", "aaa"), "one character of two bytes stands before three of one"),
    ("by-characters", ("aaa", "é"), "the same the other way: lengths in bytes, and not in characters"),
    ("code-points", ("\uffff", "\U00010000"), "by length: three bytes before four"),
    ("utf-16-order", ("\U00010000", "\ue000"), "the order of UTF-16 code units, the longer first"),
    ("same-length-utf-8", ("\ue000a", "\U00010000"), "of one length: ee before f0; in UTF-16 they stand the other way"),
    ("same-length-falling", ("\U00010000", "\ue000a"), "of one length: f0 before ee, as UTF-16 would have it"),
    ("signed-bytes", ("a", "\x7f"), "61 before 7f"),
    ("signed-bytes-high", ("zz", "é"), "7a before c3: bytes are not signed"),
    ("signed-bytes-falling", ("é", "zz"), "c3 before 7a: as signed bytes would be"),
    ("case", ("A", "a"), "capitals before small letters"),
    ("case-falling", ("a", "A"), "small before capital"),
    ("case-twins", ("KEY", "key"), "two keys, though they differ in case alone"),
    ("normal-forms", ("é", "e\u0301"), "two keys that look alike, composed and not"),
    ("nul-key", ("\0", "\0\0"), "keys of NUL"),
    ("nul-inside", ("a\0", "a\0b"), "keys that a C string would make one"),
    ("nul-twins", ("a\0b", "a\0c"), "keys that are one up to the NUL"),
    ("digits", ("9", "10"), "numerals: by length"),
    ("digits-falling", ("10", "9"), "numerals: by bytes alone"),
    ("digits-as-numbers", ("2", "a", "1"), "numerals first, as some objects would have them"),
    ("letter-then-digits", ("B", "10"), "a numeral behind a letter: an object of JavaScript turns them round"),
    ("letters-and-digits", ("1", "a", "00", "10"), "numerals among names"),
    ("numeral-forms", ("1", "01", "001"), "three keys, not one number"),
    ("proto", ("__proto__",), "a key that is special in JavaScript"),
    ("proto-and-more", ("toString", "__proto__", "constructor"), "names of an object's own, in order"),
    ("length-key", ("size", "length"), "names of an object's own"),
    ("slash", ("/",), "the key that DAG-JSON keeps for links; a plain key here"),
    ("slash-text", ("/", "b"), "the same with another"),
]  # fmt: skip


def map_rows():
    """Maps that are no rows of keys alone."""
    yield "empty", b"\xa0", "a map of nothing", "RFC 8949, 3.1"
    yield "proto-map", bytes.fromhex("a1695f5f70726f746f5f5fa1616101"), "a map under __proto__: it must come back", MAPS
    yield "value-missing", b"\xa1\x61a", "a key without its value", "RFC 8949, 3.1"
    yield "entry-missing", b"\xa2\x61a\x01", "an entry is missing", "RFC 8949, 3.1"
    yield "odd", b"\xa1\x61a\x01\x61b", "a key too many is trailing data", "RFC 8949, 3.1"
    yield "same-value-repeated", b"\xa2\x61a\x01\x61a\x01", "a key twice with one value", MAPS
    yield "key-non-minimal", b"\xa1\x78\x01a\x00", "a key's length in two bytes", STRICT
    yield "repeated-by-width", b"\xa2\x61a\x00\x78\x01a\x01", "a key twice, the second in other bytes", STRICT
    yield "value-non-minimal", b"\xa1\x61a\x18\x01", "a value in more bytes than it needs", STRICT
    yield "nested", spell({"a": {"b": {"c": {}}}}), "maps in maps", "RFC 8949, 3.1"
    yield "unordered-within", b"\xa1\x61a\xa2\x61b\x00\x61a\x00", "unordered one level down", MAPS
    yield "repeated-within-list", b"\x81\xa2\x61a\x00\x61a\x00", "repeated in a list", MAPS
    yield "same-key-at-two-levels", spell({"a": {"a": {"a": 0}}}), "one key on each level, which is sound", MAPS
    yield "many", spell({f"key{n:04}": n for n in range(100)}), "a hundred entries", MAPS


KEYS = {
    "integer": b"\x01", "minus": b"\x20", "zero": b"\x00", "bytes": b"\x41a", "empty-bytes": b"\x40", "null": b"\xf6", "true": b"\xf5",
    "list": b"\x80", "map": b"\xa0", "link": b"\xd8\x2a\x45\x00\x01\x55\x00\x00", "float": b"\xfb\x3f\xf8" + bytes(6),
    "undefined": b"\xf7", "break": b"\xff", "tagged-text": b"\xd8\x20\x61a", "indefinite-text": b"\x7f\x61a\xff",
}  # fmt: skip


def maps():
    for slug, keys, why in ORDERS:
        yield slug, entries(*keys), f"keys: {why}", MAPS
    yield from map_rows()
    for slug, key in KEYS.items():
        yield f"key-{slug}", entries(key), "a key that is no plain text", MAPS
        yield f"second-key-{slug}", entries("a", key), "the same, behind a sound entry", MAPS
    yield "key-twins-of-kinds", entries("a", b"\x41a"), "a text and a byte string of the same bytes", MAPS
    for slug, key in (("indefinite-bytes", b"\x5f\x41a\xff"), ("reserved", b"\x1c"), ("indefinite-integer", b"\x1f"), ("tag-reserved", b"\xdc")):
        yield f"key-{slug}", entries(key), "two causes at one byte: no text, and no head", MAPS
    yield "unordered-and-no-utf8", b"\xa2\x62\xc3\xa9\x00\x62\xc3\x28\x00", "a key that is not UTF-8, nor behind the one before it", MAPS
    yield "repeated-and-non-minimal", b"\xa2\x60\x00\x78\x00\x00", "the empty key again, its length in two bytes", MAPS
    yield "key-numeral-twin", entries(b"\x01", "1"), "the integer 1 and the text 1, which some make one", MAPS


def link(payload, form=b"\xd8\x2a"):
    return form + head(2, len(payload)) + payload


def varint(number, width=0):
    """The unsigned varint, or a longer one if a width is given."""
    parts = []
    while number >= 128 or len(parts) + 1 < width:
        parts.append(number & 127 | 128)
        number >>= 7
    return bytes([*parts, number])


def cid(codec=b"\x71", code=b"\x12", length=None, digest=SHA, version=b"\x01"):
    return version + codec + code + (varint(len(digest)) if length is None else length) + digest


def links():
    yield "v1", link(b"\0" + V1), "version 1, DAG-CBOR, SHA-256", LINKS
    yield "v1-raw", link(b"\0" + cid(b"\x55")), "version 1, raw bytes", LINKS
    yield "v1-dag-pb", link(b"\0" + cid(b"\x70")), "version 1, DAG-PB", LINKS
    yield "v0", link(b"\0" + V0), "version 0: 12 20 and 32 bytes", CID
    yield "in-list", b"\x82" + link(b"\0" + V1) * 2, "one link twice", LINKS
    yield "in-map", b"\xa1\x61a" + link(b"\0" + V1), "a link as a value", LINKS
    for slug, form in (("d9", b"\xd9\0\x2a"), ("da", b"\xda\0\0\0\x2a"), ("db", b"\xdb" + bytes(7) + b"\x2a")):
        yield f"tag-in-{slug}", link(b"\0" + V1, form), "the number 42 in more bytes than it needs", STRICT
    yield "bytes-non-minimal", b"\xd8\x2a\x59\0\x25\0" + V1, "the byte string's length in more bytes than it needs", STRICT
    yield "bytes-indefinite", b"\xd8\x2a\x5f\x58\x25\0" + V1 + b"\xff", "an indefinite byte string", STRICT
    yield "no-zero", link(V1), "without the zero byte, the multibase prefix of bytes", LINKS
    yield "one-for-zero", link(b"\x01" + V1), "another byte than zero before it", LINKS
    yield "multibase-text", link(b"b" + V1), "a multibase letter before it", LINKS
    yield "empty", link(b""), "an empty byte string", LINKS
    yield "zero-alone", link(b"\0"), "a zero byte and no CID", LINKS
    yield "zero-twice", link(b"\0\0" + V1), "two zero bytes", LINKS
    for slug, inner in (
        ("text", b"\x61a"), ("text-cid", spell("bafyreifqwkmiw256ojf2zws6tzjeonw6bpd5vza4i22ccpcq4hjv2ts7cm")), ("integer", b"\x00"),
        ("null", b"\xf6"), ("list", b"\x80"), ("map", b"\xa0"), ("link", link(b"\0" + V1)), ("nothing", b""), ("float", b"\xfb" + bytes(8)),
    ):  # fmt: skip
        yield f"on-{slug}", b"\xd8\x2a" + inner, "tag 42 on something else than a byte string", LINKS
    yield "on-indefinite-text", b"\xd8\x2a\x7f\x61a\xff", "two causes at one byte: no byte string, and an indefinite length", LINKS
    yield "on-reserved", b"\xd8\x2a\x1c", "two causes at one byte: no byte string, and a reserved width", LINKS
    yield "long-and-non-minimal", b"\xd8\x2a\x59\0\x5f\0" + cid(digest=b"d" * 90), "a longer CID than some take, its length in two bytes", LINKS
    yield "untagged", spell(b"\0" + V1), "the same byte string without the tag is bytes", LINKS


def cids():
    for version in (0, 2, 3, 18, 127):
        yield f"version-{version}", link(b"\0" + cid(version=varint(version))), f"a version {version} in the form of version 1", CID
    yield "version-1-long", link(b"\0" + cid(version=b"\x81\x00")), "the version in two bytes", VARINT
    yield "version-0-short", link(b"\0" + V0[:-1]), "version 0 with 31 bytes of digest", CID
    yield "version-0-long", link(b"\0" + V0 + b"\0"), "version 0 with a byte behind it", CID
    yield "version-0-other-length", link(b"\0\x12\x1f" + SHA[:31]), "SHA-256 with 31 bytes and no version", CID
    yield "version-0-other-hash", link(b"\0\x11\x20" + SHA), "another hash and no version", CID
    for length in (0, 1, 20, 31, 32, 33, 48, 63, 64, 65, 66, 127, 128, 256):
        block = link(b"\0" + cid(code=b"\x00", digest=b"d" * length))
        yield f"identity-{length}", block, f"a digest by the identity, of {length} bytes", CID
        yield f"digest-{length}", link(b"\0" + cid(digest=b"d" * length)), f"a digest of {length} bytes", CID
    yield "digest-short", link(b"\0" + V1[:-1]), "the digest is a byte shorter than it says", CID
    yield "digest-long", link(b"\0" + V1 + b"\0"), "a byte behind the digest", CID
    yield "two-cids", link(b"\0" + V1 + V1), "two CIDs", CID
    for cut in range(1, 5):
        yield f"cut-{cut}", link(b"\0" + V1[:cut]), "a CID that ends within its numbers or before its digest", CID
    for bits in (7, 14, 21, 28, 31, 32, 35, 42, 49, 53, 56, 63, 64):
        for number in (2**bits - 1, 2**bits):
            if number < 2**64:
                why = f"the codec {number}, where a varint's length or a type changes"
                yield f"codec-{number}", link(b"\0" + cid(codec=varint(number))), why, VARINT
                yield f"hash-{number}", link(b"\0" + cid(code=varint(number))), why.replace("codec", "hash code"), VARINT
    yield "codec-beyond", link(b"\0" + cid(codec=varint(2**64))), "a codec of 2^64", VARINT
    yield "codec-far-beyond", link(b"\0" + cid(codec=varint(2**70))), "a codec in eleven bytes", VARINT
    for where in ("codec", "code", "length"):
        for width in (2, 3, 9, 10, 11):
            number = {"codec": 0x71, "code": 0x12, "length": 32}[where]
            block = link(b"\0" + cid(**{where: varint(number, width)}))
            yield f"{where}-in-{width}", block, f"a varint in {width} bytes where one is enough", VARINT
    yield "codec-unending", link(b"\0\x01" + b"\x80" * 20), "a varint without an end", VARINT
    yield "length-beyond", link(b"\0" + cid(length=varint(2**64 - 1))), "a digest of 2^64 - 1 bytes is announced", CID


def tags():
    section = "DAG-CBOR, Strictness 1"
    for number in (*range(0, 7), 21, 22, 23, 24, 30, 32, 33, 36, 37, 41, 43, 255, 256, 258, 55799, 65535, 2**32 - 1, 2**64 - 1):
        yield f"{number}-on-integer", head(6, number) + b"\x01", f"tag {number}", section
        yield f"{number}-on-bytes", head(6, number) + b"\x41\x01", f"tag {number}", section
    for number in (0, 24, 41, 43, 106, 255, 298, 10794, 2**32 + 42):
        yield f"{number}-on-cid", link(b"\0" + V1, head(6, number)), f"tag {number} on what is a link's under 42", section
    yield "date-text", b"\xc0" + spell("2013-03-21T20:04:00Z"), "a date", section
    yield "bignum", b"\xc2\x49\x01" + bytes(8), "2^64 as a bignum", section
    yield "small-bignum", b"\xc2\x41\x01", "1 as a bignum", section
    yield "negative-bignum", b"\xc3\x49\x01" + bytes(8), "-1 - 2^64 as a bignum", section
    yield "self-described", b"\xd9\xd9\xf7\xf6", "the tag that says: this is CBOR", section
    yield "nested", b"\xc1\xc1\x00", "a tag on a tag", section
    yield "shared", b"\x82\xd8\x1c\x80\xd8\x1d\x00", "a shared value and a reference to it", section
    yield "cycle", b"\xd8\x1c\x81\xd8\x1d\x00", "a list that holds itself", section
    yield "alone", b"\xc1", "a tag on nothing", HEADS
    yield "42-by-two-heads", b"\xd8\x2a\xd8\x2a" + spell(b"\0" + V1), "a link's tag twice", section
    yield "in-map", b"\xa1\x61a\xc1\x00", "a tag on a value", section
    yield "non-minimal", b"\xd8\x01\x00", "tag 1 in two bytes", STRICT


def simples():
    section = "DAG-CBOR, Strictness 3"
    for number in range(24):
        yield f"{number}", head(7, number), {20: "false", 21: "true", 22: "null", 23: "undefined"}.get(number, "unassigned"), section
    for number in (0, 19, 20, 21, 22, 23, 24, 31):
        yield f"f8-{number}", b"\xf8" + bytes([number]), "a value below 32 in two bytes, which is not well-formed", "RFC 8949, 3.3"
    for number in (32, 127, 255):
        yield f"f8-{number}", b"\xf8" + bytes([number]), "an unassigned value in two bytes", section
    yield "in-list", b"\x82\xf5\xf7", "undefined in a list", section


def indefinites():
    rows = {
        "bytes-empty": "5fff", "bytes-one": "5f4101ff", "bytes-two": "5f41014102ff", "text-empty": "7fff", "text-one": "7f6161ff",
        "text-two": "7f61616162ff", "list-empty": "9fff", "list-two": "9f0102ff", "map-empty": "bfff", "map-one": "bf616100ff",
        "bytes-no-break": "5f4101", "text-no-break": "7f6161", "list-no-break": "9f01", "map-no-break": "bf616100",
        "map-odd": "bf6161ff", "text-of-bytes": "7f4161ff", "bytes-of-text": "5f6161ff", "text-nested": "7f7f6161ffff",
        "text-split-character": "7f61c361a9ff", "unsigned": "1f", "negative": "3f", "tag": "df", "unsigned-more": "1f00ff",
        "break": "ff", "break-in-list": "81ff", "break-as-value": "a16161ff", "break-behind": "00ff", "break-in-tag": "d82aff",
        "list-in-list": "819fff", "list-in-definite": "829f01ff02", "break-too-many": "9fffff", "key-indefinite": "a17f6161ff00",
    }  # fmt: skip
    for slug, block in rows.items():
        yield slug, bytes.fromhex(block), "an indefinite length, or a break", STRICT


def floats():
    section = "DAG-CBOR, Strictness 3"
    rows = {
        "zero": "fb0000000000000000", "minus-zero": "fb8000000000000000", "one-and-a-half": "fb3ff8000000000000",
        "one": "fb3ff0000000000000", "tenth": "fb3fb999999999999a", "least": "fb0000000000000001", "greatest": "fb7fefffffffffffff",
        "two-to-53": "fb4340000000000000", "two-to-64": "fb43f0000000000000", "minus-one": "fbbff0000000000000",
        "least-normal": "fb0010000000000000", "minus-greatest": "fbffefffffffffffff", "single-exact": "fb3fc0000000000000",
        "minus-nan": "fbfff8000000000000", "nan": "fb7ff8000000000000", "nan-payload": "fb7ff8000000000001",
        "nan-signalling": "fb7ff0000000000001", "infinity": "fb7ff0000000000000", "minus-infinity": "fbfff0000000000000",
        "half": "f93c00", "half-zero": "f90000", "half-nan": "f97e00", "half-infinity": "f97c00", "single": "fa3fc00000",
        "single-nan": "fa7fc00000", "single-infinity": "fa7f800000", "cut": "fb3ff80000000000", "half-cut": "f93c", "single-cut": "fa3fc000",
        "in-list": "8201fb3ff8000000000000", "in-map": "a16161fb3ff8000000000000", "half-in-list": "81f93c00", "nan-in-list": "81fb7ff8000000000000",
        "beside-integer": "8201fb3ff0000000000000", "behind": "fb3ff800000000000000", "and-unordered": "a26162fb3ff8000000000000616100",
        "infinity-in-map": "a16161fb7ff0000000000000", "two": "82fb3ff8000000000000fbbff8000000000000",
    }  # fmt: skip
    for slug, block in rows.items():
        yield slug, bytes.fromhex(block), "only floats of 64 bits, neither NaN nor infinite, are DAG-CBOR", section


def depths():
    section = "RFC 8949, 10"
    for count in (1, 2, 16, 31, 32, 33, 63, 64, 65, 100, 126, 127):
        yield f"lists-{count}", b"\x81" * count + b"\x80", f"{count} lists around a list", "RFC 8949, 3.1"
        yield f"maps-{count}", b"\xa1\x61a" * count + b"\xa0", f"{count} maps around a map", "RFC 8949, 3.1"
    for count in (128, 129, 255, 256, 257, 500, 512, 513, 1000, 1024, 10_000, 100_000):
        yield f"lists-{count}", b"\x81" * count + b"\x80", f"{count} lists around a list", section
    for count in (128, 1024):
        yield f"maps-{count}", b"\xa1\x61a" * count + b"\xa0", f"{count} maps around a map", section
    yield "lists-128-non-minimal", b"\x81" * 127 + b"\x98\x01\x80", "too deep for some, and a count in two bytes", section
    yield "links-at-127", b"\x81" * 127 + link(b"\0" + V1), "a link in 127 lists", "RFC 8949, 3.1"
    for slug, byte in (("lists", b"\x81"), ("tags", b"\xc1"), ("indefinite", b"\x9f"), ("pairs", b"\x82")):
        yield f"open-{slug}", byte * 100_000, "100,000 that are begun and none ended", section


def announced():
    section = "RFC 8949, 3.1; RFC 8949, 10"
    for major in range(2, 6):
        for bits in (16, 24, 28, 30, 31, 32, 40, 48, 53, 61, 62, 63, 64):
            number = 2**bits - 1
            yield f"{NAMES[major]}-{bits}-bits", head(major, number), f"2^{bits} - 1 announced, and nothing there", section
            if bits >= 28:
                yield f"{NAMES[major]}-{bits}-bits-some", head(major, number) + b"\x61" * 8, "the same, and eight bytes", section
    for bits in (31, 32, 63, 64):
        yield f"key-{bits}-bits", b"\xa1" + head(3, 2**bits - 1), "a key of such a length", section
        yield f"link-{bits}-bits", b"\xd8\x2a" + head(2, 2**bits - 1), "a link of such a length", section
        yield f"nested-{bits}-bits", head(4, 2**bits - 1) * 8, "eight such lists in each other", section
        yield f"indefinite-{bits}-bits", b"\x5f" + head(2, 2**bits - 1), "a chunk of such a length", section
    yield "sum-overflows", b"\x82\x41\x00\x5b" + b"\xff" * 8, "a length whose sum with the place has more than 64 bits", section


def trailing():
    section = "DAG-CBOR, Strictness 4"
    rows = {"null": b"\xf6", "integer": b"\x18\x18", "text": b"\x61a", "list": b"\x81\x00", "map": b"\xa0", "link": link(b"\0" + V1), "empty": b"\x80"}
    behinds = {"null": b"\xf6", "zero": b"\0", "break": b"\xff", "newline": b"\n", "same": None, "bad": b"\x1c", "cut": b"\x19"}
    for slug, block in rows.items():
        for name, behind in behinds.items():
            yield f"{name}-behind-{slug}", block + (block if behind is None else behind), "bytes behind the item", section


ONE_TO_25 = "".join(head(0, number).hex() for number in range(1, 26))
# RFC 8949, appendix A: the examples that DAG-CBOR has too, as Python says them, and those that it does not have; and appendix F, of
# what is not well-formed.
SOUND = {
    "00": 0, "01": 1, "0a": 10, "17": 23, "1818": 24, "1819": 25, "1864": 100, "1903e8": 1000, "1a000f4240": 1000000, "1b000000e8d4a51000": 1000000000000,
    "1bffffffffffffffff": 18446744073709551615, "3bffffffffffffffff": -18446744073709551616, "20": -1, "29": -10, "3863": -100, "3903e7": -1000,
    "f4": False, "f5": True, "f6": None, "40": b"", "4401020304": b"\1\2\3\4", "60": "", "6161": "a", "6449455446": "IETF", "62225c": '"\\', "62c3bc": "\u00fc",
    "63e6b0b4": "\u6c34", "64f0908591": "\U00010151", "80": [], "83010203": [1, 2, 3], "8301820203820405": [1, [2, 3], [4, 5]], "9819" + ONE_TO_25: [*range(1, 26)],
    "a0": {}, "a26161016162820203": {"a": 1, "b": [2, 3]}, "826161a161626163": ["a", {"b": "c"}],
    "a56161614161626142616361436164614461656145": {"a": "A", "b": "B", "c": "C", "d": "D", "e": "E"},
}  # fmt: skip
FORBIDDEN = (
    "c249010000000000000000 c349010000000000000000 f90000 f98000 f93c00 fb3ff199999999999a f93e00 f97bff fa47c35000 fa7f7fffff fb7e37e43c8800759c f90001 f90400 f9c400 "
    "fbc010666666666666 f97c00 f97e00 f9fc00 fa7f800000 fa7fc00000 faff800000 fb7ff0000000000000 fb7ff8000000000000 fbfff0000000000000 f7 f0 f8ff "
    "c074323031332d30332d32315432303a30343a30305a c11a514b67b0 c1fb41d452d9ec200000 d74401020304 d818456449455446 d82076687474703a2f2f7777772e6578616d706c652e636f6d "
    "a201020304 5f42010243030405ff 7f657374726561646d696e67ff 9fff 9f018202039f0405ffff 9f01820203820405ff 83018202039f0405ff 83019f0203ff820405 "
    f"9f{ONE_TO_25}ff bf61610161629f0203ffff 826161bf61626163ff bf6346756ef563416d7421ff"
).split()
MALFORMED = (
    "18 19 1a 1b 1901 1a0102 1b01020304050607 38 58 78 98 9a01ff00 b8 d8 f8 f900 fa0000 fb000000 41 61 5affffffff00 5bffffffffffffffff010203 7affffffff00 "
    "7b7fffffffffffffff010203 81 818181818181818181 8200 a1 a20102 a100 a2000000 c0 5f4100 7f6100 9f 9f0102 bf bf01020102 819f 9f8000 9f9f9f9f9fffffffff 9f819f819f9fffffff "
    "1c 1d 1e 3c 3d 3e 5c 5d 5e 7c 7d 7e 9c 9d 9e bc bd be dc dd de fc fd fe f800 f801 f818 f81f 5f00ff 5f21ff 5f6100ff 5f80ff 5fa0ff 5fc000ff 5fe0ff 7f4100ff 5f5f4100ffff "
    "7f7f6100ffff ff 81ff 8200ff a1ff a1ff00 a100ff a20000ff 9f81ff 9f829f819f9fffffffff bf00ff bf000000ff 1f 3f df"
).split()


def examples():
    for name, them, why in (("a", [*SOUND, *FORBIDDEN], "an example of CBOR"), ("f", MALFORMED, "an example of what is not well-formed")):
        for digits in them:
            slug = digits if len(digits) < 40 else f"{digits[:16]}-of-{len(digits) // 2}"
            yield f"{name}-{slug}", bytes.fromhex(digits), why, f"RFC 8949, appendix {name.upper()}"


GROUPS = {
    "examples": (examples, "the examples of RFC 8949: of CBOR, and of what is not well-formed"),
    "heads": (heads, "heads of every major type at every width, around every boundary"),
    "integers": (integers, "integers at the ends of types"),
    "texts": (texts, "UTF-8 of every class, as a text and as a key"),
    "bytes": (byte_strings, "byte strings"),
    "lists": (lists, "lists"),
    "maps": (maps, "order and kinds of keys"),
    "links": (links, "tag 42"),
    "cids": (cids, "the CID in a link"),
    "tags": (tags, "other tags"),
    "simple": (simples, "simple values"),
    "indefinite": (indefinites, "indefinite lengths and breaks"),
    "floats": (floats, "floating-point numbers"),
    "depth": (depths, "lists and maps in each other"),
    "announced": (announced, "lengths that are announced, with no data"),
    "trailing": (trailing, "bytes behind the item"),
}
