"""What stands around blocks: the rows of CIDs as text, of CAR files, of DAG-JSON and of DAG-PB, each a slug, the text or the bytes, why it is
interesting, and the standard's section. As in grammar.py, what is right of them is not said here."""

import base64

from cars import FIRST, PRAGMA, RAW, counted, header, name, second, section, written_varint
from cidtexts import BASE32, BASE58, MOST, base32, base58
from dagjson import unpadded
from grammar import SHA, V0, V1, cid, varint
from judge import Link, spell

LONGEST = b"\x01" + b"\xff" * 9 + b"\x01" + b"\xff" * 9 + b"\x01" + b"\x40" + bytes(range(192, 256))
NULL = name(b"\xf6")


def bases(data):
    """The texts of the bytes, in bases of multibase."""
    padless = lambda text: text.decode().rstrip("=")
    yield "base32", "b" + base32(data)
    yield "base32-upper", "B" + base32(data).upper()
    yield "base58", "z" + base58(data)
    yield "base16", "f" + data.hex()
    yield "base16-upper", "F" + data.hex().upper()
    yield "base36", "k" + base58(data, "0123456789abcdefghijklmnopqrstuvwxyz")
    yield "base64", "m" + padless(base64.b64encode(data))
    yield "base64url", "u" + padless(base64.urlsafe_b64encode(data))


def cid_texts():
    decoding, multibase, bits = "CID, Decoding algorithm", "multibase", "RFC 4648, 3.5; RFC 4648, 6"
    kinds = {"v1": NULL, "raw": RAW, "dag-pb": cid(b"\x70"), "longest": LONGEST, "digest-64": cid(digest=b"d" * 64), "digest-65": cid(digest=b"d" * 65), "digest-200": cid(digest=b"d" * 200), "v0": V0}
    for slug, data in kinds.items():
        for base, text in bases(data):
            yield f"{slug}-in-{base}", text, f"{'version 0 behind a prefix' if slug == 'v0' else slug}, in {base}", multibase
    text = "b" + base32(NULL)
    yield "v0", base58(V0), "version 0: base58btc, with no prefix", decoding
    yield "v0-short", base58(V0)[:-1], "a character of version 0 is missing", decoding
    yield "v0-long", base58(V0) + "n", "a character too many behind version 0", decoding
    yield "v0-other", base58(b"\x12\x20" + b"\xff" * 32), "the greatest of version 0", decoding
    yield "v1-bare", base58(b"\x01\x55\x12\x10" + SHA[:16]), "version 1 in base58btc, with no prefix", decoding
    for first in "Q0Zc \u00e9/":
        yield f"first-{ord(first):x}", first + text[1:], "another first character", multibase
    yield "bare", text[1:], "version 1 in base32 without its prefix", multibase
    yield "none", "", "no character", decoding
    for prefix in "bBfzQ":
        yield f"prefix-{prefix}-alone", prefix, "a prefix, and nothing behind it", multibase
    yield "mixed-case", text[:9].upper().replace("B", "b", 1) + text[9:], "letters of both cases", multibase
    yield "base16-large", "f" + NULL.hex().upper(), "large letters behind the prefix of small ones", multibase
    yield "base32-large", "b" + base32(NULL).upper(), "large letters behind the prefix of small ones", multibase
    yield "base32-small", "B" + base32(NULL), "small letters behind the prefix of large ones", multibase
    for letter in "0189Ol=!":
        yield f"character-{ord(letter):x}", text[:-1] + letter, "a last character that is none of base32, or other bits", multibase
    for letter in "0OIl":
        yield f"base58-{letter}", base58(V0)[:9] + letter + base58(V0)[10:], "a character that base58btc leaves out", "base58btc, 4"
    yield "space", " " + text, "a space before it", multibase
    yield "newline", text + "\n", "a line end behind it", multibase
    yield "padded", text + "==", "with padding, which multibase has not", bits
    yield "length", text + "a", "a character too many: it begins a byte", bits
    yield "length-two", text + "aa", "two characters too many: a zero byte", decoding
    yield "base16-odd", "f" + NULL.hex() + "0", "half a byte behind it", bits
    for step in (1, 2, 4):
        last = BASE32[(BASE32.index(text[-1]) + step) % 32]
        yield f"bits-{step}", text[:-1] + last, "bits behind the last byte, which are not zero", bits
    yield "short-length", "ba", "a character that begins a byte", bits
    yield "short-bits", "bab", "a byte, and bits that are not zero", bits
    yield "leading-zero", "z1" + base58(NULL), "a zero byte before it", "base58btc, 4"
    yield "version-2", "b" + base32(b"\x02" + NULL[1:]), "a version 2", decoding
    yield "version-0", "b" + base32(b"\0" + NULL[1:]), "a version 0 in the form of version 1", decoding
    yield "cut", "b" + base32(NULL[:20]), "the digest is cut", decoding
    yield "trailing", "b" + base32(NULL + b"\0"), "a byte behind the digest", decoding
    yield "varint-long", "b" + base32(b"\x81\0" + NULL[1:]), "the version in two bytes", "unsigned-varint"
    yield "multibase-twice", "bb" + base32(NULL), "two prefixes", multibase
    for count in (MOST, MOST + 1, 5000):
        yield f"many-{count}", "b" + "a" * count, f"{count} characters behind the prefix", "no standard bounds a CID"
        yield f"many-{count}-of-base58", "z" + "1" * count, f"{count} characters behind the prefix", "no standard bounds a CID"
    yield "emoji", "🚀" + text[1:], "a base of one character beyond 16 bits", multibase
    yield "letter-beyond", text[:20] + "\u0430" + text[21:], "a letter of another script that looks like one of the base", multibase


NUMBERS = b"\x83\x01\x02\x03"
AWAY, AWAY_TOO = name(b"\x61a"), name(b"\x61b", 0x55)  # names of blocks that no file here has
ROOT = spell({"a": Link(AWAY), "b": Link(name(NUMBERS))})
SMALL = spell(Link(AWAY_TOO))
WITHIN = spell([Link(name(SMALL, code=0)), Link(name(NUMBERS, code=0))])
TORN = spell([Link(name(SMALL + b"\0", code=0))])
MANY = [b"\x18" + bytes([it]) for it in range(100, 200)]
PLAIN = header(name(ROOT)) + section(ROOT) + section(NUMBERS)


def headers():
    """Blocks after a length, most of which are not headers."""
    one = b"\xd8\x2a\x45\0\x01\x55\0\0"
    root, version = b"\x65roots", b"\x67version"
    blocks = {
        "not-minimal": b"\x18\x17", "trailing": spell({"roots": [], "version": 1}) + b"\0", "break": b"\xff", "null-header": b"\xf6",
        "cut-block": spell({"roots": [Link(RAW)], "version": 1})[:-1], "order": b"\xa2" + version + b"\x01" + root + b"\x80",
        "list": b"\x80", "no-entries": b"\xa0", "version-2": b"\xa2" + root + b"\x80" + version + b"\x02", "version-0": b"\xa2" + root + b"\x80" + version + b"\0",
        "version-true": b"\xa2" + root + b"\x80" + version + b"\xf5", "version-null": b"\xa2" + root + b"\x80" + version + b"\xf6",
        "version-list": b"\xa2" + root + b"\x80" + version + b"\x81\x01", "version-text": b"\xa2" + root + b"\x80" + version + b"\x611",
        "version-alone": b"\xa1" + version + b"\x01", "roots-alone": b"\xa1" + root + b"\x80", "roots-a-map": b"\xa2" + root + b"\xa0" + version + b"\x01",
        "roots-of-integers": b"\xa2" + root + b"\x81\x01" + version + b"\x01", "roots-of-links-and-null": b"\xa2" + root + b"\x82" + one + b"\xf6" + version + b"\x01",
        "roots-a-link": b"\xa2" + root + one + version + b"\x01", "roots-a-null": b"\xa2" + root + b"\xf6" + version + b"\x01", "rootz": b"\xa2\x65rootz\x80" + version + b"\x01",
        "versiom": b"\xa2" + root + b"\x80\x67versiom\x01", "three-entries": b"\xa3" + root + b"\x80\x67abcdefg\0" + version + b"\x01",
        "bytes-for-a-link": b"\xa2" + root + b"\x81\x45\0\x01\x55\0\0" + version + b"\x01",
    }  # fmt: skip
    for slug, block in blocks.items():
        yield f"header-{slug}", counted(block) + section(NUMBERS), "a header that is none", "CARv1, Header"
    yield "header-empty", b"\0", "a header of no bytes", "CARv1, Header"
    for slug, roots in (("none", []), ("two", [AWAY, name(ROOT)]), ("twice", [name(ROOT)] * 2), ("v0", [V0]), ("identity", [name(SMALL, code=0)]), ("thirty", [NULL] * 30)):
        yield f"roots-{slug}", header(*roots) + section(ROOT), "roots", "CARv1, Header"
    for slug, front in (("long", b"\x99\0"), ("zero-long", b"\x80\0"), ("beyond", b"\xff" * 9 + b"\x02"), ("greatest", b"\xff" * 9 + b"\x01"), ("cut", b"\x80"), ("unending", b"\x80" * 12)):
        yield f"header-length-{slug}", front + header(RAW)[1:], "a length before the header, as a varint", "unsigned-varint"


def spans():
    """Files of version 2."""
    section_of, inner = "CARv2, Header", header(RAW)
    yield "second", second(PLAIN), "version 2 around a file of version 1", section_of
    for slug, words in {
        "padded": {"begin": 64, "behind": PLAIN}, "index": {"index": FIRST + len(PLAIN), "behind": b"\x80\x04index"}, "characteristics": {"characteristics": b"\xff" * 16},
        "index-of-ones": {"index": 2**64 - 1}, "size-one-less": {"size": len(PLAIN) - 1, "behind": b"\0"}, "size-one-more": {"size": len(PLAIN) + 1},
        "size-without-last": {"size": len(PLAIN) - len(section(NUMBERS)), "behind": b"\xff"}, "size-none": {"size": 0}, "size-none-behind": {"size": 0, "begin": 1000},
        "begin-0": {"begin": 0}, "begin-50": {"begin": 50}, "begin-60": {"begin": 60}, "begin-behind": {"begin": 1000, "size": 1}, "begin-greatest": {"begin": 2**64 - 1},
        "begin-greatest-of-none": {"begin": 2**64 - 1, "size": 0}, "begin-greatest-of-one": {"begin": 2**64 - 1, "size": 1}, "size-greatest": {"size": 2**64 - 1}, "both-greatest": {"begin": 2**64 - 1, "size": 2**64 - 1},
        "end-greatest": {"size": 2**64 - 1 - FIRST}, "end-before-greatest": {"size": 2**64 - 2 - FIRST}, "end-beyond": {"size": 2**64 - FIRST}, "begin-50-size-greatest": {"begin": 50, "size": 2**64 - 1},
        "halves": {"begin": 2**63, "size": 2**63}, "halves-less-one": {"begin": 2**63, "size": 2**63 - 1}, "quarters": {"begin": 2**62, "size": 2**62},
    }.items():  # fmt: skip
        yield f"second-{slug}", second(PLAIN, **words), "version 2: where the file of version 1 stands", section_of
    yield "second-begin-within", second(PLAIN[1:], begin=50, size=len(PLAIN), index=PLAIN[0] << 56), "a sound file that begins with the last byte of the header", section_of
    yield "second-header-alone", second(inner), "version 2 around a header", section_of
    yield "second-header-cut", second(inner, size=len(inner) + 9), "version 2 around a header, and fewer bytes than it says", section_of
    yield "second-in-second", second(second(PLAIN)), "version 2 in version 2", section_of
    for cut in (1, 3, 5, 10, 11, 12, 27, 43, 50, FIRST, FIRST + 1, 110, 120):
        yield f"second-cut-{cut}", second(PLAIN)[:cut], "version 2, cut", section_of
    for slug, front in (("version-1", b"\x0a\xa1\x67version\x01"), ("versioo", b"\x0a\xa1\x67versioo\x02"), ("ten", b"\x0b"), ("map-of-two", b"\x0a\xa2")):
        yield f"first-bytes-{slug}", front, "nearly the first bytes of version 2", section_of


def sections():
    data, away = "CARv1, Data", header(RAW)
    yield "header-alone", away, "no sections", data
    yield "plain", PLAIN, "two blocks; one link leads away", data
    yield "root-missing", header(AWAY, name(ROOT)) + section(ROOT), "a root that no section has", data
    yield "identity", header(name(SMALL, code=0)) + section(WITHIN) + section(b"\xf6"), "CIDs by the identity hold their blocks, and links in those lead on", "CID, Binary format; multihash, Identity"
    yield "identity-as-section", away + section(WITHIN) + section(SMALL, name(SMALL, code=0)), "a section under a CID by the identity", "multihash, Identity"
    yield "identity-torn", away + section(TORN), "a CID by the identity whose bytes begin with a link and are no block", "multihash, Identity"
    for slug, block in (("unordered", b"\xa2\x61b\x01\x61a\x02"), ("float", b"\xfb" + bytes(8)), ("empty", b""), ("undefined", b"\xf7"), ("cut", b"\x82\0"), ("trailing", b"\xf6\xf6")):
        yield f"block-{slug}", away + section(block) + section(b"\xf5"), "a section whose bytes are named, and are no block of DAG-CBOR", "CARv1, Data; DAG-CBOR, Strictness 2"
    yield "other-bytes", away + section(NUMBERS, AWAY), "a block that its CID does not name", data
    yield "other-hash", away + section(ROOT, name(ROOT, code=0x13)) + section(b"\x05"), "a CID by another hash function", data
    yield "short-digest", away + section(b"\x05", b"\x01\x71\x12\x01\x05") + section(NUMBERS), "a digest of SHA-256 that is cut", data
    yield "identity-other", away + section(b"\x06", b"\x01\x71\x00\x01\x05"), "a CID by the identity of other bytes", "multihash, Identity"
    yield "raw", away + section(b"foo", name(b"foo", 0x55)) + section(b"foo", name(b"foo")[2:]), "raw bytes, under version 1 and version 0", data
    yield "raw-empty", away + section(b"", name(b"", 0x55)) * 3 + section(b"", b"\x01\x71\0\0"), "sections without a byte behind their CIDs, and one three times", data
    yield "raw-other", away + section(b"\0", name(b"", 0x55)), "raw bytes that are not those that are named", data
    yield "twice", away + section(spell("leaf of bytes")) + section(NUMBERS) * 2, "a section twice", data
    yield "big", away + section(spell(bytes(range(256)) * 32)), "a section of 8 KB", data
    yield "one-codec-other", header(name(NUMBERS)) + section(NUMBERS, name(NUMBERS, 0x55)), "the bytes of a root, under another codec: it is missing", data
    yield "many", away + b"".join(map(section, MANY[:50])) + section(spell([Link(name(it)) for it in MANY])) + section(MANY[60]), "more than a hundred links, half of them lead away", data
    for cut in (0, 1, 17, 40, 58, 59, 60, 100, len(PLAIN) - 1):
        yield f"cut-{cut}", PLAIN[:cut], "a file that is cut", data
    rows = {
        "no-bytes": b"\0", "zeros": bytes(8), "length-long": b"\x80\0", "length-long-cid": b"\x84\0\x01\x71\0\0", "length-beyond": b"\xff" * 10, "length-beyond-64": b"\xff" * 9 + b"\x02",
        "length-greatest": b"\xff" * 9 + b"\x01", "length-cut": b"\x80", "length-63": b"\xff" * 8 + b"\x7f", "cid-version-2": b"\x04\x02\x71\0\0", "cid-none": b"\x01\xff", "cid-alone-cut": b"\x04\x01\x71\0\x41",
        "cid-v0-cut": b"\x04\x12\x20\0\0", "cid-varint-long": b"\x05\x01\xf1\0\0\0", "cid-digest-65": counted(b"\x01\x71\x12\x41" + bytes(65)), "block-cut": section(NUMBERS)[:-1],
    }  # fmt: skip
    for slug, rest in rows.items():
        yield f"then-{slug}", PLAIN + rest, "what follows two sections is none", data
    yield "varints-of-64-bits", away + section(b"", b"\x01" + varint(2**64 - 1) + b"\0\0"), "a codec of 2^64 - 1", "unsigned-varint"


def files():
    yield from sections()
    yield from headers()
    yield from spans()


def nodes():
    """Blocks of DAG-PB: nodes first, then blocks that are not nodes."""
    form, strict, links = "DAG-PB, Serial Format", "DAG-PB, Protobuf Strictness", "DAG-PB, Logical Format"
    encoding, varints = "protobuf, Length-Delimited Records", "protobuf, Base 128 Varints"
    raw, away = b"\x0a" + counted(RAW), b"\x0a" + counted(AWAY)
    node = lambda *messages: b"".join(b"\x12" + counted(it) for it in messages)
    yield "none", b"", "no bytes: a node without links and data", form
    yield "data-empty", b"\x0a\0", "data of no bytes", form
    yield "data", b"\x0a\x02ab", "data", form
    yield "directory-empty", b"\x0a\x02\x08\x01", "the empty directory of UnixFS", form
    yield "file-empty", b"\x0a\x04\x08\x02\x18\0", "an empty file of UnixFS", form
    yield "data-long", b"\x0a" + counted(bytes(300)), "data whose length takes two bytes", encoding
    yield "link", node(raw), "a link without name and size", links
    yield "link-v0", node(b"\x0a" + counted(V0)), "a link of version 0", links
    yield "link-whole", node(away + b"\x12\x01a\x18\x05"), "a link with a name and a size", links
    yield "link-size", node(raw + b"\x18\x05"), "a link with a size, and no name", links
    yield "link-name-empty", node(raw + b"\x12\0"), "an empty name", links
    yield "link-size-greatest", node(raw + b"\x18" + varint(2**64 - 1)), "the greatest size", varints
    yield "link-longest", node(b"\x0a" + counted(LONGEST)), "a CID with numbers of ten bytes, and a digest of 64", links
    yield "link-digest-65", node(b"\x0a" + counted(cid(digest=b"d" * 65))), "a digest of 65 bytes", links
    yield "links-and-data", node(raw, away + b"\x12\x01a") + b"\x0a\x01x", "links, and data behind them", form
    yield "data-and-links", b"\x0a\x01x" + node(raw, away + b"\x12\x01a"), "data in front of links, as old blocks have it", strict
    yield "names-sorted", node(*(raw + b"\x12" + counted(it) for it in (b"", b"B", b"a", b"aa", b"b", "\u00e9".encode()))), "names in the order of bytes", "DAG-PB, Link Sorting"
    yield "names-twice", node(raw + b"\x12\x01a", away + b"\x12\x01a"), "two links of one name", "DAG-PB, Link Sorting"
    yield "names-unsorted", node(raw + b"\x12\x01b", raw + b"\x12\x01a"), "names out of order", "DAG-PB, Link Sorting"
    yield "name-no-text", node(raw + b"\x12\x01\xff"), "a name that is not UTF-8", links
    yield "many", node(*(b"\x0a" + counted(name(it)) + b"\x12" + counted(it[1:].hex().encode()) for it in MANY)), "a hundred links", links
    for slug, block in {
        "tag": b"\x92\0" + counted(raw), "count": b"\x12\x86\0" + raw, "size": node(raw + b"\x18\x85\x80\0"), "data": b"\x0a\x81\0x",
        "count-of-ten-bytes": b"\x0a\x81" + b"\x80" * 8 + b"\0x", "hash": node(b"\x8a\0" + counted(RAW)),
    }.items():  # fmt: skip
        yield f"long-{slug}", block, "a number in more bytes than it needs", varints
    for slug, block in {
        "data-between-links": node(raw) + b"\x0a\0" + node(raw), "data-twice": b"\x0a\0" * 2, "data-around-links": b"\x0a\0" + node(raw) + b"\x0a\0",
        "data-twice-behind": node(raw) + b"\x0a\0" * 2, "hash-twice": node(raw + raw), "name-twice": node(raw + b"\x12\x01a" * 2), "size-twice": node(raw + b"\x18\x05" * 2),
    }.items():  # fmt: skip
        yield f"twice-{slug}", block, "a field a second time", strict
    for slug, message in {
        "name-first": b"\x12\x01a" + raw, "size-first": b"\x18\x05" + raw, "size-before-name": raw + b"\x18\x05\x12\x01a", "name-alone": b"\x12\0", "size-alone": b"\x18\0",
    }.items():  # fmt: skip
        yield f"order-{slug}", node(message), "a field of a link out of order, or without its hash", strict
    for slug, block in {
        "0": b"\0", "3": b"\x1a\0", "data-a-number": b"\x08\0", "links-a-number": b"\x10\0", "data-of-eight-bytes": b"\x09" + bytes(8), "group": b"\x0b\x0c",
        "greatest": varint(2**64 - 1), "of-a-link": node(raw + b"\x20\x01"), "size-of-four-bytes": node(raw + b"\x1d" + bytes(4)), "hash-a-number": node(b"\x08\x01"),
        "name-a-number": node(raw + b"\x10\x01"), "behind-data": b"\x0a\x01x\x22\0", "text": b"hello", "cbor": ROOT,
    }.items():  # fmt: skip
        yield f"field-{slug}", block, "a field that no message has, or of another type", strict
    for slug, block in {
        "hash-empty": node(b"\x0a\0"), "hash-version-2": node(b"\x0a\x04\x02\x55\0\0"), "hash-cut": node(b"\x0a" + counted(AWAY[:-1])), "hash-trailing": node(b"\x0a" + counted(RAW + b"\0")),
        "hash-long": node(b"\x0a\x05\x01\x55\x80\0\0"), "hash-v0-cut": node(b"\x0a" + counted(V0[:-1])), "hash-v0-trailing": node(b"\x0a" + counted(V0 + b"\0")),
        "hash-text": node(b"\x0a" + counted(base58(V0).encode())), "hash-prefixed": node(b"\x0a" + counted(b"\0" + AWAY)),
    }.items():  # fmt: skip
        yield f"no-{slug}", block, "no binary CID", links
    yield "link-empty", node(b""), "a link without a hash", links
    yield "link-empty-behind", node(raw, b""), "a second link without a hash", links
    for slug, block in {
        "beyond-64": b"\xff" * 9 + b"\x02", "eleven": b"\x80" * 10 + b"\0", "ten-open": b"\x80" * 10, "count": b"\x0a" + b"\xff" * 9 + b"\x02",
        "size": node(raw + b"\x18" + b"\xff" * 9 + b"\x02"), "size-eleven": node(raw + b"\x18" + b"\x80" * 10 + b"\0"),
    }.items():  # fmt: skip
        yield f"number-{slug}", block, "a number of more than 64 bits or ten bytes", varints
    whole = node(away + b"\x12\x01a\x18\x85\x01") + b"\x0a\x03abc"
    for cut in range(1, len(whole)):
        yield f"cut-{cut}", whole[:cut], "a link, and data behind it, cut", encoding
    for slug, block in {
        "count-greatest": b"\x0a" + varint(2**64 - 1), "count-one-more": b"\x0a\x03ab", "hash-beyond-link": b"\x12\x05" + raw[:5] + raw[5:], "name-beyond-link": node(raw + b"\x12\x02a") + b"\x0a\0",
        "size-beyond-link": node(raw + b"\x18\x80") + b"\x0a\0", "half-a-tag": b"\x0a\x01x\x80", "half-a-count": b"\x0a\x80",
    }.items():  # fmt: skip
        yield f"short-{slug}", block, "what is announced goes on behind the end", encoding


def json_texts():
    """DAG-JSON, most of it of concern to no other codec: sound forms first."""
    ints, floats, maps, reserved, json = "DAG-JSON, Integers", "DAG-JSON, Floats", "DAG-JSON, Maps", "DAG-JSON, Reserved namespace", "RFC 8259"
    for number in (0, 1, -1, 23, 24, 2**53, 2**53 + 1, 2**63, 2**64 - 1, 2**64, -(2**63), -(2**64), -(2**64) - 1, 10**30):
        yield f"integer-{'minus-' if number < 0 else ''}{abs(number)}", str(number), "an integer, with all its digits", ints
    yield "integer-minus-zero", "-0", "minus zero, which is zero", ints
    for slug, text in {"one": "1.0", "half": "0.5", "exponent": "1e3", "minus-zero": "-0.0", "tenth": "0.1", "in-list": "[1,1.5]", "great": "1e400", "small": "5e-324"}.items():
        yield f"float-{slug}", text, "a number with a fraction or an exponent", floats
    for slug, text in {"leading-zero": "01", "plus": "+1", "no-digit": "-", "point-first": ".5", "point-last": "1.", "hex": "0x1", "nan": "NaN", "infinity": "-Infinity", "separators": "1_000"}.items():
        yield f"number-{slug}", text, "no number of JSON", f"{json}, 6"
    for word in ("null", "true", "false", "[]", "{}", '""', "[[],{}]", '[null,true,false,0,"a",[],{}]', '{"a":{"b":[{"c":null}]}}'):
        yield f"value-{word}", word, "a value", json
    for word in ("Null", "undefined", "nul", "", " ", "'a'", "[1,]", "[,1]", "[1 2]", '{"a":1,}', '{"a" 1}', "{a:1}", '{"a"}', "{1:2}", "[", "]", "[1", '{"a":1', '"a', "// 1", "1//", "[1]]", "\x00", "\u00a01", "\ufeff1"):
        yield f"no-value-{word.encode().hex() or 'none'}", word, "no text of JSON, or more than one", json
    for slug, text in {"null": "null null", "comma": "1,2", "brace": "{}{}", "spaces": "1 \n", "word": "[] x"}.items():
        yield f"behind-{slug}", text, "what stands behind a value", f"{json}, 2"
    for slug, text in {"ascii": '"a b"', "escapes": '"\\"\\\\\\/\\b\\f\\n\\r\\t"', "hex": '"\\u0041"', "hex-control": '"\\u0000\\u001f"', "pair": '"\\ud800\\udd51"', "plain": '"\U00010151"', "delete": '"\x7f"', "line-separator": '"\u2028"'}.items():
        yield f"string-{slug}", text, "a text, with and without escapes", f"{json}, 7"
    for slug, text in {"half": '"\\ud800"', "half-low": '"\\udd51"', "turned": '"\\udd51\\ud800"', "half-key": '{"\\ud800":0}', "short": '"\\u41"', "unknown": '"\\x41"', "newline": '"\n"', "tab": '"\t"', "control": '"\x01"'}.items():
        yield f"string-bad-{slug}", text, "no text of JSON, or half of a surrogate pair", f"{json}, 7; {json}, 8.2"
    for slug, digits in {"latin-1": "22e922", "overlong": "22c08022", "surrogate": "22eda08022", "cut": "22e6b022", "in-key": "7b22ff223a307d", "outside": "31ff"}.items():
        yield f"utf8-{slug}", bytes.fromhex(digits), "bytes that are not UTF-8", f"{json}, 8.1"
    for slug, text in {"rising": '{"a":0,"b":1}', "falling": '{"b":0,"a":1}', "by-length": '{"b":0,"aa":1}', "by-bytes": '{"aa":1,"b":0}', "empty": '{"":0,"a":1}', "spaces": '{ "a" : [ 1 , 2 ] }', "lines": '[\r\n\t1\n]', "utf-16": '{"\U00010000":0,"\ue000":1}', "proto": '{"__proto__":{}}'}.items():
        yield f"map-{slug}", text, "keys in some order, and spaces", maps
    for slug, text in {"twice": '{"a":0,"a":1}', "escaped": '{"a":0,"\\u0061":1}', "apart": '{"a":0,"b":0,"a":0}', "within": '[{"a":{"b":0,"b":0}}]', "empty": '{"":0,"":0}'}.items():
        yield f"repeated-{slug}", text, "a key twice", maps
    link, v0 = "b" + base32(NULL), base58(V0)
    for slug, text in {"v1": f'{{"/":"{link}"}}', "v0": f'{{"/":"{v0}"}}', "in-list": f'[{{"/":"{link}"}},{{"/":"{v0}"}}]', "spaces": f'{{ "/" : "{link}" }}', "escaped-slash": f'{{"\\/":"{link}"}}', "escaped": f'{{"/":"\\u0062{link[1:]}"}}', "raw": '{"/":"bafkqaaa"}'}.items():
        yield f"link-{slug}", text, "a link", "DAG-JSON, Links"
    for slug, text in {"none": '{"/":""}', "word": '{"/":"a"}', "cut": f'{{"/":"{link[:-4]}"}}', "space": f'{{"/":" {link}"}}', "path": f'{{"/":"/ipfs/{link}"}}', "prefixed-v0": f'{{"/":"z{v0}"}}'}.items():
        yield f"link-bad-{slug}", text, "the text of no CID", "DAG-JSON, Links"
    for slug, text in {"empty": "", "one": "AA", "two": "AAE", "three": "AAEC", "all": "+/+/"}.items():
        yield f"bytes-{slug}", f'{{"/":{{"bytes":"{text}"}}}}', "bytes", "DAG-JSON, Bytes"
    for slug, text in {"padded": "AA==", "padded-one": "AAE=", "length": "A", "length-five": "AAECA", "bits": "AB", "bits-two": "AAF", "url": "-_-_", "space": "AA EC", "newline": "AAEC\\n", "multibase": "mAAEC"}.items():
        yield f"bytes-bad-{slug}", f'{{"/":{{"bytes":"{text}"}}}}', "no base64 without padding", "DAG-JSON, Bytes; RFC 4648, 3; RFC 4648, 4"
    for slug, text in {"integer": '{"/":1}', "null": '{"/":null}', "list": '{"/":[]}', "map": '{"/":{}}', "other": '{"/":{"a":1}}', "bytes-integer": '{"/":{"bytes":1}}', "bytes-more": '{"/":{"bytes":"","a":1}}', "bytes-twice": '{"/":{"bytes":"","bytes":""}}', "and-more": f'{{"/":"{link}","a":1}}', "more-first": f'{{"a":1,"/":"{link}"}}', "twice": f'{{"/":"{link}","/":"{link}"}}', "nested": f'{{"/":{{"/":"{link}"}}}}', "within": '{"a":{"/":0}}'}.items():
        yield f"reserved-{slug}", text, "a map with the key `/` that is neither a link nor bytes", reserved
    for slug, text in {"two-slashes": '{"//":1}', "slash-a": '{"/a":1}', "bytes-alone": '{"bytes":"AA"}'}.items():
        yield f"near-{slug}", text, "a key that is not reserved", reserved
    for count in (1, 31, 32, 33, 126, 127, 128, 200):
        yield f"lists-{count}", "[" * count + "[]" + "]" * count, f"{count} lists around a list", "RFC 8949, 10"
        yield f"maps-{count}", '{"a":' * count + "0" + "}" * count, f"{count} maps around an integer", "RFC 8949, 10"
    yield "bytes-in-127", "[" * 127 + '{"/":{"bytes":""}}' + "]" * 127, "bytes in 127 lists", "RFC 8949, 10"
    yield "first-fault", '[1.5,{"a":0,"a":0}]', "two faults: a number, and behind it a key", json
    yield "first-no-json", '[1.5,', "no JSON, and before its end a number with a fraction", json


# Blocks and paths in them: each kind of segment, segments that are close to one, and long segments.
TREE = {
    "a": [{"b": "hi", "": 7, "0": "zero"}, [1, [2, -3]], None, True, b"xy", Link(bytes.fromhex("01711220") + bytes(32))],
    "0": "key", "a/b": 1, "\u00e9": [False], "aa": {"x": {}}, "": "empty", "link": [Link(bytes.fromhex("01550000"))], "many": [0] * 30 + [[5]],
}  # fmt: skip
PATHS = (
    *("", "/", "//", "a", "a/0", "/a/0/", "a//0//b", "a/0/b", "a/0/b/0", "a/0/0", "a/1/1/1", "a/1/1/2", "a/2", "a/2/x", "a/3", "a/4", "a/5"),
    *("a/5/", "a/5/x", "a/5/x/y/", "a/6", "a/00", "a/01", "a/+1", "a/-0", "a/ 1", "a/1.0", "a/1/", "a/1//", "link/0/0", "link/0//", "many/30/0"),
    *("many/29", "many/31", "a/18446744073709551615", "a/18446744073709551616", "a/" + "9" * 99, "0", "00", "a/b", "a%2Fb", "\u00e9/0", "e\u0301/0"),
    *("e", "aa/x", "aa/x/y", "ab", "b", "zz", "a\0", "a/\u0661", "a/" * 99, "/" * 99, "/" * 99 + "a/1" + "/" * 9, "x" * 900, "aa/" + "x" * 900),
)

# Keys that no text reaches, and lists of segments.
SLASHES = {
    "": {"": 1, "a": [{"": "x"}]}, "/": 2, "0": [3, {"0/0": None}], "a/b": {"/": {"c/": 4}}, "a//b": 5, "\u00e9/": [[True]], "a": {"b": 6},
}  # fmt: skip
SEGMENTS = (
    *((), ("",), ("", ""), ("", "", ""), ("", "a", "0", ""), ("/",), ("//",), ("/", ""), ("0", "0"), ("0/0",), ("0", "1", "0/0"), ("0", "", "0")),
    *(("0", "0", "x"), ("0", "00"), ("0", "+1"), ("0", "18446744073709551616"), ("0", "2"), ("a/b",), ("a/b", "/"), ("a/b", "/", "c/"), ("a/b/",)),
    *(("a/b", "/", "c"), ("a/b", "/", "c", ""), ("/a/b",), ("a//b",), ("a", "", "b"), ("a", "b"), ("a", "b", ""), ("\u00e9/", "0", "0"), ("\u00e9",)),
    *(("a",), ("x" * 900,), ("0",) * 900, ("",) * 900),
)


PATHING = "IPLD, Pathing"


def paths():
    """A block, and a path in it as a text."""
    for number, path in enumerate(PATHS):
        yield f"tree-{number}", (spell(TREE), path), "a text whose segments stand between slashes", PATHING
    for slug, block in (("cut", b"\xa1\x61a"), ("non-minimal", b"\x82\x01\x18\x17"), ("trailing", b"\xf6\x00"), ("tag", b"\x82\x01\xc1\x00")):
        yield f"no-block-{slug}", (block, "a" if block[0] == 0xA1 else "0"), "a fault behind the item on the way", PATHING


def segments():
    """A block, and a list of segments."""
    for number, them in enumerate(SEGMENTS):
        yield f"slashes-{number}", (spell(SLASHES), list(them)), "segments, each of which is taken whole", PATHING
    for number, path in enumerate(PATHS):
        yield f"tree-{number}", (spell(TREE), [it for it in path.split("/") if it]), "the segments of a text", PATHING


def writing():
    """Data for writers, as DAG-JSON."""
    orders, shortest, none = "DAG-CBOR, Strictness 2", "DAG-CBOR, Strictness 2; RFC 8949, 4.2.1", "RFC 8949, 3.1; DAG-CBOR, Strictness 1"
    for slug, text, why in (
        ("rising", '{"a":0,"b":1}', "in order"), ("falling", '{"b":1,"a":0}', "by bytes"), ("by-length", '{"aa":0,"b":1}', "the shorter first"),
        ("numerals", '{"10":0,"9":1,"a":2}', "numerals are texts"), ("empty-last", '{"a":0,"":1}', "the empty key is the shortest"),
        ("accents", '{"水":0,"é":1,"zz":2}', "lengths in bytes"), ("beyond-16-bits", '{"\U00010000":0,"\ue000a":1}', "not as in UTF-16"),
        ("nested", '{"b":{"d":0,"c":[{"f":0,"e":1}]},"a":1}', "on each level"), ("signed", '{"é":0,"zz":1}', "bytes are not signed"),
        ("proto", '{"__proto__":{"b":0,"a":1},"z":2}', "a key that is special in JavaScript"),
        ("long", '{"' + "z" * 24 + '":0,"' + "a" * 255 + '":1,"' + "b" * 23 + '":2}', "of 23, 24 and 255 bytes"),
        ("many", "{" + ",".join(f'"k{n * 37 % 100}":{n}' for n in range(100)) + "}", "a hundred"),
    ):  # fmt: skip
        yield slug, text, f"keys in another order, or in their own: {why}", orders
    yield "links", '{"/a":{"/":"QmdfTbBqBPQ7VNxZEYEj14VmRuZBkqFbiwReogJgS1zR1n"},"b":{"/":{"bytes":"AAEC"}}}', "a link and bytes", "DAG-CBOR, Links"
    yield "leaves", "[null,false,true,[],{}]", "what has no argument", "DAG-CBOR, Strictness 3"
    lists = "[" + ",".join(f"[{','.join('0' * n)}]" for n in (23, 24)) + "]"
    strings = ",".join(f'{{"/":{{"bytes":"{unpadded(bytes(n))}"}}}}' for n in (23, 24))
    for slug, text in {
        "integers": "[0,23,24,255,256,65535,65536,4294967295,4294967296,18446744073709551615,-1,-24,-25,-18446744073709551616]",
        "texts": '["","\\u0000","é","水","\U00010151","\\ud800\\udd51"]', "heads-of-texts": "[" + ",".join(f'"{"a" * n}"' for n in (23, 24, 255, 256)) + "]",
        "heads-of-lists": lists, "heads-of-bytes": f"[{strings}]",
    }.items():  # fmt: skip
        yield slug, text, "heads of each width, each the shortest", shortest
    yield "beyond", "[18446744073709551616]", "2^64, which has no spelling", none
    yield "below", "[-18446744073709551617]", "-2^64 - 1, which has no spelling", none
    yield "repeated", '{"a":0,"a":1}', "a key twice", "DAG-JSON, Maps; RFC 8949, 3.1"
    yield "repeated-apart", '{"a":0,"b":0,"a":0}', "a key twice, another between", "DAG-JSON, Maps; RFC 8949, 3.1"
    yield "half-a-pair", '["\\ud800"]', "half of a surrogate pair, which has no UTF-8", "RFC 8259, 8.2; RFC 3629, 3"
    for slug, text in {"float": "[1.5]", "floats": "[0.1,-2.5,1e300,5e-324]", "float-in-map": '{"b":1.5,"a":2}'}.items():
        yield slug, text, "floats, which are of 64 bits", "DAG-CBOR, Strictness 3"
