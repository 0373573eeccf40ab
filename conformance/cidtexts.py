"""CIDs as text, both ways: from the CID specification (Decoding algorithm), multibase, and RFC 4648."""

import base64
import math

from judge import MOST_DIGEST, is_cid, varint

BASE58 = "123456789ABCDEFGHJKLMNPQRSTUVWXYZabcdefghijkmnopqrstuvwxyz"
BASE32, BASE16 = "abcdefghijklmnopqrstuvwxyz234567", "0123456789abcdef"
MOST = 172  # characters after the prefix: no CID with a digest of at most 64 bytes has more
CAUSES = {
    "unknown base": ("the text begins with none of b, B, f, z and Q, or is empty", "multibase, Format: the first character names the base; a codec need not know all"),
    "too long": (f"more than {MOST} characters stand behind the prefix", "no standard bounds a CID; this codec does"),
    "no character": ("a character is none of the base's", "RFC 4648, 3.3: characters outside the alphabet are refused", "base58btc, 4: an alphabet of 58 characters"),
    "length": ("the last character begins a byte and does not end it", "RFC 4648, 6: no bytes have so many characters in base32", "RFC 4648, 8: nor in base16"),
    "padding bits": ("bits that are not zero stand after the last byte", "RFC 4648, 3.5: an encoder sets them to zero; a decoder may refuse others"),
    "leading zero": ("a 1 stands first in base58btc", "base58btc, 4: a 1 in front is a zero byte", "CID, Binary format: none begins with one"),
    "version": ("version 0 behind a prefix, or version 1 behind none", "CID, Decoding algorithm: version 0 is base58btc with no multibase prefix, and version 1 has one"),
    "no CID": ("the bytes are no binary CID", "CID, Binary format: a version, a codec and a multihash, and nothing behind them"),
}  # fmt: skip
# The library's name of each cause.
VARIANTS = {
    "unknown base": "UnknownBase", "too long": "TooLong", "no character": "InvalidCharacter", "length": "InvalidLength", "padding bits": "TrailingBits",
    "leading zero": "LeadingZero", "version": "InvalidVersion", "no CID": "InvalidCid",
}  # fmt: skip
OPEN = {
    "bases": "multibase has more bases, of which a codec need not read all",
    "case": "multibase calls base32 insensitive to case; the proved codec takes each prefix with its own letters",
    "digests": "no standard bounds a digest; the proved codec takes at most 64 bytes",
    "varints": "the standard of varints ends at 63 bits; the proved codec, as its original, takes 64",
    "padding bits": "a decoder may refuse bits behind the last byte that are not zero (RFC 4648, 3.5), or overlook them",
}


class Refused(Exception):
    """The cause, a key of CAUSES."""


def base32(data):
    return base64.b32encode(data).decode().rstrip("=").lower()


def base58(data, alphabet=BASE58):
    number, text = int.from_bytes(data, "big"), ""
    while number:
        number, digit = divmod(number, len(alphabet))
        text = alphabet[digit] + text
    return alphabet[0] * (len(data) - len(data.lstrip(b"\0"))) + text


def written(cid):
    """For version 0, in base58btc; for version 1, in base32 after b."""
    return base58(cid) if cid[:2] == b"\x12\x20" else "b" + base32(cid)


def of_bits(text, alphabet, width, strict=True):
    """The bytes, for a base with this many bits a character; if it is strict, no other bits may follow them."""
    bits = "".join(f"{digit_of(it, alphabet):0{width}b}" for it in text)
    whole = len(bits) // 8 * 8
    if len(bits) - whole >= width:
        raise Refused("length")
    if strict and "1" in bits[whole:]:
        raise Refused("padding bits")
    return bytes(int(bits[at : at + 8], 2) for at in range(0, whole, 8))


def of_number(text):
    """The bytes of base58btc, none of which are zero at the front."""
    number = 0
    for at, it in enumerate(text):
        if at == 0 and it == BASE58[0]:
            raise Refused("leading zero")
        number = number * 58 + digit_of(it, BASE58)
    return number.to_bytes((number.bit_length() + 7) // 8, "big")


def digit_of(letter, alphabet):
    if letter not in alphabet:
        raise Refused("no character")
    return alphabet.index(letter)


READERS = {
    "b": lambda rest: of_bits(rest, BASE32, 5),
    "B": lambda rest: of_bits(rest, BASE32.upper(), 5),
    "f": lambda rest: of_bits(rest, BASE16, 4),
    "z": of_number,
}
# For texts that others take, if that is open: the question, and how they read the text.
OTHERS = (
    ("case", "bB", lambda rest: of_bits(rest.lower(), BASE32, 5)),
    ("case", "f", lambda rest: of_bits(rest.lower(), BASE16, 4)),
    ("padding bits", "b", lambda rest: of_bits(rest, BASE32, 5, False)),
    ("bases", "F", lambda rest: of_bits(rest, BASE16.upper(), 4)),
    ("bases", "mu", lambda rest: base64.b64decode(rest + "=" * (-len(rest) % 4), "-_" if "-" in rest or "_" in rest else None, True)),
    ("bases", "k", lambda rest: bytes.fromhex(f"{int(rest, 36):x}".zfill(len(f"{int(rest, 36):x}") + 1 & ~1))),
)


def has_long_varint(cid):
    """Returns true if the codec or the hash code of a CID is 2^63 or more."""
    numbers, rest = [], cid
    while cid[:2] != b"\x12\x20" and len(numbers) < 3:
        number, rest = varint(rest)
        numbers.append(number)
    return any(it >= 2**63 for it in numbers)


def read(text, most_digest=MOST_DIGEST):
    """Returns the binary CID of a text; or raises Refused."""
    is_prefixed = text[:1] != "Q"
    if is_prefixed and text[:1] not in READERS:
        raise Refused("unknown base")
    if len(text) > MOST + is_prefixed and most_digest == MOST_DIGEST:
        raise Refused("too long")
    data = READERS[text[0]](text[1:]) if is_prefixed else of_number(text)
    if not is_cid(data, most_digest):
        raise Refused("no CID")
    if (data[:2] == b"\x12\x20") == is_prefixed:
        raise Refused("version")
    return data


def expected(text):
    """The right answer for a text, in the words of a vector."""
    try:
        return {"verdict": "ok", **in_words(read(text))}
    except Refused as refused:
        said = {"verdict": "refused", "cause": refused.args[0]}
    for question, prefixes, reader in (("digests", "", lambda _: read(text, math.inf)), *OTHERS):
        try:
            cid = reader(text[1:]) if not prefixes or text[:1] in tuple(prefixes) else b""
        except (Refused, ValueError):
            continue
        if is_cid(cid, math.inf) and (cid[:2] != b"\x12\x20" or not prefixes):
            return said | in_words(cid) | {"open": question}
    return said


def in_words(cid):
    return {"cid": cid.hex(), "written": written(cid)} | ({"open": "varints"} if has_long_varint(cid) else {})
