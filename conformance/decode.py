"""DAG-CBOR as one function: crates/dagcbor_decode/specs/Decode.antt in Python, to be read beside it, and run. Each definition has its
name, its place and its parameters there, and its cases in their order; `_` follows a name that Python has. Bytes are `bytes`. What a
constructor makes is a tuple that begins with its name. Items are a list of trees, entries one of keys and trees, integers Python's.
The deepest blocks want a higher limit of recursion than Python has: `vectors.deeply` sets it."""
# fmt: off (as the spec is laid out)

from functools import partial

from decode_uses import boolean, bytes_, comes_before, from_be_bytes, integer, is_cid, is_utf8, len_of, link, list_, mapping, null, text
from decode_uses import w8, w16, w32, w64

# ---- crates/dagcbor_decode/specs/Decode.antt
# data Why
eof = lambda name, expect: ("eof", name, expect)
mismatch = lambda name, found: ("mismatch", name, found)
unsupported = lambda name, found: ("unsupported", name, found)
non_minimal = lambda name, found: ("non_minimal", name, found)
indefinite_size = ("indefinite_size",)
require_utf8 = lambda name: ("require_utf8", name)
msg = lambda message: ("msg", message)
unordered_key = ("unordered_key",)
depth_overflow = lambda name: ("depth_overflow", name)
trailing_data = ("trailing_data",)
cast_overflow = lambda name: ("cast_overflow", name)
# data Decoded
got = lambda a, rest: ("got", a, rest)
refused = lambda why, left: ("refused", why, left)

def after(decoded, f):
    how, a, rest = decoded
    return f(a, rest) if how == "got" else decoded

# ---- heads and payloads (RFC 8949, section 3)

def payload(name, n, b):
    return refused(eof(name, len_of(n)), 0) if len(b) < n else got(b[:n], b[n:])

def at_least(name, first, least, n, rest):
    return refused(non_minimal(name, first), len(rest)) if n < least else got(n, rest)

def number(name, first, w, width, least, b):
    return after(payload(name, width, b), lambda s, rest: at_least(name, first, least, from_be_bytes(w, s), rest))

def argument_by(name, first, b, i):
    if i < 24: return got(i, b)
    elif i == 24: return number(name, first, w8, 1, 24, b)
    elif i == 25: return number(name, first, w16, 2, 2**8, b)
    elif i == 26: return number(name, first, w32, 4, 2**16, b)
    elif i == 27: return number(name, first, w64, 8, 2**32, b)
    elif i == 31: return refused(indefinite_size, len(b))
    else: return refused(unsupported(name, first), len(b))

def argument_of(name, first, b):
    return argument_by(name, first, b, first % 32)

# ---- strings (major types 2 and 3), and keys

def string_of(name, first, b):
    return after(argument_of(name, first, b), partial(payload, name))

def utf8_of(name, s, rest):
    return got(s, rest) if is_utf8(s) else refused(require_utf8(name), len(rest))

def text_of(name, first, b):
    return after(string_of(name, first, b), partial(utf8_of, name))

def follows(before, key):
    if before is None: return True
    return comes_before(before, key)

def in_order(previous, key, rest):
    return got(key, rest) if follows(previous, key) else refused(unordered_key, len(rest))

def key_of(previous, b):
    if not b: return refused(eof(b"map key", len_of(1)), 0)
    first, b = b[0], b[1:]
    if first // 32 == 3: return after(text_of(b"map key", first, b), partial(in_order, previous))
    else: return refused(mismatch(b"map key", first), len(b))

# ---- links: tag 42 (d8 2a), and a byte string of a zero and a CID (DAG-CBOR, links)

def no_cid(rest):
    return refused(msg(b"Invalid CID"), len(rest))

def zero_and_cid(s, rest):
    if not s: return no_cid(rest)
    first, cid = s[0], s[1:]
    if first == 0: return got(link(cid), rest) if is_cid(cid) else no_cid(rest)
    else: return no_cid(rest)

def cid_bytes_of(n, b):
    return no_cid(b) if 87 < n else after(payload(b"cid", n, b), zero_and_cid)

def cid_of(b):
    if not b: return refused(eof(b"cid", len_of(1)), 0)
    first, b = b[0], b[1:]
    if first // 32 == 2: return after(argument_of(b"cid", first, b), cid_bytes_of)
    else: return refused(unsupported(b"cid", first), len(b))

def tag_of(b):
    if not b: return refused(eof(b"tag", len_of(1)), 0)
    second, b = b[0], b[1:]
    return cid_of(b) if second == 0x2a else refused(mismatch(b"CBOR tag", second), len(b))

def link_of(first, b):
    return tag_of(b) if first == 0xd8 else refused(mismatch(b"CBOR tag head", first), len(b))

# ---- items, by the major type: the three high bits of the initial byte

def simple_of(first, b):
    if first == 0xf4: return got(boolean(False), b)
    elif first == 0xf5: return got(boolean(True), b)
    elif first == 0xf6: return got(null, b)
    else: return refused(unsupported(b"any", first), len(b))

def leaf_of(first, b):
    if first // 32 == 0: return after(argument_of(b"u64", first, b), lambda n, rest: got(integer(n), rest))
    elif first // 32 == 1: return after(argument_of(b"any", first, b), lambda n, rest: got(integer(-1 - n), rest))
    elif first // 32 == 2: return after(string_of(b"bytes", first, b), lambda s, rest: got(bytes_(s), rest))
    elif first // 32 == 3: return after(text_of(b"string", first, b), lambda s, rest: got(text(s), rest))
    elif first // 32 == 6: return link_of(first, b)
    else: return simple_of(first, b)

# A loop. The spec calls itself for the items after the first: it ends with the first that is refused, whatever the count.
def items_of(one, count, b):
    items = []
    for _ in range(count):
        how, t, b = decoded = one(b)
        if how == "refused": return decoded
        items.append(t)
    return got(items, b)

# A loop, likewise.
def entries_of(one, count, previous, b):
    entries = []
    for _ in range(count):
        decoded = after(key_of(previous, b), lambda key, value: after(one(value), lambda t, rest: got((key, t), rest)))
        if decoded[0] == "refused": return decoded
        _, (previous, t), b = decoded
        entries.append((previous, t))
    return got(entries, b)

def by_major_type(list_of, map_of, first, b):
    if first % 32 == 31: return refused(indefinite_size, len(b))
    elif first // 32 == 4: return list_of(first, b)
    elif first // 32 == 5: return map_of(first, b)
    else: return leaf_of(first, b)

def item_of(steps, b):
    if steps == 0: return refused(depth_overflow(b"any"), len(b))
    if not b: return refused(eof(b"any", len_of(1)), 0)
    steps, first, b = steps - 1, b[0], b[1:]
    return by_major_type(partial(list_of, steps), partial(map_of, steps), first, b)

def list_of(steps, first, b):
    if steps == 0: return refused(depth_overflow(b"array"), len(b))
    steps = steps - 1
    return after(argument_of(b"array", first, b), lambda n, rest:
        after(items_of(partial(item_of, steps), n, rest), lambda ts, rest: got(list_(ts), rest)))

def map_of(steps, first, b):
    if steps == 0: return refused(depth_overflow(b"map"), len(b))
    steps = steps - 1
    return after(argument_of(b"map", first, b), lambda n, rest:
        after(entries_of(partial(item_of, steps), n, None, rest), lambda es, rest: got(mapping(es), rest)))

# ---- blocks

def at_end(t, rest):
    if not rest: return got(t, b"")
    first, rest = rest[0], rest[1:]
    return refused(trailing_data, len(rest))

def decode_first(b):
    return item_of(256, b)

def decode(b):
    return after(decode_first(b), at_end)
