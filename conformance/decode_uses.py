"""What decode.py takes from other specs than Decode.antt, under the same names, with a section for each of those."""
# fmt: off (as the specs are laid out)

from collections import namedtuple

# ---- the standard library
w8, w16, w32, w64 = 8, 16, 32, 64
from_be_bytes = lambda w, bytes: int.from_bytes(bytes[: w // 8], "big")

def is_utf8(s):
    try: return s.decode("utf-8") is not None
    except UnicodeDecodeError: return False

# ---- crates/dagcbor_core/specs/Lengths.antt
def len_of(n):
    return ("Small", n) if n < 2**16 else ("Big",)

# ---- crates/ipld_tree/specs/Key.antt
def comes_before(k, l):
    return (len(k), k) < (len(l), l)

# ---- crates/ipld_tree/specs/Tree.antt
null = ("null",)
boolean = lambda b: ("boolean", b)
integer = lambda n: ("integer", n)
text = lambda s: ("text", s)
bytes_ = lambda s: ("bytes", s)
list_ = lambda ts: ("list", ts)
mapping = lambda es: ("mapping", es)
link = lambda cid: ("link", cid)

def links_of(t):
    if t[0] == "list": return items_links(t[1])
    elif t[0] == "mapping": return entries_links(t[1])
    else: return [t[1]] if t[0] == "link" else []

def items_links(ts):
    return [it for t in ts for it in links_of(t)]

def entries_links(es):
    return [it for _, t in es for it in links_of(t)]

# ---- crates/ipld_tree/specs/Cid.antt
def varint_groups(more, n):
    if more == 0: return b""
    return bytes([n]) if n < 128 else bytes([128 + n % 128]) + varint_groups(more - 1, n // 128)

def varint(n):
    return varint_groups(10, n)

cid_parts = namedtuple("cid_parts", "version codec hash_code digest")

def cid_bytes(c):
    if c.version == 0: return b"\x12\x20" + c.digest
    else: return b"\x01" + varint(c.codec) + varint(c.hash_code) + varint(len(c.digest)) + c.digest

# ---- crates/dagcbor_decode/specs/CidTest.antt
def groups(more, b):
    if more == 0: return 0, b
    if not b: return 0, b""
    g, b = b[0], b[1:]
    if g < 128: return g, b
    r = groups(more - 1, b)
    return g - 128 + 128 * r[0], r[1]

def parts_1(b):
    codec = groups(10, b)
    hash_code = groups(10, codec[1])
    return cid_parts(1, codec[0], hash_code[0], groups(10, hash_code[1])[1])

def fits_1(c):
    return c.codec < 2**64 and c.hash_code < 2**64 and len(c.digest) < 65

def is_cid(b):
    return (len(b) == 34 and cid_bytes(cid_parts(0, 0x70, 0x12, b[2:])) == b
        or fits_1(parts_1(b[1:])) and cid_bytes(parts_1(b[1:])) == b)

# ---- crates/dagcbor_decode/specs/Verdicts.antt
def place_of(b, why, left):
    if why[0] == "eof": return len(b)
    return len(b) - left - 1
