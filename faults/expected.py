"""What each run of `faults/runs` must answer with nothing refused, and what if a place was refused.

Blocks and values are those of the format's examples; no answer is copied from a run."""

import ast

PERSON = "a3646e616d656c477261636520486f707065726a70726f66657373696f6e72636f6d7075746572"
PERSON += "20736369656e746973746d796561725f6f665f6269727468190772"
SECOND = "a16444617461a3616101616202636162" + "6303"
COLOR = "a165416c706861821a00039447183c"
CID = "d82a490001ce019b010263c8"
DIGEST = "2c26b46b68ffc68ff99b453c1d30413413422d706483bfa0f98a5e886266e7ae"
LINK = "d82a58250001551220" + DIGEST
THREE_LINKS = "a3626f7282" + LINK * 2 + "63666f6ff564736f6d65a1666e6573746564" + LINK
MIXED = "890120f6f46568656c6c6f4361626380" + CID + "a26178816171617941" + "7a"
TABLE = "a36161016162026263" + "6303"
HELLO = b"\x6chello world!".hex()

OUT_OF_MEMORY = "Err(OutOfMemory)"
READ = "Err(Read(Kind(BrokenPipe)))"
WRITE = "Err(Write(Kind(BrokenPipe)))"


def listed(bytes_):
    """Bytes as Rust prints a list of numbers."""
    return str(list(bytes.fromhex(bytes_)))


def cid(version, codec, hash_code, digest):
    """A `Cid` as its derived `Debug` prints it."""
    length = len(digest) // 2
    room = listed(digest.ljust(128, "0"))
    fields = f"version: {version}, length: {length}, codec: {codec}, hash_code: {hash_code}"
    return f"Cid {{ {fields}, digest: {room} }}"


FOO = f"Link({cid(1, 0x55, 0x12, DIGEST)})"
GRACE = 'Person { name: "Grace Hopper", year_of_birth: 1906, profession: Some("computer scientist") }'
THREE = f'Map({{"foo": Bool(true), "or": List([{FOO}, {FOO}]), "some": Map({{"nested": {FOO}}})}})'
EACH_KIND = (
    'List([Integer(1), Integer(-1), Null, Bool(false), String("hello"), Bytes([97, 98, 99]), List([]), '
    f'Link({cid(1, 206, 155, "63c8")}), '
    'Map({"x": List([String("q")]), "y": Bytes([122])})])'
)


class Plain:
    """One answer; if a place was refused, this refusal and no other."""

    def __init__(self, answer, refusal=OUT_OF_MEMORY):
        self.answer, self.refusal = answer, refusal

    def is_right(self, reached, n, said):
        return said == (self.refusal if reached else self.answer)


class Held:
    """What the call answered, and what a device holds by then.

    `before_end`: what can have been written if memory was refused; None: any beginning of the whole.
    `each_byte`: a device that takes one byte a call holds just those that it took before the one that failed."""

    def __init__(self, answer, whole, refusal=OUT_OF_MEMORY, before_end=None, each_byte=False):
        self.answer, self.whole, self.refusal = answer, bytes.fromhex(whole), refusal
        self.before_end = None if before_end is None else [bytes.fromhex(it) for it in before_end]
        self.each_byte = each_byte

    def is_right(self, reached, n, said):
        answer, _, held = said.partition("\t")
        held = bytes(ast.literal_eval(held))
        if not reached:
            return answer == self.answer and held == self.whole
        if answer != self.refusal:
            return False
        if self.each_byte:
            return held == self.whole[: n - 1]
        if self.before_end is not None:
            return held in self.before_end
        return self.whole.startswith(held)


class Left:
    """What a call read, and what it left in its source."""

    def __init__(self, answer, left, refusal):
        self.answer, self.left, self.refusal = answer, listed(left), refusal

    def is_right(self, reached, n, said):
        answer, _, left = said.partition("\t")
        return answer == self.refusal if reached else (answer, left) == (self.answer, self.left)


class Stream:
    """The items in their order; if one was refused, those before it, that refusal, and nothing more."""

    def __init__(self, *items, refusal=OUT_OF_MEMORY):
        self.items = [f"Some({it})" for it in items]
        self.items += ["None"] * (5 - len(items))
        self.refusal = f"Some({refusal})"

    def is_right(self, reached, n, said):
        found = said.split("\t")
        if not reached:
            return found == self.items
        if self.refusal not in found:
            return False
        at = found.index(self.refusal)
        rest = found[at + 1 :]
        return found[:at] == self.items[:at] and rest == ["None"] * len(rest)


class OneOf:
    """One answer; if a place was refused, one of these."""

    def __init__(self, answer, *refusals):
        self.answer, self.refusals = answer, refusals

    def is_right(self, reached, n, said):
        return said in self.refusals if reached else said == self.answer


class Copied:
    """A copy is equal, and the tree is as it was in either case."""

    def is_right(self, reached, n, said):
        return said == ("(Err(AllocError), true)" if reached else "(Ok(true), true)")


VALUES = {
    "Second": (SECOND, "Data { b: 2, abc: 3, a: 1 }"),
    "Person": (PERSON, GRACE),
    "Cid": (CID, cid(1, 206, 155, "63c8")),
    "Color": (COLOR, "Alpha(234567, 60)"),
    "Vec<u8>": ("83010203", "[1, 2, 3]"),
    "Ipld": (THREE_LINKS, THREE),
    "mixed": (MIXED, EACH_KIND),
}

RUNS = {}
for name, (block, value) in VALUES.items():
    RUNS[f"to_vec {name}"] = Plain(f"Ok({listed(block)})")
    RUNS[f"from_slice {name}"] = RUNS[f"from_reader {name}"] = Plain(f"Ok({value})")
    if name not in ("Vec<u8>", "mixed"):
        RUNS[f"failing {name}"] = Plain(f"Ok({value})", READ)
    if name != "mixed":
        RUNS[f"failing write of {name}"] = Held("Ok(())", block, WRITE, each_byte=True)
    if name in ("Second", "Person", "Vec<u8>", "Ipld"):
        RUNS[f"to_writer {name}"] = Held("Ok(())", block)

# Reading.
BAD = 'Err(NonMinimal { name: "u64", found: 24 })'
LISTS = 'Ok({"a": ["one", "two"], "b": ["three"]})'
READ_ON = '(Ok("foobar"), Ok("baz"), Ok(()))'
RUNS |= {
    "any_from_slice": Plain(f"Ok({THREE})"),
    "from_slice pair": Plain('Ok(("a", Some("b")))'),
    "from_slice Bytes": Plain("Ok(Bytes([97, 98, 99]))"),
    "from_slice BTreeMap": Plain(LISTS),
    "from_reader BTreeMap": Plain(LISTS),
    "from_slice HashMap": Plain("Ok((Some(1), Some(2), Some(3)))"),
    "from_slice refused": Plain(BAD),
    "from_reader refused": Plain(BAD),
    "from_reader IgnoredAny": Plain("Ok(IgnoredAny)"),
    "failing IgnoredAny": Plain("Ok(IgnoredAny)", READ),
    "failing Person, three a fill": Plain(f"Ok({GRACE})", READ),
    "failing Person, all in a fill": Plain(f"Ok({GRACE})", READ),
    "from_reader_once": Left('Ok("foobar")', "6362617a", OUT_OF_MEMORY),
    "failing from_reader_once": Left('Ok("foobar")', "6362617a", READ),
    "read on": OneOf(
        READ_ON,
        "(Err(OutOfMemory), Err(Failed), Err(Failed))",
        '(Ok("foobar"), Err(OutOfMemory), Err(Failed))',
    ),
    "failing read on": OneOf(
        READ_ON,
        f"({READ}, Err(Failed), Err(Failed))",
        f'(Ok("foobar"), {READ}, Err(Failed))',
        f'(Ok("foobar"), Ok("baz"), {READ})',
    ),
}

# Streams.
ITEMS = ('Ok(String("foobar"))', 'Ok(List([Integer(1), String("a")]))', "Ok(Bytes([97, 98, 99]))")
WORDS = ('Ok("foobar")', 'Ok("baz")')
RUNS |= {
    "stream of String, source": Stream(*WORDS),
    "stream of String, slice": Stream(*WORDS),
    "stream of Ipld, source": Stream(*ITEMS),
    "stream of Ipld, slice": Stream(*ITEMS),
    "stream that is cut, source": Stream(WORDS[0], 'Err(Eof { name: "string", expect: Small(3) })'),
    "failing stream of String": Stream(*WORDS, refusal=READ),
    "failing stream of Ipld": Stream(*ITEMS, refusal=READ),
}

# Writing, copies, pushes.
PUSHED = 3 + len("a piece that is longer than the room which a short vector has, whatever that is")
RUNS |= {
    "to_vec BTreeMap": Plain(f"Ok({listed(TABLE)})"),
    "to_vec HashMap": Plain(f"Ok({listed(TABLE)})"),
    "try_clone links": Copied(),
    "try_clone mixed": Copied(),
    "to_bytes of a Cid": Plain(f"Ok({listed(CID[8:])})", "Err(AllocError)"),
    "push": OneOf(
        f"Ok(())\t{PUSHED}\tOk(())\t{PUSHED + 1}",
        "Err(OutOfMemory)\t3\tOk(())\t4",
        f"Ok(())\t{PUSHED}\tErr(OutOfMemory)\t{PUSHED}",
    ),
    "failing write, three a call": Held("Ok(())", MIXED, WRITE),
    "failing write, all a call": Held("Ok(())", MIXED, WRITE),
    "write that takes no byte": Held("Ok(())", MIXED, "Err(Write(Kind(WriteZero)))", each_byte=True),
}

# Each call alone: over a slice, over a source, over a source that fails, after which the Deserializer has failed.
CALLS = "any ignored_any links str identifier string char bytes byte_buf option newtype_struct".split()
CALLS = [f"deserialize_{it}" for it in CALLS] + ["next_element", "next_key and next_value"]
CALLS += ["unit_variant", "newtype_variant", "tuple_variant", "struct_variant"]
for name in CALLS:
    RUNS[f"{name}, slice"] = RUNS[f"{name}, source"] = Plain("Ok(true)")
    RUNS[f"failing {name}"] = Plain("(Ok(true), Ok(()))", f"({READ}, Err(Failed))")
RUNS["pull_payload, slice"] = RUNS["pull_payload, source"] = Plain("Ok(true)")

# Lists and maps part by part: what is gathered is not written before its end. Heads that say a known number are.
LONG = b"a text that is longer than a short vector".hex()
ENTRY = "a1636b657901"
REFUSED = {
    "list with a bad item": "List element cannot be serialized",
    "map of equal keys": "Map keys must be unique",
    "map with a number as key": "Map keys must be strings",
    "map with a bad key": "Map key cannot be serialized.",
    "map with a bad value": "Struct value cannot be serialized.",
}
WRITTEN = {
    "list of unknown length": ("8301027829" + LONG, [""]),
    "list of known length": ("82" + ENTRY * 2, ["", "82", "82" + ENTRY]),
    "map": ("a2616102616201", [""]),
    "struct": ("a2616182016162616266666f6f626172", ["", "a2"]),
    "struct variant": (SECOND, ["", SECOND[: 2 * 7]]),
}
for name, text in REFUSED.items():
    RUNS[name] = RUNS[f"failing {name}"] = Held(f'Err(Msg("{text}"))', "", before_end=[""])
for name, (whole, before_end) in WRITTEN.items():
    RUNS[name] = Held("Ok(())", whole, before_end=before_end)
    RUNS[f"failing {name}"] = Held("Ok(())", whole, WRITE, each_byte=True)

# The codec, and the store: what a refused `put` leaves.
STORED = "(false, Some(OutOfMemory), true)"
RUNS |= {
    "links": Plain("Ok(3)", "Err(Decode(OutOfMemory))"),
    "links_from_slice": Plain("Ok(3)"),
    "decode": Plain('Ok("hello world!")', "Err(DecodeIo(OutOfMemory))"),
    "decode_from_slice": Plain('Ok("hello world!")', "Err(DecodeIo(OutOfMemory))"),
    "encode_to_vec": Plain(f"Ok({listed(HELLO)})", "Err(Encode(OutOfMemory))"),
    "failing decode": Plain('Ok("hello world!")', "Err(DecodeIo(Read(Kind(BrokenPipe))))"),
    "failing encode": Held("Ok(())", HELLO, "Err(EncodeIo(Write(Kind(BrokenPipe))))", each_byte=True),
    "put again": Plain("(true, None, true)", STORED),
    "get": Plain("Ok(Some(List([Integer(1), Integer(2), Integer(3)])))"),
    "missing": Plain("Ok(true)"),
    "name_of": Plain(f"Ok({0x71})"),
}

# The check of a file: after a refused `take` it takes and lists nothing.
RUNS["take of a check"] = Plain("(true, true, Ok(1))", "(false, false, Err(AllocError))")

for count in (0, 1, 4, 8, 11, 16, 32):
    RUNS[f"put into {count}"] = Plain("(true, None, false)", STORED)

# With every allocation refused. None of these asks for memory.
WITHOUT_MEMORY = {
    "numbers, slice": "Ok(true)",
    "numbers, source": "Ok(true)",
    "numbers, own reader": "Ok(true)",
    "pulls, slice": "Ok(true)",
    "pulls, source": "Ok(true)",
    "pulls, own reader": "Ok(true)",
    "lent": "(true, Ok(true), Ok(true), true)",
    "skipped": "(true, true, true)",
    "cids": "(true, 34)",
    # a boolean, ten numbers of one byte, a character, a text, a byte string, three nulls, a variant's name, a link
    "leaves and heads": f"Ok(({1 + 10 + 2 + 4 + 4 + 3 + 2 + 39}, true))",
}
for name, answer in WITHOUT_MEMORY.items():
    RUNS[f"no memory: {name}"] = Plain(answer, "memory was asked for")

# Derived types.
DERIVED = "a5616183016174a0626262" + "d82a450001550000" + "6363636382636f6e656374776f6464646464a26178f662797907656565656565816175"
KEPT = (
    'Kept { dddd: {"x": None, "yy": Some(7)}, ccc: ["one", "two"], '
    f'bb: Link({cid(1, 85, 0, "")}), a: Any(List([Integer(1), String("t"), Map({{}})])), '
    'rest: Rest { entries: Entries({"eeeee": List([String("u")])}) } }'
)
RUNS |= {
    "to_vec derived": Plain(f"Ok({listed(DERIVED)})"),
    "failing write of derived": Held("Ok(())", DERIVED, WRITE, each_byte=True),
    "failing derived": Plain(f"Ok({KEPT})", READ),
}
for name in ("from_slice", "from_slice_lossless", "from_reader"):
    RUNS[f"{name} derived"] = Plain(f"Ok({KEPT})")
