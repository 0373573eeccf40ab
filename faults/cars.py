"""The program `dagcar`, proved and built, over hostile CAR files, and over a small one with each place failing in turn.

What is wanted of a file is what `Judge` finds, which reads its framing and digests by itself; what its blocks are stands in
`BLOCKS`, by hand. None is copied from a run."""

import hashlib
import json

import dagpb
import running
from car_bytes import (CODECS, PRAGMA, Refusal, cid, counted, counted_at, header, lines_of, link, missing_line, parts_of, section,
                       text_of, varint, wrapped)

NUMBERS = b"\x83\x01\x02\x03"
AWAY = cid(b"\x61a")  # the name of a block that no file here has
ROOT = b"\xa2\x61a" + link(AWAY) + b"\x61b" + link(cid(NUMBERS))
UNORDERED = b"\xa2\x61b\x01\x61a\x02"

# What each block of DAG-CBOR is, and where its links lead.
BLOCKS = {
    NUMBERS: ("ok list", []),
    ROOT: ("ok map", [AWAY, cid(NUMBERS)]),
    UNORDERED: ("refused UnorderedKey", []),
    b"\x05": ("ok integer", []),
    b"": ("refused Eof", []),
}
# The byte at which each block that is refused is refused.
PLACES = {UNORDERED: 5, b"": 0}
# The roots of each header.
HEADERS = {header(): [], header(cid(ROOT)): [cid(ROOT)], header(AWAY, cid(ROOT)): [AWAY, cid(ROOT)]}
# Why other headers are not headers.
NO_HEADERS = {b"": "NoBlock", header()[:-1] + b"\x02": "OtherHeader", header()[:-1]: "NoBlock", NUMBERS: "OtherHeader"}


# Blocks that stand there if a byte at the beginning of a file of version 2 is changed.
NO_HEADERS |= {
    PRAGMA[1:]: "OtherHeader",
    PRAGMA[1:10]: "NoBlock",
    PRAGMA[1:] + b"\x00": "NoBlock",
    b"\xa0" + PRAGMA[2:]: "NoBlock",
    b"\xa1\x66" + PRAGMA[3:]: "NoBlock",
    b"\xa1\x67versioo\x02": "OtherHeader",
    PRAGMA[1:10] + b"\x01": "OtherHeader",
    PRAGMA[1:10] + b"\x03": "OtherHeader",
}


def is_well(found):
    """Returns true if a verdict tells that nothing is wrong."""
    return found in ("not read", "links not read") or found.startswith("ok ")


def links_of(codec, block):
    """Returns where the links of a block lead, for a block of its codec."""
    return dagpb.judged(block)[1] if codec == 0x70 else BLOCKS[block][1]


class Judge:
    """What is to be said of the bytes."""

    def __init__(self, bytes_):
        self.checked, self.listed, self.linked, self.held, self.is_well = [], [], set(), set(), True
        self.sections, self.refusal, self.places, self.given = [], [], [], bytes_
        try:
            file, is_short = self.file_in(bytes_)
            block, at = counted_at(file, 0)
            self.header(block)
            while at < len(file) or is_short:
                body, at = counted_at(file, at)
                self.section(body)
        except Refusal as refusal:
            self.refusal = [f"refused {refusal}"]

    @staticmethod
    def file_in(bytes_):
        """What is there of the file of version 1, and if some of it is missing."""
        if bytes_[:11] != PRAGMA:
            return bytes_, False
        if len(bytes_) < 51:
            raise Refusal("Truncated")
        begin, size = (int.from_bytes(bytes_[at : at + 8], "little") for at in (27, 35))
        if begin < 51 or begin + size >= 1 << 64:
            raise Refusal("InvalidOffset")
        return bytes_[begin : begin + size], len(bytes_) < begin + size

    def header(self, block):
        if block in NO_HEADERS:
            raise Refusal(NO_HEADERS[block])
        self.roots = HEADERS[block]
        self.linked.update(self.roots)
        self.listed += [f"root {text_of(root)}" for root in self.roots]

    def section(self, body):
        codec, hash_code, digest, end = parts_of(body)
        name, block = body[:end], body[end:]
        found = self.verdict(codec, hash_code, digest, block)
        self.is_well = self.is_well and is_well(found)
        self.sections.append((name, block, found))
        self.checked.append(f"{text_of(name)} {found}")
        if found.startswith("refused ") and codec == 0x71:
            self.places.append(f"{text_of(name)}: {found} at byte {PLACES[block]}")
        self.listed.append(f"{text_of(name)} {len(block)}")
        if found not in ("other bytes", "not verified"):
            self.held.add(name)
        if found.startswith("ok "):
            self.linked.update(links_of(codec, block))

    @staticmethod
    def verdict(codec, hash_code, digest, block):
        if hash_code not in (0x12, 0) or (hash_code and len(digest) != 32):
            return "not verified"
        if digest != (hashlib.sha256(block).digest() if hash_code else block):
            return "other bytes"
        if codec == 0x70:
            return dagpb.judged(block)[0]
        if codec == 0x71:
            return BLOCKS[block][0]
        return "not read" if codec == 0x55 else "links not read"

    def told(self, line):
        """Nothing is written, and why is told."""
        return 1, b"", lines_of([line])

    def got(self, name):
        """The status, the output and the messages for the block of one name."""
        for other, block, found in self.sections:
            if other == name and found not in ("other bytes", "not verified"):
                return 0, block, b""
        return self.told(self.refusal[0] if self.refusal else missing_line(name))

    def tree(self, root):
        """The same of the blocks that links lead to from a root."""
        if self.refusal:
            return self.told(self.refusal[0])
        stored, said = {}, {}
        for name, block, found in self.sections:
            if found not in ("other bytes", "not verified") and name[2:3] != b"\x00":
                stored.setdefault(name, block)
                said.setdefault(name, found)
        out, lost, seen, waiting = counted(header(root)), [], set(), [root]
        while waiting:
            name = waiting.pop()
            if name in seen:
                continue
            seen.add(name)
            if name not in stored:
                lost.append(name)
                continue
            # If it is not known what the links of a block are, nothing is written.
            if said[name] == "links not read" or said[name].startswith("refused "):
                return self.told(f"{text_of(name)} {said[name]}")
            out += section(stored[name], name=name)
            codec = parts_of(name)[0]
            if codec in (0x70, 0x71):
                waiting += reversed(links_of(codec, stored[name]))
        return int(bool(lost)), (b"" if root in lost else out), lines_of(map(missing_line, lost))

    def wanted(self, command):
        """The same of `check` or `list`."""
        if command == "list":
            return int(bool(self.refusal)), lines_of(self.listed + self.refusal), b""
        # The order of CIDs: all CIDs here are of version 1, of one codec and by one hash function.
        missing = [] if self.refusal else sorted(self.linked - self.held)
        lines = self.checked + self.refusal + [missing_line(it) for it in missing]
        return int(not self.is_well or bool(missing or self.refusal)), lines_of(lines), lines_of(self.places)

    def summary(self):
        """The same of `check --summary`: the numbers alone."""
        if self.refusal:
            return 1, lines_of(self.refusal), b""
        found = [it for _, _, it in self.sections]
        missing = len(self.linked - self.held)
        lines = [f"sections {len(found)}", f"ok {sum(it.startswith('ok ') for it in found)}"]
        lines += [f"{it} {found.count(it)}" for it in ("not read", "links not read")]
        lines += [f"refused {sum(it.startswith('refused ') for it in found)}"]
        lines += [f"{it} {found.count(it)}" for it in ("other bytes", "not verified")] + [f"missing {missing}"]
        return int(not self.is_well or bool(missing)), lines_of(lines), b""

    def facts(self):
        """What `inspect` says of a whole file."""
        is_second = self.given[:11] == PRAGMA
        rows = {"codecs": {}, "hashes": {}}
        for name, block, _ in self.sections:
            codec, hash_code, _, _ = parts_of(name)
            for kind, number in (("codecs", codec), ("hashes", hash_code)):
                count, bytes_ = rows[kind].get(number, (0, 0))
                rows[kind][number] = count + 1, bytes_ + len(block)
        missing, lengths = self.linked - self.held, [len(block) for _, block, _ in self.sections]
        codecs = [({"codec": CODECS.get(it, hex(it))}, row) for it, row in sorted(rows["codecs"].items())]
        hashes = [({"hash": hex(it)}, row) for it, row in sorted(rows["hashes"].items())]
        return {
            "version": 2 if is_second else 1,
            "index": "yes" if is_second and any(self.given[43:51]) else "no",
            "roots": [{"cid": text_of(it), "there": it not in missing} for it in self.roots],
            "sections": len(lengths),
            "repeated": len(lengths) - len({name for name, _, _ in self.sections}),
            "bytes": sum(lengths),
            "least": min(lengths, default=0),
            "greatest": max(lengths, default=0),
            "codecs": [it | {"sections": count, "bytes": bytes_} for it, (count, bytes_) in codecs],
            "hashes": [it | {"sections": count, "bytes": bytes_} for it, (count, bytes_) in hashes],
            "missing": len(missing),
        }

    def inspected(self, as_json):
        """The same of `inspect`."""
        if self.refusal:
            return self.told(self.refusal[0])
        facts = self.facts()
        if as_json:
            return 0, json.dumps(facts, separators=(",", ":")).encode() + b"\n", b""
        lines = [f"version {facts['version']}", f"index {facts['index']}", f"roots {len(facts['roots'])}"]
        lines += [f"root {it['cid']} {'there' if it['there'] else 'missing'}" for it in facts["roots"]]
        lines += [f"{it} {facts[it]}" for it in ("sections", "repeated", "bytes", "least", "greatest")]
        for kind, word in (("codecs", "codec"), ("hashes", "hash")):
            lines += [f"{word} {it[word]} {it['sections']} {it['bytes']}" for it in facts[kind]]
        return 0, lines_of(lines + [f"missing {facts['missing']}"]), b""


def questions(file):
    """What is asked about a file, and the right answers."""
    judge = Judge(file)
    yield ["check"], file, judge.wanted("check")
    yield ["list"], file, judge.wanted("list")
    yield ["get", text_of(cid(NUMBERS))], file, judge.got(cid(NUMBERS))
    yield ["tree", text_of(cid(ROOT))], file, judge.tree(cid(ROOT))
    yield ["check", "--summary"], file, judge.summary()
    yield ["inspect"], file, judge.inspected(False)
    yield ["inspect", "--json"], file, judge.inspected(True)


SMALL = counted(header(cid(ROOT))) + section(ROOT) + section(NUMBERS)
RAW_NOTHING = section(b"", codec=0x55)
LENGTHS = (1 << 63, (1 << 64) - 1, 1 << 64, 1 << 69, (1 << 63) - 1)
TAILS = (b"", b"\x01", section(NUMBERS))


def files():
    """The name of each kind of file, and the files."""
    yield "each front of a small file", [SMALL[:end] for end in range(len(SMALL) + 1)]
    long = [varint(it) + tail for it in LENGTHS for tail in TAILS]
    yield "lengths of 2^63 and more", [front + it for front in (b"", counted(header()), SMALL) for it in long]
    padded = [b"\x80\x00", b"\x84\x00" + NUMBERS, b"\xff" * 10 + b"\x01", b"\x80" * 9 + b"\x02", b"\x80" * 9]
    yield "lengths that are none", [front + it for front in (b"", SMALL) for it in padded]
    nothing = [RAW_NOTHING, section(b""), section(b"", name=b"\x01\x71\x00\x00"), section(b"", name=b"\x01\x55\x00\x00")]
    yield "100,000 sections of no block", [counted(header()) + it * 100_000 for it in nothing]
    yield "100,000 sections of no name", [counted(header()) + b"\x00" * 100_000, SMALL + b"\x00" * 100_000]
    repeated = [section(ROOT), section(NUMBERS), section(UNORDERED), section(NUMBERS, name=AWAY)]
    yield "sections that repeat", [counted(header(AWAY, cid(ROOT))) + it * 1000 + it for it in repeated] + [
        counted(header(cid(ROOT))) + b"".join(repeated) * 300
    ]
    names = (b"\x02\x71\x12\x00", b"\x01\x71\x12\x41", b"\x01\xf1\x00\x12\x00", b"\x12\x20\x00", b"\x01\x71", b"\x01\x71\x12\x20")
    yield "names that are none", [SMALL + section(NUMBERS, name=it) for it in names]
    yield "headers that are none", [counted(it) + section(NUMBERS) for it in NO_HEADERS]
    yield from files_of_version_2()
    names = (b"\x01\x71\x00\x01\x05", b"\x01\x71\x13\x01\x05", b"\x01\x71\x00\x01\x06", b"\x01\x71\x12\x01\x05")
    yield "other hash functions", [counted(header()) + b"".join(section(b"\x05", name=name) for name in names)]


def damaged(file):
    """The file with each byte of its header of version 2 changed, in some ways; but no file begins inside a block."""
    for at in range(51):
        for byte in {0x00, 0x01, file[at] ^ 1} | ({0x7F, 0x80, 0xFF, file[at] ^ 0x80} if at != 27 else set()):
            yield file[:at] + bytes([byte]) + file[at + 1 :]


def files_of_version_2():
    """The name of each kind of file of version 2, and the files."""
    small = wrapped(SMALL, b"\x00" * 5, section(UNORDERED), index=51 + 5 + len(SMALL))
    yield "version 2, each front", [small[:end] for end in range(len(small) + 1)]
    yield "version 2, each byte of the fields", [it for it in damaged(small) if it[:11] == PRAGMA]
    first = [b"\x09" + PRAGMA[1:], b"\x0b" + PRAGMA[1:], b"\x0a\xa0" + PRAGMA[2:], b"\x0a\xa1\x66" + PRAGMA[3:]]
    first += [b"\x0a\xa1\x67versioo\x02", PRAGMA[:10] + b"\x01", PRAGMA[:10] + b"\x03"]
    yield "version 2, its first bytes", [it + small[11:] for it in first]
    ends = (0, 1, 50, 51, 52, (1 << 32) - 1, 1 << 32, (1 << 63) - 1, 1 << 63, (1 << 64) - 52, (1 << 64) - 51, (1 << 64) - 1)
    yield "version 2, offsets", [wrapped(SMALL, begin=begin, size=size) for begin in ends for size in ends]
    inner = [b"", PRAGMA, wrapped(SMALL), SMALL + b"\x00", SMALL[:-1]]
    yield "version 2, other files in it", [wrapped(it, padding) for it in inner for padding in (b"", b"\x00" * 1300, SMALL)]
    sizes = range(len(SMALL) + 3)
    yield "version 2, each length", [wrapped(SMALL, after=RAW_NOTHING, size=size) for size in sizes]


def sweep_files(path, report):
    """Each file is judged as it must be, in little memory."""
    for name, given in files():
        rows = (row for file in given for row in questions(file))
        running.sweep(report, f"dagcar, {name}", path, rows, preexec_fn=running.short_of_memory)


# A block, and its text as `show` writes it and `make` reads it.
NUMBERS_IN_A_MAP = b"\xa2\x61a\x83\x01\x02\x03\x62bb\x44\x01\x02\x03\x04"
TEXT = b'{"a":[1,2,3],"bb":{"/":{"bytes":"AQIDBA"}}}'
BLOCKS_AND_TEXTS = {
    "show": (NUMBERS_IN_A_MAP, (0, TEXT + b"\n")),
    "make": (TEXT, (0, NUMBERS_IN_A_MAP)),
}
# A file of a list with a link that stands there twice, and of a raw leaf: what `get`, `tree`, `at` and `prove` give for it.
TWICE = b"\x83" + link(cid(NUMBERS)) + link(cid(b"raw", codec=0x55)) + link(cid(NUMBERS))
TREE = [section(TWICE), section(NUMBERS), section(b"raw", codec=0x55)]
OUT_OF_ORDER = counted(header()) + b"".join(reversed(TREE)) + section(UNORDERED) + section(NUMBERS)
FOUND = {
    f"get {text_of(cid(NUMBERS))}": (0, NUMBERS),
    f"tree {text_of(cid(TWICE))}": (0, counted(header(cid(TWICE))) + b"".join(TREE)),
    f"at {text_of(cid(TWICE))}/2/1": (0, b"2\n"),
    f"at --raw {text_of(cid(TWICE))}/2": (0, TWICE[-41:]),
    f"prove {text_of(cid(TWICE))}/2/1": (0, counted(header(cid(TWICE))) + section(TWICE) + section(NUMBERS)),
    f"prove {text_of(cid(TWICE))}/3": (0, counted(header(cid(TWICE))) + section(TWICE)),
}
MANY = 100_000


def texts():
    """The name of each kind of text, and the texts with the cause that is named, or None if a block is made."""
    yield "each front of a text", [(TEXT[:end], b"NoJson") for end in range(len(TEXT))] + [(TEXT, None)]
    deep = [b"[" * MANY, b'{"a":' * MANY, b"[" * MANY + b"]" * MANY, b'[{"a":' * MANY]
    yield "texts that nest", [(it, b"TooDeep") for it in deep]
    closing = [b"]" * MANY, b"}" * MANY, b"[" + b"}" * MANY, b"," * MANY, b":" * MANY, b'"' + b"\\" * (MANY + 1), b" " * MANY]
    yield "texts of one sign", [(it, b"NoJson") for it in closing]
    yield "long numbers", [(b"9" * MANY, b"OutOfRange"), (b"-" + b"9" * MANY, b"OutOfRange"), (b"1." + b"0" * MANY, b"Float")]
    keys = b",".join(b'"%d":0' % it for it in range(MANY // 10))
    yield "many keys", [(b"{" + keys + b"}", None), (b"{" + keys + b',"0":1}', b"RepeatedKey")]
    yield "long texts", [
        (b'"' + b"\\u0041" * MANY + b'"', None),
        (b'"' + b"a" * MANY + b"\xff", b"NoText"),
        (b'"' + b"\\ud800" * MANY + b'"', b"NoJson"),
    ]
    yield "long texts of links and bytes", [
        (b'{"/":"b' + b"a" * MANY + b'"}', b"NoCid"),
        (b'{"/":{"bytes":"' + b"A" * (4 * MANY) + b'"}}', None),
        (b'{"/":{"bytes":"' + b"A" * (4 * MANY + 1) + b'"}}', b"NoBase64"),
    ]


def made_or_refused(cause):
    """What is right of a text: a block, or this cause."""
    if cause is None:
        return lambda status, out, told: status == 0 and out and not told
    return lambda status, out, told: status == 1 and not out and told.split()[:2] == [b"refused", cause]


def sweep_texts(path, report):
    """Each text is made into a block, or refused for its cause, in little memory."""
    for name, given in texts():
        rows = ((["make"], text, made_or_refused(cause)) for text, cause in given)
        running.sweep(report, f"dagcar make, {name}", path, rows, preexec_fn=running.short_of_memory)


def chain(count, block_over):
    """This many blocks, each over the name of the next one, and the numbers."""
    blocks = [NUMBERS]
    for _ in range(count):
        blocks.append(block_over(cid(blocks[-1])))
    return blocks[::-1]


def paths():
    """The name of each kind of path, the blocks, the path from the first of them, how many it passes, and what `at` says."""
    maps, links = chain(3_000, lambda name: b"\xa1\x61n" + link(name)), chain(3_000, link)
    nothing = lambda block, left: (1, b"", f"{text_of(cid(block))} has nothing at {left}\n".encode())
    yield "over 3,000 maps", maps, "n/" * 3_000 + "1", 3_001, (0, b"2\n", b"")
    yield "over 3,000 blocks that are links", links, "1", 3_001, (0, b"2\n", b"")
    yield "over 3,000 maps to nothing", maps, "n/" * 3_000 + "01", 3_001, nothing(NUMBERS, "01")
    yield "to nothing on the way", maps, "n/" * 10 + "m/" + "n/" * 3_000, 11, nothing(maps[10], "m/" + "n/" * 3_000)
    yield "of one long segment", maps, "n" * MANY, 1, nothing(maps[0], "n" * MANY)
    yield "of a long index", links, "9" * MANY, 3_001, nothing(NUMBERS, "9" * MANY)
    yield "of many slashes", [NUMBERS], "/" * MANY, 1, (0, b"[1,2,3]\n", b"")


def sweep_paths(path, report):
    """The blocks on each path are written, `at` answers over them as over all blocks, and without the last one nothing is
    proved."""
    for name, blocks, text, count, answer in paths():
        first, word = counted(header(cid(blocks[0]))), f"{text_of(cid(blocks[0]))}/{text}"
        file = counted(header()) + b"".join(map(section, reversed(blocks)))
        proof, cut = (first + b"".join(map(section, blocks[:end])) for end in (count, count - 1))
        missing = 1, b"", lines_of([missing_line(cid(blocks[count - 1]))])
        rows = [(["prove", word], given, (0, proof, b"")) for given in (file, proof)] + [(["prove", word], cut, missing)]
        rows += [(["at", word], given, wanted) for given, wanted in ((file, answer), (proof, answer), (cut, missing))]
        running.sweep(report, f"dagcar, a path {name}", path, rows, preexec_fn=running.short_of_memory)


def sweep(path, report):
    sweep_files(path, report)
    sweep_paths(path, report)
    sweep_texts(path, report)


def wanted_of_small():
    """What each command answers for the small file."""
    return {command: Judge(SMALL).wanted(command)[:2] for command in ("check", "list")}
