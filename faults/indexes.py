"""The program `dagcar`, proved and built, over files of version 2 with an index: right ones, wrong ones and hostile ones.

The bytes of an index are made here, from the format alone (CARv2 specification, "Index"): none is copied from a run."""

import random

import running
from car_bytes import cid, counted, header, lines_of, link, missing_line, parts_of, text_of, varint, wrapped

NO_ENTRY = b"dagcar: the index has no right entry of this block\n"
NO_WAY_ENTRY = b"dagcar: the index has no right entry of a block on the way\n"
NOT_OPENED = 2, b"", b"dagcar: the file cannot be opened\n"

LEAVES = [b"leaf %d" % number for number in range(40)]
IDENTITY = b"\x01\x55\x00\x05hello"
OTHER_HASH = b"\x01\x55\x13\x40" + bytes(range(64))
SHORT_HASH = b"\x01\x55\x13\x14" + bytes(range(20))


def little(number, size):
    return number.to_bytes(size, "little")


def data_of(sections, root=None):
    """A file of version 1, and its entries: hash code, digest and place of each section."""
    out, entries = counted(header(*([] if root is None else [root]))), []
    for name, block in sections:
        entries.append((*parts_of(name)[1:3], len(out)))
        out += counted(name + block)
    return out, entries


def order(entry):
    code, digest, place = entry
    return code, len(digest), digest, place


def buckets(entries):
    """Entries of each width, the least first, after their count."""
    widths = sorted({len(digest) + 8 for _, digest, _ in entries})
    out = little(len(widths), 4)
    for width in widths:
        body = b"".join(digest + little(place, 8) for _, digest, place in entries if len(digest) + 8 == width)
        out += little(width, 4) + little(len(body), 8) + body
    return out


def by_multihash(entries):
    """An index of the format 0x0401."""
    entries = sorted(entries, key=order)
    codes = sorted({code for code, _, _ in entries})
    out = varint(0x0401) + little(len(codes), 4)
    for code in codes:
        out += little(code, 8) + buckets([entry for entry in entries if entry[0] == code])
    return out


def by_width(entries):
    """An index of the format 0x0400."""
    return varint(0x0400) + buckets(sorted(entries, key=lambda entry: (len(entry[1]), entry[1], entry[2])))


def version_2(data, index, padding=b"", place=None):
    """The file of version 2 of these parts."""
    place = 51 + len(padding) + len(data) if place is None else place
    return wrapped(data, padding, index, index=place, characteristics=b"\x80" + bytes(15))


SECTIONS = [(cid(leaf, codec=0x55), leaf) for leaf in LEAVES]
SECTIONS += [(IDENTITY, b"hello"), (OTHER_HASH, b"any"), (SHORT_HASH, b"any")]
DATA, ENTRIES = data_of(SECTIONS, root=SECTIONS[0][0])
SOUGHT, BLOCK = SECTIONS[17]


def piped(path, words, file):
    """What the program says of the same bytes on standard input, which it cannot read at places."""
    return running.answer([path, *words], file, preexec_fn=running.short_of_memory)


def get(name):
    return ["get", text_of(name)]


def files_to_index():
    """Files, and what `index` writes for each."""
    shown = [(DATA, ENTRIES), data_of([]), data_of(SECTIONS[:1]), data_of(SECTIONS[:5] * 3)]
    shown += [data_of([(SECTIONS[1][0], b"other bytes"), SECTIONS[1], SECTIONS[0]])]
    for data, entries in shown:
        wanted = 0, version_2(data, by_multihash(entries)), b""
        yield ["index"], data, wanted
        yield ["index"], version_2(data, b""), wanted
        yield ["index"], version_2(data, by_width(entries[:1]), padding=bytes(1300)), wanted
    for end in range(1, len(DATA), 97):
        if end not in [0, *(place for _, _, place in ENTRIES)]:
            yield ["index"], DATA[:end], (1, b"", b"refused Truncated\n")


def blocks_by_index():
    """Blocks that an index leads to, and that a scan would not find."""
    first, entries = data_of(SECTIONS)
    place = entries[17][2]
    size = len(counted(SOUGHT + BLOCK))
    blank = b"\xff" * place + first[place : place + size] + b"\xff" * (len(first) - place - size)
    for make in (by_multihash, by_width):
        for padding in (b"", bytes(100)):
            yield get(SOUGHT), version_2(blank, make(entries), padding), (0, BLOCK, b"")
    for name, block in SECTIONS[:41]:
        for make in (by_multihash, by_width):
            yield get(name), version_2(DATA, make(ENTRIES)), (0, block, b"")


def blocks_past_index():
    """Blocks that a file has, and to which its index does not lead; and names that the file does not have."""
    wanted = 0, BLOCK, NO_ENTRY
    for make in (by_multihash, by_width):
        yield get(SOUGHT), version_2(DATA, make(ENTRIES[:17] + ENTRIES[18:])), wanted
        for by in (-1, 1, len(DATA), (1 << 63) - ENTRIES[17][2], (1 << 64) - 1 - ENTRIES[17][2]):
            moved = (*ENTRIES[17][:2], ENTRIES[17][2] + by)
            yield get(SOUGHT), version_2(DATA, make([*ENTRIES[:17], moved, *ENTRIES[18:]])), wanted
        # An entry that leads to another block.
        yield get(SOUGHT), version_2(DATA, make([*ENTRIES[:17], (*ENTRIES[17][:2], ENTRIES[3][2])])), wanted
        whole = version_2(DATA, make(ENTRIES))
        for end in range(len(whole) - len(make(ENTRIES)), len(whole)):
            yield get(SOUGHT), whole[:end], wanted, (0, BLOCK, b"")
        yield get(SOUGHT), version_2(DATA, make(ENTRIES), place=len(whole)), wanted
        yield get(SOUGHT), version_2(DATA, make(ENTRIES), place=(1 << 64) - 1), wanted
        yield get(SOUGHT), version_2(DATA, make(ENTRIES), place=0), (0, BLOCK, b"")
        absent = cid(b"absent", codec=0x55)
        yield get(absent), version_2(DATA, make(ENTRIES)), (1, b"", f"{missing_line(absent)}\n".encode())


def hostile_indexes():
    """Indexes with counts, widths and lengths that no bytes follow."""
    wanted = 0, BLOCK, NO_ENTRY
    counts = (0, 1, 2, (1 << 31) - 1, 1 << 31, (1 << 32) - 1)
    lengths = (0, 1, 39, 40, 1 << 32, (1 << 63) - 1, 1 << 63, (1 << 64) - 1)
    for count in counts:
        for width in (0, 1, 7, 8, 39, 40, 72, (1 << 32) - 1):
            for length in lengths:
                bucket = little(count, 4) + little(width, 4) + little(length, 8)
                yield get(SOUGHT), version_2(DATA, varint(0x0400) + bucket), wanted
                yield get(SOUGHT), version_2(DATA, varint(0x0401) + little(1, 4) + little(0x12, 8) + bucket), wanted
                yield get(SOUGHT), version_2(DATA, varint(0x0401) + little(count, 4) + little(0x13, 8) + bucket), wanted
    for kind in (b"", b"\x00", b"\x80", b"\x80\x00", varint(0x0402), b"\xff" * 10, b"\x82\x08"):
        yield get(SOUGHT), version_2(DATA, kind + by_width(ENTRIES)[2:]), wanted
    empty = little(40, 4) + little(0, 8)
    yield get(SOUGHT), version_2(DATA, varint(0x0400) + little(100_000, 4) + empty * 100_000), wanted
    many = [(0x12, SOUGHT[-32:], ENTRIES[3][2])] * 100_000
    yield get(SOUGHT), version_2(DATA, by_width(many)), wanted


def repeated_sections():
    """Sections of one name, some of which do not have the bytes that the name says."""
    name, block = SECTIONS[5]
    rows = [[(name, b"other"), (name, block)], [(name, block), (name, b"other")], [(name, block)] * 3]
    rows += [[(b"\x01\x71" + name[2:], block), (name, block)]]
    for sections in rows:
        data, entries = data_of(SECTIONS[:3] + sections)
        for make in (by_multihash, by_width):
            yield get(name), version_2(data, make(entries)), (0, block, b"")


# A map that links to a list, which links to a map: the path a/0/x leads over all three to 5.
LAST = b"\xa1ax\x05"
MIDDLE = b"\x81" + link(cid(LAST))
FIRST = b"\xa1aa" + link(cid(MIDDLE))
WAY = [(cid(block), block) for block in (FIRST, MIDDLE, LAST)]
INLINE = b"\x01\x71\x00" + counted(b"\xa1aa" + link(cid(MIDDLE)))


def asks(root=WAY[0][0]):
    """Words that ask for a path that leads to an item, and for one that leads nowhere."""
    for path in ("a/0/x", "a/0", "a/0/y", "a/1", ""):
        text = f"{text_of(root)}/{path}"
        yield from (["at", text], ["at", "--raw", text], ["prove", text])


def paths_by_index(path):
    """Paths over blocks to which an index leads, in files that a scan could not read."""
    data, entries = data_of(SECTIONS[:9] + WAY + SECTIONS[9:])
    way = [entry for entry in entries if entry[2] in [entries[number][2] for number in (9, 10, 11)]]
    first, last = way[0][2], entries[12][2]
    blank = b"\xff" * first + data[first:last] + b"\xff" * (len(data) - last)
    for root in (WAY[0][0], INLINE):
        for words in asks(root):
            wanted = piped(path, words, data)
            for make in (by_multihash, by_width):
                for padding in (b"", bytes(100)):
                    yield words, version_2(blank, make(entries), padding), wanted
                yield words, version_2(blank, make(way)), wanted
    # A block to which no link of the path leads need not be there.
    yield ["at", f"{text_of(WAY[1][0])}/0/x"], version_2(blank, by_width(way[1:])), (0, b"5\n", b"")


def past(wanted):
    """What the program says if the index does not lead to a block on the way: if what is asked is there, a line more."""
    status, out, told = wanted
    return status, out, told + (b"" if status else NO_WAY_ENTRY)


def paths_past_index(path):
    """Paths over blocks some or all of which an index does not list, or lists wrongly; and files without some of the blocks."""
    data, entries = data_of(SECTIONS[:9] + WAY + SECTIONS[9:])
    cut, left = data_of(SECTIONS[:9] + WAY[:1] + WAY[2:] + SECTIONS[9:])
    for words in asks():
        wanted = piped(path, words, data)
        yield words, version_2(data, by_width(entries), place=0), wanted
        for make in (by_multihash, by_width):
            yield words, version_2(data, make(entries[:9] + entries[10:])), past(wanted)
            yield words, version_2(data, make(entries[:9])), past(wanted)
            for place in (entries[3][2], entries[11][2], (1 << 64) - 1):
                moved = (*entries[9][:2], place)
                yield words, version_2(data, make([*entries[:9], moved, *entries[10:]])), past(wanted)
            # The block is not there, of whatever entries: no index says so, but the file.
            wanted_of_cut = piped(path, words, cut)
            yield words, version_2(cut, make(left)), past(wanted_of_cut) if words[-1][-1] != "/" else wanted_of_cut
        yield words, version_2(data[:-1], by_width(entries[:9])), piped(path, words, data[:-1])


def wrong_blocks_on_the_way(path):
    """Sections of other bytes under a name on the way, to which an index leads first, or to which alone it leads."""
    wrong = (WAY[1][0], b"\x81\x07")
    data, entries = data_of([WAY[0], wrong, WAY[1], WAY[2]])
    for words in asks():
        if words[-1][-1] == "/":
            continue
        wanted = piped(path, words, data)
        for make in (by_multihash, by_width):
            yield words, version_2(data, make(entries)), wanted
            yield words, version_2(data, make([entries[0], entries[1], entries[3]])), past(wanted)


class Fault(Exception):
    """Why bytes are not an index."""


class Pieces:
    """Bytes that are taken one after the other."""

    def __init__(self, given):
        self.left = given

    def take(self, size):
        if len(self.left) < size:
            raise Fault("Truncated")
        taken, self.left = self.left[:size], self.left[size:]
        return taken

    def number(self, size):
        return int.from_bytes(self.take(size), "little")


def read_widths(pieces, code):
    """The entries of each width."""
    entries, last = [], -1
    for _ in range(pieces.number(4)):
        width, size = pieces.number(4), pieces.number(8)
        if not 8 <= width <= 72:
            raise Fault("Width")
        if width <= last:
            raise Fault("Order")
        if size % width:
            raise Fault("Length")
        for _ in range(size // width):
            entries.append((code, pieces.take(width - 8), pieces.number(8)))
        last = width
    return entries


def read_index(given):
    """Returns if the format tells hash codes, and the entries (CARv2 specification, "Index")."""
    pieces = Pieces(given)
    kind = pieces.take(2)
    if kind == b"\x80\x08":
        return False, read_widths(pieces, None)
    if kind != b"\x81\x08":
        raise Fault("Format")
    entries, last = [], -1
    for _ in range(pieces.number(4)):
        code = pieces.number(8)
        if code <= last:
            raise Fault("Order")
        entries, last = entries + read_widths(pieces, code), code
    return True, entries


def listed(index):
    """What `list --index` says of a file with this index."""
    try:
        has_codes, entries = read_index(index)
    except Fault as fault:
        return 1, b"", f"refused Index{fault}\n".encode()
    lines = [f"index {'Multihash' * has_codes}IndexSorted"]
    for code, digest, offset in entries:
        lines.append(f"{offset} {hex(code) + ' ' if has_codes else ''}{digest.hex()}")
    return 0, lines_of(lines), b""


def found(sections, index):
    """The findings on an index of these sections, and how many entries it has."""
    has_codes, entries = read_index(index)
    _data, places = data_of(sections)
    begin = len(_data) - sum(len(counted(name + block)) for name, block in sections)
    assert not places or places[0][2] == begin
    there = {(code if has_codes else None, digest, place) for code, digest, place in places}
    lines = [f"wrong {offset} {digest.hex()}" for code, digest, offset in entries if (code, digest, offset) not in there]
    for (last_code, last, _), (code, digest, offset) in zip(entries, entries[1:]):
        if last_code == code and len(last) == len(digest) and digest < last:
            lines.append(f"unordered {offset} {digest.hex()}")
    names = {(code, digest) for code, digest, place in places if (code if has_codes else None, digest, place) in set(entries)}
    for (name, _block), (code, digest, place) in zip(sections, places):
        if code != 0 and (code, digest) not in names:
            lines.append(f"unlisted {text_of(name)} {place}")
    return lines, len(entries)


def judged(sections, index):
    """What `check --index` says, what `check` says after what it says of the file, and the word of `inspect`."""
    try:
        lines, count = found(sections, index)
    except Fault as fault:
        told = f"refused Index{fault}\n".encode()
        return (1, b"", told), (1, b"", told), "wrong"
    status, text = int(bool(lines)), lines_of(lines)
    return (status, text + f"entries {count}\n".encode(), b""), (status, text, b""), "wrong" if lines else "right"


def spoiled(entries):
    """Entries with one thing wrong, and entries with nothing wrong."""
    yield entries
    for at, (code, digest, place) in enumerate(entries):
        others = entries[:at], entries[at + 1 :]
        for more in (
            [],
            [(code, digest, place + 1)],
            [(code, digest, entries[at - 1][2])],
            [(code, digest[:-1] + b"\x00", place)],
            [(code + 1, digest, place)],
            [(code, digest, place)] * 2,
            [(code, digest, place), (code, digest, (1 << 64) - 1)],
        ):
            yield others[0] + more + others[1]


def in_order_given(entries):
    """An index by multihashes whose entries stand as they are given, within their width."""
    codes = sorted({code for code, _, _ in entries})
    out = varint(0x0401) + little(len(codes), 4)
    return out + b"".join(little(code, 8) + buckets([it for it in entries if it[0] == code]) for code in codes)


def indexes_to_judge():
    """Sections, and indexes of them: right ones, and one with each thing that can be wrong."""
    name, block = SECTIONS[5]
    files = [SECTIONS[:6] + SECTIONS[40:], [], SECTIONS[:1], SECTIONS[40:41]]
    files += [SECTIONS[:3] + [(name, block)] * 3, [(b"\x01\x71" + name[2:], block), (name, block), (name, b"other")]]
    for sections in files:
        _, entries = data_of(sections)
        for some in spoiled(entries):
            for make in (by_multihash, by_width, in_order_given):
                yield sections, make(some)
        yield sections, in_order_given(list(reversed(entries)))
        for make in (by_multihash, by_width):
            whole = make(entries)
            for end in range(0, len(whole), 5):
                yield sections, whole[:end]
            yield sections, whole + b"and more"
    few, entries = SECTIONS[:4], data_of(SECTIONS[:4])[1]
    bucket = buckets(entries)[4:]
    for count, code in ((2, 0x12), (1, 0x12), ((1 << 32) - 1, 0x12)):
        yield few, varint(0x0400) + little(count, 4) + bucket * 2
        yield few, varint(0x0401) + little(count, 4) + (little(code, 8) + little(1, 4) + bucket) * 2
    for width in (0, 7, 8, 9, 39, 41, 72, 73, (1 << 32) - 1):
        for size in (0, 8, 72, 160, 1 << 32, (1 << 64) - 1):
            yield few, varint(0x0400) + little(1, 4) + little(width, 4) + little(size, 8) + bucket[12:]
    for kind in (b"", b"\x00", b"\x80", b"\x80\x00", varint(0x0402), b"\xff" * 10, b"\x82\x08"):
        yield few, kind + by_width(entries)[2:]


def random_indexes():
    """Indexes with one to three bytes changed."""
    chance = random.Random(20240229)
    sections = SECTIONS[:5] + SECTIONS[40:]
    _, entries = data_of(sections)
    for _ in range(600):
        for make in (by_multihash, by_width):
            index = bytearray(make(entries))
            for _ in range(chance.randint(1, 3)):
                index[chance.randrange(len(index))] = chance.randrange(256)
            yield sections, bytes(index)


def rows_of_judged(path, given):
    """The words, a file, and the right answer."""
    for sections, index in given:
        data, _ = data_of(sections)
        file = version_2(data, index)
        alone, beside, word = judged(sections, index)
        yield ["list", "--index"], file, listed(index)
        yield ["check", "--index"], file, alone
        status, out, told = piped(path, ["check"], file)
        yield ["check"], file, (max(status, beside[0]), out + beside[1], told + beside[2])
        status, out, told = piped(path, ["inspect"], file)
        yield ["inspect"], file, (status, out.replace(b"index yes\n", f"index {word}\n".encode()), told)


def files_without_an_index():
    """Files without an index, and bytes that are not a file."""
    none = 1, b"", b"refused NoIndex\n"
    for file in (DATA, version_2(DATA, b"", place=0), b"", b"\x00", DATA[:-1]):
        yield ["list", "--index"], file, none
        yield ["check", "--index"], file, none
    cut = version_2(DATA[:-1], by_width(ENTRIES))
    yield ["check", "--index"], cut, (1, b"", b"refused Truncated\n")
    yield ["list", "--index"], cut, listed(by_width(ENTRIES))


def judged_whole(path):
    """Files of which `check` and `inspect` say no more than on standard input."""
    for file in (DATA, version_2(DATA, b"", place=0), DATA[:-1], b"", version_2(DATA[:-1], by_width(ENTRIES))):
        for words in (["check"], ["inspect"], ["inspect", "--json"]):
            yield words, file, piped(path, words, file)


def sweep(path, folder, report):
    for name, rows in (
        ("an index is made", files_to_index()),
        ("get by an index", blocks_by_index()),
        ("get past an index", blocks_past_index()),
        ("paths by an index", paths_by_index(path)),
        ("paths past an index", paths_past_index(path)),
        ("wrong blocks on a path's way", wrong_blocks_on_the_way(path)),
        ("hostile indexes", hostile_indexes()),
        ("sections that repeat, with an index", repeated_sections()),
        ("indexes are judged", rows_of_judged(path, indexes_to_judge())),
        ("indexes of other bytes are judged", rows_of_judged(path, random_indexes())),
        ("no index is judged", files_without_an_index()),
        ("files with no index to judge", judged_whole(path)),
    ):
        running.sweep(report, f"dagcar, {name}", path, rows, folder, preexec_fn=running.short_of_memory)
    running.sweep(report, "dagcar index, no file", path, [(["index", f"{folder}/away.car"], b"", NOT_OPENED)])
