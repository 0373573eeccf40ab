"""CAR files: each source of bytes is answered as conformance/cars.py answers, which knows
nothing of the library, and as the program `dagcar` does where it is built."""

import hashlib
import io
import mmap
import os
import pickle
import random
import subprocess
import sys
import tempfile
import threading
import time
from collections import Counter

import pytest
from conformance import block_of, cars, load
from cars import counted, header, second, section
from cars import name as cid
from dagcbor import CID, CarCheck, CarError, DagCborError, Section, check_car, name, read_car, write_car
from forms import NUMBERS, ROOT, SMALL
from plain import spelling

HERE = os.path.dirname(os.path.abspath(__file__))
DAGCAR = os.path.join(HERE, "../../../crates/dagcar/out/dagcar")
UNORDERED = b"\xa2\x61b\x01\x61a\x02"
LEAF = b"\x6dleaf of bytes"
BIG = spelling(bytes(range(256)) * 32)
PLAIN = header(cid(ROOT)) + section(ROOT) + section(NUMBERS)


class Dripping(io.RawIOBase):
    """Gives a byte or two at once."""

    def __init__(self, file):
        self.file, self.at = file, 0

    def read(self, count=-1):
        piece = self.file[self.at : self.at + 1 + self.at % 2]
        self.at += len(piece)
        return piece


class Large:
    """A file that is asked, and is not one of io's."""

    def __init__(self, pieces):
        self.pieces = iter(pieces)

    def read(self, count):
        assert count > 0
        return next(self.pieces, b"")


def sources(file):
    yield file
    yield from (bytearray(file), memoryview(file), io.BytesIO(file), Dripping(file), Large([file]))


def answered(source, sha256=None):
    """As `wanted`: the roots, the sections, and the kind and place of the fault."""
    try:
        reader = read_car(source, sha256=sha256)
    except CarError as error:
        return None, [], (error.kind, error.place)
    sections, fault = [], None
    try:
        for it in reader:
            sections.append((bytes(it.cid), it.block, it.verdict))
    except CarError as error:
        fault = error.kind, error.place
        with pytest.raises(CarError):  # it stays
            next(reader)
    return [bytes(it) for it in reader.roots], sections, fault


def wanted(file):
    found, fault = cars.read(file)
    told = [(it["cid"], file[it["block"] : it["end"]], cars.in_variants(it["verdict"]))
            for it in found["sections"]]
    roots = found.get("roots")
    return roots, told, fault and (cars.VARIANTS[fault[0]], fault[1])


def checked(source, sha256=None):
    """As `wanted_check`."""
    try:
        found, fault = check_car(source, sha256=sha256), None
    except CarError as error:
        found, fault = error.checked, (error.kind, error.place)
    if found is None:
        return None, fault
    lost = [bytes(it) for it in found.missing]
    held = {bytes(it) for it in found.held}
    return ([bytes(it) for it in found.roots], found.verdicts, lost, held, found.is_well), fault


def wanted_check(file):
    roots, told, fault = wanted(file)
    if roots is None:
        return None, fault
    counts = dict(Counter(verdict for _, _, verdict in told))
    held = {name for name, _, verdict in told if verdict not in ("other bytes", "not verified")}
    lost = cars.missing(file, cars.read(file)[0])
    well = not lost and all(it.startswith("ok") or it == "not read" for it in counts)
    return (roots, counts, lost, held, well), fault


# No SHA-256: what it does not find to be the block is left to the library.
@pytest.mark.parametrize("sha256", [None, hashlib.sha256, hashlib.blake2s, hashlib.md5])
@pytest.mark.parametrize("vector", load(["files"]), ids=lambda it: it["id"])
def test_files(vector, sha256):
    file = block_of(vector)
    roots, told, fault = wanted(file)
    for source in sources(file):
        assert answered(source, sha256) == (roots, told, fault)
    for source in sources(file):
        assert checked(source, sha256) == wanted_check(file)


class Sha256:
    """Knows what it was asked of."""

    def __init__(self):
        self.asked = []

    def __call__(self, block):
        self.asked.append(block)
        return hashlib.sha256(block)


def test_what_sha256_is_asked_of():
    file = header() + section(ROOT) + section(UNORDERED) + section(b"raw", cid(b"raw", codec=0x55))
    other = section(b"other", cid(b"raw", codec=0x55)) + section(b"other", cid(b"raw"))
    rest = section(ROOT, cid(ROOT, code=0x13)) + section(b"\x05", cid(b"\x05", code=0))
    rest += section(b"foo", cid(b"foo")[2:]) + section(b"foo", cid(b"foo", codec=0x200))
    long = section(b"\xf6")
    long = bytes([long[0] | 0x80, 0]) + long[1:]  # of a length that is not in shortest form
    for call in answered, checked:
        for behind in b"", long, section(ROOT)[:-1]:
            sha256 = Sha256()
            assert call(file + other + rest + behind, sha256) == call(file + other + rest + behind)
            assert sha256.asked == [ROOT, UNORDERED, b"raw", b"other", b"other"]


def test_sha256_is_believed():
    class Digest:
        def digest(self):
            return hashlib.sha256(ROOT).digest()

    assert answered(header() + section(NUMBERS, cid(ROOT)), lambda it: Digest())[1][0][2] == "ok list"


def test_a_sha256_that_fails():
    class Digest:
        def digest(self):
            return "text"

    def failing(block):
        if block == NUMBERS:
            raise ZeroDivisionError
        return hashlib.sha256(block)

    reader = read_car(PLAIN, sha256=failing)
    assert next(reader).verdict == "ok map"
    for _ in range(2):
        with pytest.raises(ZeroDivisionError):
            next(reader)
    with pytest.raises(ZeroDivisionError):
        check_car(PLAIN, sha256=failing)
    for sha256 in (1, hashlib, lambda it: it, lambda it: Digest()):
        with pytest.raises((TypeError, AttributeError)):
            check_car(PLAIN, sha256=sha256)
        with pytest.raises((TypeError, AttributeError)):
            list(read_car(PLAIN, sha256=sha256))
    with pytest.raises(TypeError):
        read_car(PLAIN, hashlib.sha256)

    def asking(block):
        with pytest.raises(ValueError, match="already at work"):
            next(reader)
        return hashlib.sha256(block)

    reader = read_car(PLAIN, sha256=asking)
    assert [it.verdict for it in reader] == ["ok map", "ok list"]


def test_names_that_are_not_packed():
    name = bytes([4, 1, 0x55, 0, 0])
    assert [bytes(it) for it in CarCheck([], {}, [], name * 2).held] == [name[1:]] * 2
    for packed in (b"\xff", b"\xffa", b"\x04\x01\x55\x00", name + b"\x01", "abc", None, bytearray(name), b"\0", b"\1\x12", b"\x04\1\x71\x12\x7f"):
        with pytest.raises(TypeError):
            CarCheck([], {}, [], packed).held


def said_by(words):
    """What `dagcar check` says: a verdict for each section, the fault, and what is missing."""
    verdicts, fault, lost = [], None, []
    for line in words.splitlines():
        if line.startswith("missing "):
            lost.append(line.split()[1])
        elif line.startswith("refused "):
            fault = line.split()[1]
        else:
            verdicts.append(tuple(line.split(" ", 1)))
    return verdicts, fault, sorted(lost)


def program(file):
    """But for what the program tells of blocks of other codecs, as DAG-PB, which the package does not read."""
    ran = subprocess.run([DAGCAR, "check"], input=file, capture_output=True, check=False)
    verdicts, fault, lost = said_by(ran.stdout.decode())
    return [(name, "not read" if is_of_other(name, verdict) else verdict) for name, verdict in verdicts], fault, lost


def is_of_other(name, verdict):
    return CID(name).codec != 0x71 and verdict.startswith(("ok ", "refused ", "links "))


def as_program(file):
    """The same of the package."""
    try:
        sections, fault, lost = [], None, []
        for it in read_car(file):
            sections.append((str(it.cid), it.verdict))
        lost = sorted(map(str, check_car(file).missing))
    except CarError as error:
        fault = error.kind
    return sections, fault, lost


def damaged(file):
    for at in range(len(file)):
        for change in (1, 0x80):
            yield file[:at] + bytes([file[at] ^ change]) + file[at + 1 :]
    yield from (file[:at] for at in range(len(file)))


def program_takes(file):
    return os.path.exists(DAGCAR) and program(file)[1] is None


@pytest.mark.parametrize("file", [PLAIN, second(PLAIN, begin=53, behind=b"\0\0")])
def test_each_byte_damaged(file):
    inside = file.find(section(ROOT)), file.find(PLAIN) + len(PLAIN)
    for number, it in enumerate(damaged(file)):
        one, all_one = answered(it), checked(it)
        assert answered(io.BytesIO(it)) == one == answered(Dripping(it))
        assert checked(Large([it[:70], it[70:]])) == all_one == checked(it, hashlib.sha256)
        assert answered(io.BytesIO(it), hashlib.sha256) == one
        assert all_one[1] == one[2]
        if inside[0] <= number // 2 < inside[1] and len(it) == len(file):
            roots, told, fault = wanted(it)
            assert one == (roots, told, fault)


@pytest.mark.parametrize("file", [PLAIN, second(PLAIN, begin=53, behind=b"\0\0")])
def test_each_byte_as_the_program(file):
    if not program_takes(file):
        pytest.skip("dagcar is not built here, or is of version 1 alone")
    for it in damaged(file):
        assert as_program(it) == program(it)


def random_blocks(rng, count):
    """Blocks with links among them and away, of which the last has all that nothing led to."""
    names = [cid(b"\xf6")]
    for _ in range(count):
        links = rng.sample(names, min(len(names), rng.randrange(4)))
        links += [cid(rng.randbytes(4))] * (rng.random() < 0.1)
        block = bytes([0x80 + len(links) + 1]) + b"".join(
            b"\xd8\x2a\x58" + bytes([len(it) + 1, 0]) + it for it in links)
        block += b"\x58" + bytes([200]) + rng.randbytes(200)
        names.append(cid(block))
        yield block, links


def test_many():
    rng = random.Random(5)
    blocks = dict(random_blocks(rng, 5000))
    held = {cid(it) for it in blocks}
    lost = sorted({it for links in blocks.values() for it in links} - held)
    file = header() + b"".join(map(section, blocks))
    for source in (file, io.BytesIO(file), mapped(file)):
        found = check_car(source)
        assert found.verdicts == {"ok list": len(blocks)} and found.roots == []
        assert [bytes(it) for it in found.missing] == lost
        assert {bytes(it) for it in found.held} == held and not found.is_well
    got = [(bytes(it.cid), it.block) for it in read_car(io.BytesIO(file))]
    assert got == [(cid(it), it) for it in blocks]


def mapped(file):
    with tempfile.TemporaryFile() as kept:
        kept.write(file)
        kept.flush()
        return mmap.mmap(kept.fileno(), 0, access=mmap.ACCESS_READ)


def test_a_mapped_file_can_be_closed():
    given = mapped(PLAIN)
    reader = read_car(given)
    given.close()
    with pytest.raises(ValueError):
        list(reader)


def test_section():
    (one, other) = sections = list(read_car(PLAIN))
    assert all(isinstance(it, Section) for it in sections)
    named, block, verdict = one
    assert (named, block, verdict) == (name(ROOT), ROOT, "ok map")
    assert (one.cid, one.block, one.verdict) == one
    assert pickle.loads(pickle.dumps(other)) == other and "verdict='ok list'" in repr(other)
    with pytest.raises(AttributeError):
        one.cid = 1
    with pytest.raises(TypeError):
        type(read_car(PLAIN))()


def test_check_travels():
    found = check_car(PLAIN)
    other = pickle.loads(pickle.dumps(found))
    assert (other.roots, other.missing, other.held) == (found.roots, found.missing, found.held)
    assert repr(other) == repr(found) and not other.is_well
    with pytest.raises(CarError) as caught:
        check_car(PLAIN + b"\0")
    error = pickle.loads(pickle.dumps(caught.value))
    assert (error.kind, error.place) == ("InvalidCid", len(PLAIN))
    assert error.checked.verdicts == {"ok map": 1, "ok list": 1} == found.verdicts
    assert isinstance(error, DagCborError) and str(error).startswith("the bytes are no CID, at ")


@pytest.mark.parametrize("bytes_, kind, said", [
    (counted(b""), "NoBlock", "the header is no block: the bytes end too early"),
    (counted(b"\x18\x17"), "NoBlock", None), (counted(NUMBERS), "OtherHeader", None),
    (header()[:-1] + b"\x02", "OtherHeader", None), (b"\x80\0", "InvalidLength", None),
    (b"", "Truncated", "the file is cut short"),
])
def test_no_header(bytes_, kind, said):
    for call in (read_car, check_car):
        with pytest.raises(CarError) as caught:
            call(bytes_)
        error = caught.value
        assert (error.kind, error.place, error.checked) == (kind, 0, None)
        assert said is None or str(error) == f"{said}, at 0"


def test_names_within_names():
    """Names by the identity hash, as deep as they go."""
    inner = b"\x81" + b"\xd8\x2a\x58\x25\0" + cid(b"\x61a")
    file = header(cid(inner, code=0)) + section(NUMBERS)
    assert [bytes(it) for it in check_car(file).missing] == [cid(b"\x61a")]
    short = b"\x05"
    for _ in range(7):
        short = b"\xd8\x2a\x58" + bytes([len(cid(short, code=0)) + 1, 0]) + cid(short, code=0)
    assert check_car(header(cid(short, code=0))).missing == []
    no_block = cid(b"\x18\x17", code=0)  # names what is no DAG-CBOR, and is there nevertheless
    assert check_car(header(no_block, cid(inner, codec=0x55, code=0))).missing == []


def test_names_are_told_apart():
    """As many as the table of names has before it grows, where most meet others. By a part of their
    hash alone, and not their bytes, some nine of these would be another's."""
    count = 3 * 2**17 - 216
    names = [b"\x01\x55\x12\x20" + number.to_bytes(32, "big") for number in range(count)]
    links = b"".join(b"\xd8\x2a\x58\x25\0" + it for it in names)
    found = check_car(header() + section(b"\x9a" + count.to_bytes(4, "big") + links))
    assert [bytes(it) for it in found.missing] == names


def test_what_is_no_source():
    for call in (read_car, check_car):
        for given in (1, None, "text", [PLAIN], memoryview(PLAIN)[::2]):
            with pytest.raises((TypeError, BufferError)):
                call(given)
        with pytest.raises(TypeError):
            call(io.StringIO("text"))
        with pytest.raises(BlockingIOError):
            call(Large([None]))
        with pytest.raises(TypeError):
            call()


def test_a_file_that_fails():
    class Failing(Large):
        def read(self, count):
            piece = super().read(count)
            if piece == b"fail":
                raise OSError("it failed")
            return piece

    # Between two pieces it fails, and then goes on.
    reader = read_car(Failing([PLAIN[:70], b"fail", PLAIN[70:]]))
    with pytest.raises(OSError, match="it failed"):
        next(reader)
    assert [it.verdict for it in reader] == ["ok map", "ok list"] and list(reader) == []
    with pytest.raises(OSError):
        check_car(Failing([PLAIN[:70], b"fail", PLAIN[70:]]))


@pytest.mark.parametrize("file", [PLAIN, PLAIN[:-1], header()])
def test_a_file_that_raises_stop_iteration(file):
    """That is not the end of its sections."""
    class Ended(Large):
        def read(self, count):
            return next(self.pieces)

    def failing(block):
        raise StopIteration

    for reader in (read_car(Ended([file])), read_car(Ended([file[:9], file[9:]])), read_car(PLAIN, sha256=failing)):
        with pytest.raises(RuntimeError, match="StopIteration"):
            list(reader)


@pytest.mark.parametrize("size", [len(PLAIN), len(PLAIN) - 1])
def test_nothing_behind_is_read(size):
    """In version 2, after the file of version 1, which here may end inside a section."""
    class Ending(Large):
        def read(self, count):
            piece = super().read(count)
            assert piece, "it was read on"
            return piece

    file = second(PLAIN, size=size)
    for cut in (20, 51, 70, len(file) - 1):
        pieces = [file[:cut], file[cut : 51 + size]]
        if size == len(PLAIN):
            found = check_car(Ending(pieces))
            assert found.verdicts == {"ok map": 1, "ok list": 1}
            assert len(list(read_car(Ending(pieces)))) == 2
        else:
            for call in (check_car, lambda it: list(read_car(it))):
                with pytest.raises(CarError) as caught:
                    call(Ending(pieces))
                assert caught.value.kind == "Truncated"


def test_a_file_that_asks_back():
    class Asking(Large):
        def read(self, count):
            if hasattr(self, "reader"):
                with pytest.raises(ValueError, match="already at work"):
                    next(self.reader)
            return super().read(count)

    file = Asking([PLAIN[:70], PLAIN[70:150], PLAIN[150:]])
    file.reader = read_car(file)
    assert [it.verdict for it in file.reader] == ["ok map", "ok list"]
    with pytest.raises(StopIteration):
        next(file.reader)


class TestWrite:
    def written(self, *args):
        file = io.BytesIO()
        write_car(file, *args)
        return file.getvalue()

    def test_bytes(self):
        assert self.written([], {}) == header()
        blocks = {name(ROOT): ROOT, name(NUMBERS): bytearray(NUMBERS)}
        assert self.written([name(ROOT)], blocks) == PLAIN
        assert self.written((it for it in [name(ROOT)]), list(blocks.items())) == PLAIN
        reader = read_car(PLAIN)
        assert self.written(reader.roots, ((cid, block) for cid, block, _ in reader)) == PLAIN

    def test_other_codecs(self):
        rows = [(CID(cid(b"foo", codec=0x55)), b"foo"), (CID(cid(b"foo")[2:]), b"foo"),
                (CID(cid(b"foo", code=0x13)), b"any"), (CID(cid(UNORDERED)), UNORDERED)]
        assert self.written([], rows) == header() + b"".join(
            section(block, bytes(named)) for named, block in rows)

    @pytest.mark.parametrize("block", [b"", b"\x05", NUMBERS[:-1], NUMBERS + b"\0"])
    def test_other_bytes(self, block):
        file = io.BytesIO()
        with pytest.raises(DagCborError) as caught:
            write_car(file, [], [(name(ROOT), ROOT), (name(NUMBERS), block)])
        assert caught.value.kind == "OtherBytes" and file.getvalue() == header() + section(ROOT)

    def test_no_arguments(self):
        for given in ([bytes(name(ROOT))], ["text"], [None]):
            with pytest.raises((TypeError, DagCborError)):
                self.written(given, {})
        for pair in ((bytes(name(ROOT)), ROOT), (name(ROOT), "text"), (name(ROOT),)):
            with pytest.raises((TypeError, ValueError)):
                self.written([], [pair])

    def test_files(self):
        class Raw(io.RawIOBase):
            kept = b""

            def write(self, piece):
                self.kept += bytes(piece[:7])
                return len(piece[:7])

        class Full(io.RawIOBase):
            def write(self, piece):
                return None

        raw, blocks = Raw(), {name(ROOT): ROOT, name(NUMBERS): NUMBERS}
        write_car(raw, [name(ROOT)], blocks)
        assert raw.kept == PLAIN
        with pytest.raises(BlockingIOError):
            write_car(Full(), [], {})

    def test_both_ways(self):
        blocks = {name(it): it for it in (ROOT, NUMBERS, LEAF, BIG, SMALL, b"\xf6", bytes(9) * 999)}
        file = self.written(list(blocks)[:3], blocks)
        reader = read_car(io.BytesIO(file))
        assert reader.roots == list(blocks)[:3]
        assert {it.cid: it.block for it in reader} == blocks


@pytest.mark.skipif("asan" in os.environ.get("LD_PRELOAD", ""), reason="memory let go is kept there")
def test_memory():
    """Sections of 1 MB in turn, and announced lengths: no more is taken than a section needs."""
    script = """
from dagcbor import CarError, check_car, name, read_car

def peak():
    # What getrusage says counts the most of the parent too.
    with open("/proc/self/status") as file:
        return next(int(it.split()[1]) * 1024 for it in file if it.startswith("VmHWM:"))

body = b"\\x90" + (b"\\x59\\xff\\xff" + bytes(0xffff)) * 16
HEADER = b"\\x11\\xa2\\x65roots\\x80\\x67version\\x01"

def varint(n):
    return bytes([n & 127 | 128]) + varint(n >> 7) if n > 127 else bytes([n])

class File:
    def __init__(self, count):
        section = varint(36 + len(body)) + bytes(name(body)) + body
        self.pieces = iter([HEADER] + [section] * count)
    def read(self, count):
        return next(self.pieces, b"")

list(zip(range(3), read_car(File(3)))), check_car(File(3))
before = peak()
assert sum(it.verdict == "ok list" for it in read_car(File(30))) == 30
assert check_car(File(30)).verdicts == {"ok list": 30}
for length in (1 << 40, 1 << 62, (1 << 64) - 1):
    for call in (lambda it: list(read_car(it)), check_car):
        for file in (HEADER, b""):
            class Short(File):
                def __init__(self):
                    self.pieces = iter([file, varint(length), b"x" * 99999])
            try:
                call(Short())
            except CarError as error:
                assert error.kind == "Truncated" and error.place == len(file)
            else:
                raise AssertionError
more = peak() - before
assert more < 10e6, more
"""
    subprocess.run([sys.executable, "-c", script], check=True)


def test_lock_is_let_go():
    """While a block of 64 MB is hashed another thread is not held up for half as long."""
    block = b"\x5a\x04\0\0\0" + bytes(1 << 26)
    file = header() + section(block)
    calls = [lambda: check_car(file), lambda: list(read_car(file)), lambda: name(block),
             lambda: write_car(io.BytesIO(), [], [(CID(cid(block)), block)])]
    for call in calls:
        assert any(is_beside(call) for _ in range(5))


def is_beside(call):
    took, gap = [], 0
    def work():
        began = time.monotonic()
        call()
        took.append(time.monotonic() - began)
    thread = threading.Thread(target=work)
    thread.start()
    before = time.monotonic()
    while thread.is_alive():
        now = time.monotonic()
        gap, before = max(gap, now - before), now
    thread.join()
    return gap < took[0] / 2


def test_threads():
    """Each goes through a file of its own, and some through one together."""
    file = header() + section(BIG) * 20 + section(ROOT) * 20
    answers, shared, seen = [], read_car(io.BytesIO(file)), []

    def own():
        answers.append([it.verdict for it in read_car(io.BytesIO(file))])

    def ours():
        while True:
            try:
                seen.append(next(shared).verdict)
            except ValueError:  # another is at work
                pass
            except StopIteration:
                return

    threads = [threading.Thread(target=it) for it in (own, ours) * 4]
    for it in threads:
        it.start()
    for it in threads:
        it.join()
    right = ["ok bytes"] * 20 + ["ok map"] * 20
    assert answers == [right] * 4 and sorted(seen) == sorted(right)


def test_cycles_are_let_go():
    import gc
    import weakref

    class Kept(Large):
        pass

    file = Kept([PLAIN])
    file.reader = read_car(file)
    gone = weakref.ref(file)
    del file
    gc.collect()
    assert gone() is None

