"""Stores, by the program `dagstore`: what is put is there, in this process and the next, and what is refused is told by its name.
The names that are expected are made here, by hashlib and base64 alone."""

import base64
import enum
import hashlib
import io
import os
import signal
import sqlite3
import subprocess
import sys
import threading
import time

import pytest
from dagcbor import CID, DamagedBlock, InvalidBlock, InvalidCar, Store, StoreEnded, StoreError, StoreLocked, StoreUnreadable
from dagcbor._store import refusal_of

HERE = os.path.dirname(os.path.abspath(__file__))
PROGRAM = os.environ.get("DAGSTORE") or os.path.join(HERE, "../../../crates/dagstore/out/dagstore")
pytestmark = pytest.mark.skipif(not os.path.exists(PROGRAM), reason="the program `dagstore` is not built: `rt run` in crates/dagstore, or name it by DAGSTORE")

# A block, its codec, and the code of that (multicodec table).
TABLE = [
    (b"\xf6", "dag-cbor", 0x71),
    (b"\xa1\x61a\x01", "dag-cbor", 0x71),
    (b"", "raw", 0x55),
    (b"hello\n", "raw", 0x55),
    (bytes(range(256)) * 4000, "raw", 0x55),
    (b"\x0a\x02\x08\x01", 0x70, 0x70),
    (b"{}", 0x0129, 0x0129),
]
REFUSED = [(b"\xff", "dag-cbor"), (b"\x18\x17", "dag-cbor"), (b"", "dag-cbor"), (b"\xf6\xf6", 0x71), (b"\xff", 0x70)]


def varint(number):
    out = b""
    while number >= 128:
        out += bytes([number % 128 + 128])
        number //= 128
    return out + bytes([number])


def form_of(block, code):
    return b"\x01" + varint(code) + b"\x12\x20" + hashlib.sha256(block).digest()


def name_of(block, code):
    return CID("b" + base64.b32encode(form_of(block, code)).decode().lower().rstrip("="))


def car_of(blocks, roots=()):
    """A CAR file of the codec raw, whose header has less than 24 roots."""
    links = b"".join(b"\xd8\x2a\x58\x25\x00" + form_of(it, 0x55) for it in roots)
    header = b"\xa2\x65roots" + bytes([0x80 + len(roots)]) + links + b"\x67version\x01"
    parts = [form_of(it, 0x55) + it for it in blocks]
    return b"".join(varint(len(it)) + it for it in [header, *parts])


@pytest.fixture
def path(tmp_path):
    return str(tmp_path / "blocks.db")


@pytest.fixture
def store(path):
    with Store(path, PROGRAM) as it:
        yield it


@pytest.mark.parametrize("block,codec,code", TABLE, ids=range(len(TABLE)))
def test_put(store, path, block, codec, code):
    cid = name_of(block, code)
    assert cid not in store
    assert store.put(block, codec) == cid
    assert cid in store and store.get(cid) == block == store[cid] and len(store) == 1 and list(store) == [cid]
    store.close()
    with Store(path, PROGRAM) as again:
        assert again.get(cid) == block and again.put(memoryview(block), codec) == cid and len(again) == 1


@pytest.mark.parametrize("block,codec", REFUSED, ids=range(len(REFUSED)))
def test_refused(store, block, codec):
    with pytest.raises(InvalidBlock, match="the block is no DAG-"):
        store.put(block, codec)
    assert len(store) == 0


def test_a_codec_of_a_subclass(store):
    codec = enum.Enum("Codec", {"RAW": "raw"}, type=str).RAW
    assert store.put(b"a", codec) == name_of(b"a", 0x55) and len(store) == 1


def test_bytes_that_lie_about_their_length(store):
    short = type("Short", (bytes,), {"__len__": lambda self: 1})
    cid = store.put(short(b"ab"), "raw")
    assert cid == name_of(b"ab", 0x55) and store.get(cid) == b"ab"


def test_names_in_the_order_of_bytes(store):
    blocks = [b"%d" % n for n in range(300)]
    with store.batch():
        names = {store.put(it, "raw") for it in blocks}
    assert [bytes(it) for it in store] == sorted(form_of(it, 0x55) for it in blocks)
    assert set(store) == names and len(store) == 300
    for each in list(store)[::2]:
        del store[each]
    assert len(store) == 150


def test_none(store):
    other = name_of(b"other", 0x55)
    for call in (store.get, store.remove, store.remove_root, store.__delitem__):
        with pytest.raises(KeyError):
            call(other)
    assert store.get(other, None) is None and store.get(other, b"") == b""
    with pytest.raises(TypeError):
        store.get(str(other))
    with pytest.raises(TypeError):
        "x" in store
    with pytest.raises(TypeError):
        store.put("text")
    for codec in ("cbor", -1, 2**64):
        with pytest.raises(ValueError):
            store.put(b"", codec)
    assert len(store) == 0


def test_roots(store, path):
    names = [name_of(it, 0x55) for it in (b"c", b"a", b"b")]
    for it in names:
        store.add_root(it)
    store.add_root(names[0])
    assert store.roots == names
    store.remove_root(names[1])
    store.close()
    with Store(path, PROGRAM) as again:
        assert again.roots == [names[0], names[2]] and len(again) == 0


def test_batch(store, path):
    a, b, c = (name_of(it, 0x55) for it in (b"a", b"b", b"c"))
    store.put(b"c", "raw")
    with store.batch() as batch:
        assert batch is store and store.put(b"a", "raw") == a and a in store
        store.remove(c)
        store.add_root(a)
    assert a in store and c not in store and store.roots == [a]
    with pytest.raises(ZeroDivisionError):
        with store.batch():
            store.put(b"b", "raw")
            store.remove(a)
            1 / 0
    assert a in store and b not in store
    with store.batch():
        store.put(b"b", "raw")
        with pytest.raises(InvalidBlock):  # nothing is undone by it
            store.put(b"\xff")
        with pytest.raises(RuntimeError):
            with store.batch():
                pass
        with pytest.raises(RuntimeError):
            store.import_car(car_of([b"x"]))
    assert b in store


def test_a_store_that_is_closed_in_a_batch(store, path):
    with pytest.raises(StoreEnded):
        with store.batch():
            store.put(b"z", "raw")
            store.close()
    with Store(path, PROGRAM) as again:
        assert len(again) == 0


def test_a_batch_that_fails_is_told_at_its_end(path):
    store = Store(path, PROGRAM)
    with pytest.raises(StoreEnded):
        with store.batch():
            store.put(b"a", "raw")
            store._process.kill()
            with pytest.raises(StoreEnded):
                store.put(b"b", "raw")
    with Store(path, PROGRAM) as again:
        assert len(again) == 0


def test_import_and_export(store, path, tmp_path):
    blocks, roots = [b"a", b"b" * 1000, b"c"], [b"c", b"elsewhere"]
    made = car_of(blocks, roots)
    (tmp_path / "made.car").write_bytes(made)
    for source in (str(tmp_path / "made.car"), tmp_path / "made.car", made, bytearray(made), io.BytesIO(made)):
        found = store.import_car(source)
        assert found == ([name_of(it, 0x55) for it in roots], 3) == (found.roots, found.sections)
    assert len(store) == 3 and store.roots == [name_of(it, 0x55) for it in roots]
    out = tmp_path / "out.car"
    store.export_car(out)
    assert out.read_bytes() == car_of(sorted(blocks, key=lambda it: form_of(it, 0x55)), roots)
    with pytest.raises(FileExistsError):
        store.export_car(out)
    with pytest.raises(FileNotFoundError):
        store.import_car(str(tmp_path / "none.car"))
    with pytest.raises(StoreError, match="cannot be made"):
        store.export_car(tmp_path / "none" / "out.car")
    with pytest.raises(ValueError):
        store.export_car(str(tmp_path / "a\nb"))
    for wrong in (b"", b"no file", made[:-1], made[:-1] + b"d"):
        with pytest.raises((InvalidCar, InvalidBlock)):
            store.import_car(wrong)
    assert len(store) == 3


def test_a_source_that_has_no_bytes_yet(store):
    """It is not at its end, so nothing of it is kept."""
    class Waiting:
        pieces = iter([car_of([b"a"], [b"a"]), None, car_of([b"b"])])

        def read(self, most):
            return next(self.pieces, b"")

    with pytest.raises(BlockingIOError):
        store.import_car(Waiting())
    with pytest.raises(TypeError):
        store.import_car(io.StringIO("text"))
    assert len(store) == 0 and store.roots == []


def test_another_has_it(store, path):
    store.put(b"a", "raw")
    with pytest.raises(StoreLocked, match="another process has the file open"):
        Store(path, PROGRAM)
    said = subprocess.run([PROGRAM, path, "count"], capture_output=True).stderr
    assert said == b"dagstore: another process has the file open\n"
    store.close()
    store.close()
    with pytest.raises(StoreEnded, match="closed"):
        store.put(b"b", "raw")
    assert subprocess.run([PROGRAM, path, "count"], capture_output=True).stdout == b"holds 1\n"


def test_a_program_that_died(path):
    store = Store(path, PROGRAM)
    a = store.put(b"a", "raw")
    store._process.kill()
    with pytest.raises(StoreEnded):
        store.get(a)
    with pytest.raises(StoreEnded):
        store.get(a)
    with Store(path, PROGRAM) as again:
        assert again.get(a) == b"a"


def test_unreadable(path, tmp_path):
    (tmp_path / "text").write_text("no store of blocks, but a text" * 100)
    with pytest.raises(StoreUnreadable):
        Store(tmp_path / "text", PROGRAM)
    with pytest.raises(StoreUnreadable):
        Store(tmp_path / "none" / "blocks.db", PROGRAM)
    with pytest.raises(FileNotFoundError):
        Store(path, str(tmp_path / "no program"))


def test_wrong_row(store, path):
    store.put(b"a", "raw")
    store.close()
    base = sqlite3.connect(path)
    base.execute("INSERT INTO block (rowid, cid, bytes) VALUES (7, x'00', x'00')")
    base.commit()
    base.close()
    with Store(path, PROGRAM) as again:
        for told in (len, list, lambda store: next(iter(store))):
            with pytest.raises(StoreUnreadable, match="a wrong entry at row 7"):
                told(again)


def test_damage(store, path):
    a = store.put(b"to be damaged", "raw")
    store.close()
    base = sqlite3.connect(path)
    base.execute("UPDATE block SET bytes = ?", (b"TO BE DAMAGED",))
    base.commit()
    base.close()
    with Store(path, PROGRAM) as store:
        with pytest.raises(DamagedBlock) as caught:
            store.get(a)
        assert caught.value.cid == a and a in store
        store.put(b"to be damaged", "raw")
        assert store.get(a) == b"to be damaged"


def test_threads(store):
    def work(n):
        for k in range(50):
            block = b"%d %d" % (n, k)
            if k % 10:
                assert store.get(store.put(block, "raw")) == block
            else:
                with store.batch():
                    store.put(block, "raw")
                    store.add_root(name_of(block, 0x55))

    threads = [threading.Thread(target=work, args=(n,)) for n in range(8)]
    for it in threads:
        it.start()
    for it in threads:
        it.join()
    assert len(store) == 400 and len(store.roots) == 40


def test_a_signal_handler_that_asks(store):
    """Between a request and its answer it takes no answer, and puts nothing into a block."""
    class Interrupted:
        def __init__(self, file):
            self.file = file

        def write(self, piece):
            self.file.write(piece)
            signal.raise_signal(signal.SIGUSR1)

        flush = property(lambda self: self.file.flush)

    def ask(*_):
        with pytest.raises(RuntimeError, match="already at work"):
            store.get(a)
        asked.append(a)

    a, asked, process = store.put(b"a", "raw"), [], store._process
    before, stdin = signal.signal(signal.SIGUSR1, ask), process.stdin
    process.stdin = Interrupted(stdin)
    try:
        assert store.get(store.put(b"b" * 100, "raw")) == b"b" * 100
    finally:
        process.stdin = stdin
        signal.signal(signal.SIGUSR1, before)
    assert len(asked) == 4 and store.get(a) == b"a"


def test_a_fork_is_refused(store):
    store.put(b"a", "raw")
    child = os.fork()
    if not child:
        try:
            store.put(b"b", "raw")
        except StoreEnded:
            os._exit(0)
        os._exit(1)
    assert os.waitpid(child, 0)[1] == 0
    assert len(store) == 1


def test_a_fork_that_goes_on(path):
    """It does not keep the program from its end."""
    store = Store(path, PROGRAM)
    store.put(b"a", "raw")
    child = os.fork()
    if not child:
        time.sleep(60)
        os._exit(0)
    closing = threading.Thread(target=store.close)
    closing.start()
    closing.join(20)
    is_closed = not closing.is_alive()
    os.kill(child, signal.SIGKILL)
    os.waitpid(child, 0)
    closing.join()
    assert is_closed


def test_a_fork_while_another_thread_has_the_store(store):
    begun, over = threading.Event(), threading.Event()

    def work():
        with store.batch():
            begun.set()
            over.wait()

    thread = threading.Thread(target=work)
    thread.start()
    begun.wait()
    child = os.fork()
    if not child:
        signal.alarm(20)
        try:
            len(store)
        except StoreEnded:
            os._exit(0)
        finally:
            os._exit(1)
    over.set()
    thread.join()
    assert os.waitpid(child, 0)[1] == 0
    assert len(store) == 0


def test_where_the_program_is_found(path, monkeypatch, tmp_path):
    monkeypatch.delenv("DAGSTORE", raising=False)
    monkeypatch.setenv("PATH", str(tmp_path))
    monkeypatch.setattr("dagcbor._store.HERE", str(tmp_path / "package"))
    with pytest.raises(FileNotFoundError, match="DAGSTORE"):
        Store(path)
    monkeypatch.setenv("DAGSTORE", PROGRAM)
    Store(path).close()
    monkeypatch.delenv("DAGSTORE")
    os.symlink(os.path.abspath(PROGRAM), tmp_path / "dagstore")
    Store(path).close()
    os.mkdir(tmp_path / "package")
    os.rename(tmp_path / "dagstore", tmp_path / "package" / "dagstore")
    Store(path).close()


def test_what_is_said():
    a = name_of(b"a", 0x55)
    for text, kind in (
        ("dagstore: database or disk is full\n", "StoreFull"),
        ("dagstore: disk I/O error\n", "StoreDiskError"),
        ("dagstore: database disk image is malformed\n", "StoreDiskError"),
        ("dagstore: out of memory\n", "StoreMemoryError"),
        ("dagstore: no number is left for a row\n", "StoreError"),
        (f"dagstore: after 2 sections\ndagstore: of {a}\ndagstore: the block has other bytes than its name says\n", "InvalidCar"),
        ("dagstore: the input failed\n", "StoreError"),
        ("dagstore: after 2 sections\ndagstore: the input failed\n", "StoreError"),
        ("dagstore: after 2 sections\ndagstore: the input is not a CAR file: Truncated\n", "InvalidCar"),
        (f"dagstore: {a} other bytes\ndagstore: what is stored under the name has other bytes than it says\n", "DamagedBlock"),
    ):
        assert type(refusal_of(text)).__name__ == kind


def test_the_end_of_python(path):
    """What was answered is there, though nobody closed the store."""
    code = f"from dagcbor import Store\nstore = Store({path!r}, {PROGRAM!r})\nstore.put(b'a', 'raw')\nimport os\nos._exit(0)"
    subprocess.run([sys.executable, "-c", code], check=True, env={**os.environ, "PYTHONPATH": os.pathsep.join(sys.path)})
    for _ in range(100):
        try:
            with Store(path, PROGRAM) as again:
                assert len(again) == 1
            break
        except StoreLocked:
            pass
