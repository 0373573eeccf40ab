"""Objects that change or lie while they are read, and memory that is not there."""

import enum
import gc
import io
import os
import subprocess
import sys
import threading
import time
import tracemalloc

import pytest
from dagcbor import CID, DagCborError, check, dumps, iter_loads, links, loads, name, write_car

RECORD = {"name": "Grace Hopper", "year_of_birth": 1906, "profession": "computer scientist"}


class OddInt(int):
    def __invert__(self):
        return 7

    __index__ = __int__ = __neg__ = __abs__ = __invert__

    def __eq__(self, other):
        raise RuntimeError

    __lt__ = __gt__ = __bool__ = __hash__ = __eq__


class OddStr(str):
    def encode(self, *args):
        raise RuntimeError

    def __eq__(self, other):
        return False

    def __hash__(self):
        return id(self)

    __len__ = __iter__ = __str__ = encode


class OddDict(dict):
    def items(self):
        raise RuntimeError

    __iter__ = keys = values = __len__ = __getitem__ = items


class OddList(list):
    def __iter__(self):
        raise RuntimeError

    __len__ = __getitem__ = __iter__


class OddBytes(bytes):
    def __len__(self):
        return 10**9

    __bytes__ = __iter__ = __len__


class Colour(str, enum.Enum):
    RED = "red"


def test_subclasses_are_their_data():
    integers = [5, -6, 2**64 - 1, -(2**64)]
    assert dumps([OddInt(it) for it in integers]) == dumps(integers)
    assert dumps(OddStr("é")) == dumps("é") and dumps(Colour.RED) == dumps("red")
    assert dumps(OddDict(a=1)) == dumps({"a": 1}) and dumps(OddList([1, 2])) == dumps([1, 2])
    assert dumps(OddBytes(b"ab")) == dumps(b"ab") and loads(OddBytes(b"\xf6")) is None
    assert list(iter_loads(OddBytes(b"\xf6\xf5"))) == [None, True]
    odd, plain = io.BytesIO(), io.BytesIO()
    for file, kind in ((odd, OddBytes), (plain, bytes)):
        write_car(file, [], [(name(b"\x01"), kind(b"\x01"))])
    assert odd.getvalue() == plain.getvalue()


def test_one_key_twice():
    twice = {OddStr("a"): 1, OddStr("a"): 2}
    assert len(twice) == 2
    for value, place in ((twice, ()), ([1, {"b": twice}], (1, "b"))):
        with pytest.raises(DagCborError) as caught:
            dumps(value)
        assert (caught.value.kind, caught.value.place) == ("UnorderedKey", place)


def test_recursive():
    loop = []
    loop.append(loop)
    around = {}
    around["a"] = [around]
    for value in (loop, around, [1, loop]):
        with pytest.raises(DagCborError) as caught:
            dumps(value)
        assert caught.value.kind == "DepthOverflow" and len(caught.value.place) == 127


def test_bytearray_is_free_again():
    block = bytearray(b"\x81\x00")
    for call in (loads, check, links, name, dumps):
        call(block)
        block.append(0)
        del block[-1]
    with pytest.raises(DagCborError):
        loads(memoryview(block)[:1])
    block.append(0)
    with pytest.raises(ValueError):
        view = memoryview(b"\xf6")
        view.release()
        loads(view)


def test_memory_that_others_write():
    import mmap

    with mmap.mmap(-1, 4096) as shared:
        shared[:] = b"\x59\x0f\xfd" + bytes(4093)
        assert loads(shared) == bytes(4093)


def test_threads():
    """Writers change all that they may; each answer is one, or an error of a name."""
    block, lists, dicts = bytearray(dumps([RECORD] * 20)), [RECORD] * 20, dict(RECORD)
    stop = threading.Event()

    def write():
        while not stop.is_set():
            block[5] ^= 1
            lists.append(1)
            lists.pop()
            dicts["other"] = [1]
            del dicts["other"]

    writers = [threading.Thread(target=write) for _ in range(3)]
    before, end = sys.getswitchinterval(), time.monotonic() + 1
    sys.setswitchinterval(1e-6)
    try:
        for it in writers:
            it.start()
        while time.monotonic() < end:
            for call, given in (loads, block), (check, block), (dumps, lists), (dumps, dicts):
                try:
                    call(given)
                except (DagCborError, RuntimeError):
                    pass
    finally:
        stop.set()
        sys.setswitchinterval(before)
        for it in writers:
            it.join()


def test_a_list_that_a_finalizer_empties():
    class Emptying:
        def __del__(self):
            values.clear()

    for _ in range(20):
        values = [[{str(i): i} for i in range(50)] for _ in range(20)]
        ring = [Emptying()]
        ring.append(ring)
        del ring
        threshold = gc.get_threshold()
        gc.set_threshold(1)
        try:
            loads(dumps(values))
        except RuntimeError:
            pass
        finally:
            gc.set_threshold(*threshold)


def test_a_map_that_a_finalizer_empties():
    class Key:
        pass

    class Emptying:
        def __del__(self):
            values.clear()

    # The collector runs while the error is made, which names the key and the place of its map.
    kinds = set()
    for levels in range(0, 120, 10):
        nested = values = {Key(): 1}
        for _ in range(levels):
            nested = [nested]
        threshold = gc.get_threshold()
        gc.collect()
        gc.disable()
        ring = [Emptying()]
        ring.append(ring)
        del ring
        gc.set_threshold(1, 1, 1)
        try:
            gc.enable()
            dumps(nested)
        except DagCborError as error:
            kinds.add(error.kind)
        finally:
            gc.set_threshold(*threshold)
    assert kinds == {"Mismatch"}


def test_nothing_is_kept():
    cid = name(b"")
    key = "a key of its own" + str(os.getpid())
    value = {"a": [cid, 2**64 - 1, -(2**64), "é", b"x", bytearray(b"y"), None, True], key: RECORD}
    value["many"] = {str(i): "x" * i for i in range(200)}  # of which none fits the first rooms
    bad, many = [value, {"a": 1.5}], dumps([cid] * 100)
    twice = {OddStr("a"): b"x" * 100, OddStr("a"): 2}

    def round_trip():
        block = dumps(value)
        loads(block), loads(bytearray(block)), links(many), check(block), name(block)
        CID(str(cid)), CID(bytes(cid))
        refused = [(dumps, bad), (dumps, twice), (loads, block[:-1]), (loads, block + b"\0")]
        refused += [(CID, b"z"), (links, b"\xff"), (check, b"")]
        for call, given in refused:
            with pytest.raises(DagCborError):
                call(given)

    tracemalloc.start()
    for _ in range(3):
        round_trip()
    held = [cid, key, value, None, CID, RECORD]
    counts = [sys.getrefcount(it) for it in held]
    bytes_held, _ = tracemalloc.get_traced_memory()
    for _ in range(100):
        round_trip()
    more = tracemalloc.get_traced_memory()[0] - bytes_held
    tracemalloc.stop()
    assert more < 3_000
    after = [sys.getrefcount(it) for it in held]
    assert all(abs(a - b) < 50 for a, b in zip(after, counts))


def test_room_of_each_size():
    for count in range(220):
        # Each byte of this block is a token.
        value = [[0] * 9 for _ in range(count // 10)] + [0] * (count % 10)
        value = [value[:22], value[22:]]
        assert loads(dumps(value)) == value
        assert loads(dumps(["x" * count, count])) == ["x" * count, count]
        assert links(dumps([name(b"")] * count)) == [name(b"")] * count


def test_many_and_long():
    values = [[0] * 300_000, ["é" * 100] * 50_000, {str(i): i for i in range(100_000)}]
    for value in [*values, b"x" * 3_000_000, "é" * 2_000_000]:
        assert loads(dumps(value)) == value
    assert len(links(dumps([name(b"")] * 5000))) == 5000


def in_another(*words, **how):
    script = os.path.join(os.path.dirname(os.path.abspath(__file__)), "no_memory.py")
    ran = subprocess.run([sys.executable, *words, script], capture_output=True, text=True, **how)
    if ran.returncode == 77:
        pytest.skip(ran.stdout.strip())
    assert ran.returncode == 0 and "failed" in ran.stdout, ran.stdout + ran.stderr


def test_each_allocation_fails():
    in_another()


def test_each_allocation_fails_in_dev_mode():
    in_another("-X", "dev")
