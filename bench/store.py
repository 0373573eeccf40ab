#!/usr/bin/env python3
"""Measures the calls of a store on disk as it grows, compared with Python's sqlite3 with hashlib, over the same blocks.

    bench/store.py [MB..]          prints a table of seconds, and one of bytes, for stores of these MB (1, 10, 100 and 1,000)
    bench/store.py [MB..] page     puts both into docs/MEASURED.md, and draws the first (bench/curves.py)
    bench/store.py large MB        prints the time of calls on one block over a store of this many MB, made by imports of 1,000 MB
    bench/store.py large MB made   the same over a store whose rows Python's sqlite3 puts into an empty one

A block has 1,000 bytes, and links to the two below it in a tree. Each call of `dagstore` is a process of its own. Python's calls
run in a process that is already running, and open the file anew. The programs are those that `./dagstore` and `./dagcar` built, or
DAGSTORE names the first. Nothing here is a test. BENCH_FOLDER names the folder in which the files are made. MINUTES ends the
imports of `large` early."""

import contextlib
import hashlib
import itertools
import multiprocessing
import os
import sqlite3
import sys
import tempfile
import threading
import time

from measuring import ROOT, Used, curves, least, machine, measure, put, read, used
from car_bytes import cid, counted, head, header, link, spelled

PROGRAM = os.environ.get("DAGSTORE") or f"{ROOT}/crates/dagstore/out/dagstore"
TABLE = "CREATE TABLE block (cid BLOB NOT NULL PRIMARY KEY, bytes BLOB NOT NULL) STRICT"
SIZES = (1, 10, 100, 1000)
# A call on one block is run this often, and the least counts.
RUNS = 9


# ---- blocks


def blocks(count):
    """This many blocks of 1,000 bytes, the last first: lists of links to blocks 2n + 1 and 2n + 2, if these are there, and of
    bytes."""
    names = [b""] * count
    for n in range(count - 1, -1, -1):
        links = [link(names[m]) for m in (2 * n + 1, 2 * n + 2) if m < count]
        front = head(4, 1 + len(links)) + b"".join(links)
        block = front + spelled(2, n.to_bytes(8, "big") + bytes(1000 - len(front) - 3 - 8))
        names[n] = cid(block)
        yield n, names[n], block


def apart(call, *given):
    """Calls it in a process of its own, so that this one stays small: the greatest memory of a child is never less than what this
    process has when it starts the child."""
    process = multiprocessing.Process(target=call, args=given)
    process.start()
    process.join()
    assert process.exitcode == 0, process.exitcode


def write_blocks(path, count):
    """Makes a file of these blocks, whose root is the first, and beside it the name of the second."""
    with open(path, "wb") as file:
        file.write(bytes(len(counted(header(cid(b""))))))
        for n, name, block in blocks(count):
            file.write(counted(name + block))
            if n == 1:
                put(f"{path}.name", name)
        file.seek(0)
        file.write(counted(header(name)))


def length(file):
    """Returns the length that stands there in the file, or None at its end."""
    n = shift = 0
    while byte := file.read(1):
        n |= (byte[0] & 127) << shift
        shift += 7
        if byte[0] < 128:
            return n
    return None


# ---- Python's sqlite3


@contextlib.contextmanager
def opened(path):
    base = sqlite3.connect(path, isolation_level=None)
    base.execute("PRAGMA journal_mode = WAL")
    base.execute("PRAGMA synchronous = FULL")
    yield base
    base.close()


def tested(name, block):
    assert hashlib.sha256(block).digest() == name[4:]
    return block


def peer_import(path, cars):
    """Tests each block's digest. All blocks are one transaction."""
    with opened(path) as base, open(cars, "rb") as file:
        base.execute(TABLE)
        base.execute("BEGIN")
        file.read(length(file))
        while (n := length(file)) is not None:
            section = file.read(n)
            base.execute("INSERT OR IGNORE INTO block VALUES (?, ?)", (section[:36], tested(section[:36], section[36:])))
        base.execute("COMMIT")


def peer_export(path):
    """Tests each block's digest, in the order of names."""
    with opened(path) as base, open(os.devnull, "wb") as file:
        for name, block in base.execute("SELECT cid, bytes FROM block ORDER BY cid"):
            file.write(counted(name + tested(name, block)))


def peer_get(path, name):
    with opened(path) as base:
        return tested(name, *base.execute("SELECT bytes FROM block WHERE cid = ?", (name,)).fetchone())


def peer_put(path):
    with opened(path) as base:
        block = os.urandom(1000)
        base.execute("INSERT INTO block VALUES (?, ?)", (cid(block, 0x55), block))


def peer_gc(path, root):
    """Keeps the blocks that links lead to from the root; tests each block that it reads."""
    with opened(path) as base:
        kept, wanted = set(), [root]
        while wanted:
            name = wanted.pop()
            if name in kept:
                continue
            kept.add(name)
            block = tested(name, *base.execute("SELECT bytes FROM block WHERE cid = ?", (name,)).fetchone())
            wanted += [block[1 + 41 * i + 5 : 1 + 41 * (i + 1)] for i in range(block[0] - 0x81)]
        base.execute("BEGIN")
        gone = [(name,) for name, in base.execute("SELECT cid FROM block") if name not in kept]
        base.executemany("DELETE FROM block WHERE cid = ?", gone)
        base.execute("COMMIT")


# ---- what a call takes


@contextlib.contextmanager
def watched(base):
    """Watches the log beside the file meanwhile; what is handed out has the most MB of it."""
    most, done = [0], threading.Event()

    def look():
        while not done.wait(0.02):
            with contextlib.suppress(OSError):
                most[0] = max(most[0], os.path.getsize(f"{base}-wal") / 1e6)

    watch = threading.Thread(target=look)
    watch.start()
    try:
        yield most
    finally:
        done.set()
        watch.join()


def ours(base, *words, given=os.devnull):
    """A run of the program over the file."""
    return used([PROGRAM, base, *words], given)


def theirs(call, *given):
    """A run of the peer, in a process that is forked from this one."""
    took = multiprocessing.Array("d", 2)

    def run():
        clock, before = time.monotonic(), time.process_time()
        call(*given)
        took[:] = time.monotonic() - clock, time.process_time() - before

    apart(run)
    return Used(*took, 0, 0, 0)


def traced(base, *words, given=os.devnull):
    """Returns how many KB of its database and log a call reads, and how often it syncs, by what it asks of the system."""
    with tempfile.NamedTemporaryFile("r") as out:
        tracing = ["strace", "-f", "-y", "-e", "trace=read,pread64,preadv,fsync,fdatasync", "-o", out.name]
        used([*tracing, PROGRAM, base, *words], given)
        lines = out.read().splitlines()
    reads = [line for line in lines if "sync(" not in line and ".db" in line.split(",")[0] and ") = " in line]
    return sum(max(0, int(line.rsplit(") = ", 1)[1].split()[0])) for line in reads) / 1000, sum("sync(" in line for line in lines)


def one_block(at):
    """Makes a file with a block that no store has."""
    return put(f"{at}/block", spelled(2, os.urandom(997)))


def timed(base, calls):
    """Returns what each call takes in this many runs, and the most MB of the log beside its file."""
    rows = {}
    for name, (runs, call) in calls.items():
        with watched(base["Python" in name]) as log:
            rows[name] = least(runs, call)[0], log
    return rows


def measured(at, size):
    """Returns what each call takes over a store of this many MB, and the counts of it."""
    cars, a, b = f"{at}/blocks.car", f"{at}/a.db", f"{at}/b.db"
    apart(write_blocks, cars, size * 1000)
    left = read(f"{cars}.name")
    root = "f" + left.hex()
    took = timed((a, b), {
        "`import`": (1, lambda: ours(a, "import", cars)),
        "`import`, Python": (1, lambda: theirs(peer_import, b, cars)),
        "`has`: open, and look up": (RUNS, lambda: ours(a, "has", root)),
        "`get`": (RUNS, lambda: ours(a, "get", root)),
        "`get`, Python": (RUNS, lambda: theirs(peer_get, b, left)),
        "`put`": (RUNS, lambda: ours(a, "put", given=one_block(at))),
        "`put`, Python": (RUNS, lambda: theirs(peer_put, b)),
        "`export`": (1, lambda: ours(a, "export")),
        "`export`, Python": (1, lambda: theirs(peer_export, b)),
        "`check`": (1, lambda: ours(a, "check")),
    })
    words = {"get": [root], "has": [root], "roots": [], "put": [], "add-root": [root]}
    reads = {call: traced(a, call, *given, given=one_block(at)) for call, given in words.items()}
    took |= timed((a, b), {
        "`gc` of half": (1, lambda: ours(a, "gc", root)),
        "`gc` of half, Python": (1, lambda: theirs(peer_gc, b, left)),
        "SHA-256 alone of as many bytes": (1, lambda: hashed(at, size)),
    })
    return {name: f"{it.processor:.4f}" for name, (it, _) in took.items()}, counts_of(took, reads)


def counts_of(took, reads):
    """The counts, and seconds by the clock."""
    both = lambda name, form, of: "; ".join(format(of(*took[it]), form) for it in (name, f"{name}, Python"))
    rows = {f"`{call}`: KB read; syncs": f"{read_there:.0f}; {syncs}" for call, (read_there, syncs) in reads.items()}
    for name in ("`import`", "`gc` of half"):
        rows[f"{name.partition(' ')[0]}: memory, MB"] = f"{took[name][0].memory / 1024:.0f}"
    rows["`import`: log at most, MB; Python's"] = both("`import`", ".0f", lambda _, log: log[0])
    rows["`get`, by the clock, ms; Python's"] = both("`get`", ".1f", lambda it, _: it.clock * 1000)
    rows["`put`, by the clock, ms; Python's"] = both("`put`", ".1f", lambda it, _: it.clock * 1000)
    rows["`import`, by the clock, s; Python's"] = both("`import`", ".1f", lambda it, _: it.clock)
    return rows


def hashed(at, size):
    """SHA-256 alone, of the toolchain: `dagcar name` over one byte string of this many MB."""
    with open(f"{at}/string", "wb") as file:
        file.write(head(2, size * 10**6))
        for _ in range(size):
            file.write(bytes(10**6))
    took = used([f"{ROOT}/crates/dagcar/out/dagcar", "name"], f"{at}/string")
    os.remove(f"{at}/string")
    return took


# ---- a large store


# How many blocks an import has. With more it would need a log of many times their bytes, because most pages of the index go to the
# log each time that its memory is full.
PART = 1_000_000


def write_parts(pipe, count):
    """The blocks, a number of them each time that the pipe is opened, and then the name of the last of them, which whoever opens
    the pipe takes away."""
    made = blocks(count)
    for _ in range(0, count, PART):
        with open(pipe, "wb") as file:
            file.write(counted(header()))
            for _, name, block in itertools.islice(made, PART):
                file.write(counted(name + block))
        put(f"{pipe}.name", name)
        while os.path.exists(f"{pipe}.name"):
            time.sleep(0.1)


def import_parts(at, count):
    """Imports them until MINUTES are over. Prints what each import took, and returns the name of the last block."""
    base, pipe, begun = f"{at}/a.db", f"{at}/parts", time.monotonic()
    os.mkfifo(pipe)
    writer = multiprocessing.Process(target=write_parts, args=(pipe, count))
    writer.start()
    for n in range(PART, count + PART, PART):
        with watched(base) as log:
            took, name = ours(base, "import", pipe), b""
        while not name:
            time.sleep(0.1)
            with contextlib.suppress(FileNotFoundError):
                name = read(f"{pipe}.name")
        os.remove(f"{pipe}.name")
        times = f"{took.processor:.0f} s of the processor, {took.clock:.0f} s"
        size = os.path.getsize(base) // 1_000_000
        print(f"{min(n, count) // 1000:,} MB: {times}, log {log[0]:,.0f} MB, file {size:,} MB", flush=True)
        if time.monotonic() - begun > 60 * float(os.environ.get("MINUTES", "1000")):
            break
    writer.kill()
    writer.join()
    return name


def make_rows(at, count):
    """An empty store, into which Python's sqlite3 puts the blocks. Returns the name of the last. The file is one that `dagstore`
    could have left: it has the same schema, and no log."""
    ours(f"{at}/a.db", "import", put(f"{at}/empty.car", counted(header())))
    apart(put_rows, at, count)
    print(f"{count // 1000:,} MB put by Python's sqlite3: file {os.path.getsize(f'{at}/a.db') // 1_000_000:,} MB", flush=True)
    return read(f"{at}/name")


def put_rows(at, count):
    base = sqlite3.connect(f"{at}/a.db", isolation_level=None)
    for what in ("journal_mode = OFF", "synchronous = OFF", "cache_size = -2000000"):
        base.execute(f"PRAGMA {what}")
    base.execute("BEGIN")
    base.executemany("INSERT INTO block VALUES (?, ?)", ((name, block) for _, name, block in blocks(count)))
    (name,) = base.execute("SELECT cid FROM block ORDER BY rowid DESC LIMIT 1").fetchone()
    base.execute("COMMIT")
    base.execute("PRAGMA journal_mode = WAL")
    base.close()
    os.sync()
    put(f"{at}/name", name)


def measure_calls(at, name):
    """Prints what calls on one block take."""
    base, name = f"{at}/a.db", "f" + name.hex()
    ours(base, "add-root", name)
    another = lambda: ["f" + cid(os.urandom(32)).hex()]
    calls = {"get": lambda: [name], "has": lambda: [name], "put": list, "roots": list, "add-root": another}
    for call, words in calls.items():
        (took,) = least(RUNS, lambda call=call, words=words: ours(base, call, *words(), given=one_block(at)))
        read_there, syncs = traced(base, call, *words(), given=one_block(at))
        times = f"{took.processor * 1000:.1f} ms of the processor, {took.clock * 1000:.1f} ms"
        print(f"{call}: {times}, {read_there:.0f} KB read, {syncs} syncs, {took.memory / 1024:.1f} MB of memory", flush=True)


def folder():
    return tempfile.TemporaryDirectory(dir=os.environ.get("BENCH_FOLDER"))


def stores(section):
    sizes = [int(word) for word in section.words if word.isdigit()] or SIZES
    columns = []
    for size in sizes:
        with folder() as at:
            columns.append(measured(at, size))
        print(f"{size} MB:", *(f"{name} {it}," for name, it in columns[-1][0].items()), flush=True)
    section.tell(f"Measured {machine()}, {section.load}.")
    for first, which in ((curves.STORE, 0), ("Counted", 1)):
        section.head(first, *(f"{size:,} MB" for size in sizes))
        for name in columns[0][which]:
            section.row(name, *(column[which][name] for column in columns))


if sys.argv[1:2] == ["large"]:
    with folder() as large:
        measure_calls(large, (make_rows if "made" in sys.argv else import_parts)(large, int(sys.argv[2]) * 1000))
else:
    measure({"store.py": stores})
