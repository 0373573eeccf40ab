"""The program `dagstore`: killed at random moments, on a full disk, on a file that may not be written, beside another process.

What was said to be stored must be there, and of what was not, all or nothing. What the file holds is read by SQLite
(Python's sqlite3) from a copy, and then by the program itself."""

import base64
import hashlib
import os
import random
import resource
import shutil
import signal
import sqlite3
import subprocess
import tempfile
import threading
import time

import dagpb
import unixfs

NOBODY = 65534
HEADER = b"\xa2\x65roots\x80\x67version\x01"


def varint(n):
    out = b""
    while n >= 128:
        out += bytes([128 + n % 128])
        n //= 128
    return out + bytes([n])


def block_of(draw):
    """A byte string of a random length, and its CID."""
    payload = draw.randbytes(draw.choice([1, 40, 300, 1000, 5000]))
    n = len(payload)
    head = bytes([0x40 + n]) if n < 24 else b"\x58" + bytes([n]) if n < 256 else b"\x59" + n.to_bytes(2, "big")
    block = head + payload
    return b"\x01\x71\x12\x20" + hashlib.sha256(block).digest(), block


def head_of(major, n):
    return bytes([major + n]) if n < 24 else bytes([major + 24, n]) if n < 256 else bytes([major + 25]) + n.to_bytes(2, "big")


def links_of(names):
    """A block that is a list of links."""
    return head_of(0x80, len(names)) + b"".join(b"\xd8\x2a\x58\x25\x00" + name for name in names)


def car_of(blocks, roots=()):
    header = b"\xa2\x65roots" + links_of(roots) + b"\x67version\x01"
    return varint(len(header)) + header + b"".join(varint(len(c) + len(b)) + c + b for c, b in blocks.items())


def tables_of(path):
    """The blocks, and the roots in their order, which SQLite reads in a copy of the files; it finds them whole."""
    with tempfile.TemporaryDirectory() as at:
        for end in ("", "-wal"):
            if os.path.exists(path + end):
                shutil.copy(path + end, f"{at}/copy{end}")
        base = sqlite3.connect(f"{at}/copy")
        assert base.execute("PRAGMA integrity_check").fetchall() == [("ok",)], "integrity_check"
        tables = {name for name, in base.execute("SELECT name FROM sqlite_schema WHERE type = 'table'")}
        rows = dict(base.execute("SELECT cid, bytes FROM block")) if "block" in tables else {}
        roots = [name for name, in base.execute("SELECT cid FROM root ORDER BY rowid")] if "root" in tables else []
        base.close()
        return rows, roots


def rows_of(path):
    return tables_of(path)[0]


def run(program, path, *words, given=b"", **how):
    return subprocess.run([program, path, *words], input=given, capture_output=True, **how)


def crash(program, path, count, seed):
    """Kills an import at a random moment, this many times; returns what was wrong."""
    draw, kept, wrong, killed = random.Random(seed), {}, [], 0
    begun = time.monotonic()
    blocks = dict(block_of(draw) for _ in range(1000))
    run(program, path + ".first", "import", given=car_of(blocks))
    longest = time.monotonic() - begun
    for n in range(count):
        blocks = dict(block_of(draw) for _ in range(draw.choice([1, 3, 100, 1000])))
        process = subprocess.Popen([program, path, "import"], stdin=subprocess.PIPE, stdout=subprocess.PIPE, stderr=subprocess.DEVNULL)
        watch = draw.random() * (0.02 + longest * len(blocks) / 500)
        timer = threading.Timer(watch, process.kill)
        timer.start()
        try:
            said = process.communicate(car_of(blocks))[0]
        except BrokenPipeError:
            said = process.stdout.read()
            process.wait()
        timer.cancel()
        timer.join()
        killed += process.returncode == -signal.SIGKILL
        if process.returncode not in (0, -signal.SIGKILL):
            wrong.append(f"{n}: status {process.returncode}")
        both = {**kept, **blocks}
        try:
            rows = rows_of(path) if os.path.exists(path) else {}
        except sqlite3.DatabaseError:
            # A file whose making was cut off is not a database yet, and the next open goes on with it.
            rows = {} if not kept else None
        if said == b"stored %d\n" % len(blocks) and rows != both:
            wrong.append(f"{n}: said to be stored, and is not")
        if rows not in (kept, both):
            wrong.append(f"{n}: {rows and len(rows)} rows, and {len(kept)} or {len(both)} were committed")
            rows = kept
        kept = rows
        # If a file is not there, no word but `import` makes it.
        wanted = b"holds %d\n" % len(kept) if os.path.exists(path) else b""
        own = run(program, path, "count")
        if own.stdout != wanted:
            wrong.append(f"{n}: the program says {own.stdout} {own.stderr} of {len(kept)}")
    return wrong, killed


def collect(program, path, count, seed, is_stored=False):
    """Kills a `gc` at a random moment, this many times; returns what was wrong. Each round adds a tree and blocks to which it does
    not lead. The tree's root is given, or stored."""
    draw, wrong, killed, longest = random.Random(seed), [], 0, 0.05
    for n in range(count):
        leaves = dict(block_of(draw) for _ in range(draw.choice([1, 30, 300])))
        root, parent = parent_of(list(leaves))
        tree = {root: parent, **leaves}
        run(program, path, "import", given=car_of({**tree, **dict(block_of(draw) for _ in range(draw.choice([1, 100, 1000])))}))
        if is_stored and run(program, path, "add-root", text_of(root)).returncode != 0:
            wrong.append(f"{n}: add-root")
        before = rows_of(path)
        words = [program, path, "gc", *([] if is_stored else [text_of(root)])]
        process = subprocess.Popen(words, stdout=subprocess.PIPE, stderr=subprocess.DEVNULL)
        timer = threading.Timer(draw.random() * longest, process.kill)
        timer.start()
        said = process.communicate()[0]
        timer.cancel()
        timer.join()
        killed += process.returncode == -signal.SIGKILL
        if process.returncode not in (0, -signal.SIGKILL):
            wrong.append(f"{n}: status {process.returncode}")
        rows = rows_of(path)
        if said and (said != b"removed %d\n" % (len(before) - len(tree)) or rows != tree):
            wrong.append(f"{n}: {said} of {len(before)} rows, {len(rows)} are left, and {len(tree)} ought to be")
        if rows not in (before, tree):
            wrong.append(f"{n}: {len(rows)} rows, and {len(before)} or {len(tree)} ought to be there")
        begun = time.monotonic()
        again = run(program, path, *words[2:])
        longest = max(longest, time.monotonic() - begun)
        if (again.returncode, again.stdout) != (0, b"removed %d\n" % (len(rows) - len(tree))) or rows_of(path) != tree:
            wrong.append(f"{n}: a second gc: {again.returncode} {again.stdout} {again.stderr}")
        if is_stored and (tables_of(path)[1] != [root] or run(program, path, "drop-root", text_of(root)).stdout != b"removed 1\n"):
            wrong.append(f"{n}: the stored root")
    return wrong, killed


def add_roots(program, path, count, seed):
    """Kills an `add-root` at a random moment, this many times; returns what was wrong. Its names are roots after the others, or none is."""
    draw, wrong, killed, longest = random.Random(seed), [], 0, 0.05
    blocks = dict(block_of(draw) for _ in range(50))
    run(program, path, "import", given=car_of(blocks))
    kept = []
    for n in range(count):
        names = [named(0x71, b"\x50" + draw.randbytes(16))[0] for _ in range(draw.choice([1, 30, 500]))]
        words = [program, path, "add-root", *(text_of(name) for name in names)]
        process = subprocess.Popen(words, stdout=subprocess.DEVNULL, stderr=subprocess.DEVNULL)
        timer = threading.Timer(draw.random() * longest, process.kill)
        timer.start()
        process.wait()
        timer.cancel()
        timer.join()
        killed += process.returncode == -signal.SIGKILL
        if process.returncode not in (0, -signal.SIGKILL):
            wrong.append(f"{n}: status {process.returncode}")
        rows, roots = tables_of(path)
        if rows != blocks or roots not in (kept, kept + names) or (process.returncode == 0 and roots != kept + names):
            wrong.append(f"{n}: {len(rows)} rows, {len(roots)} roots, and {len(kept)} or {len(kept) + len(names)} ought to be there")
        begun = time.monotonic()
        again = run(program, path, *words[2:])
        longest = max(longest, time.monotonic() - begun)
        kept = kept + names
        if (again.returncode, again.stdout, again.stderr) != (0, b"", b"") or tables_of(path) != (blocks, kept):
            wrong.append(f"{n}: a second add-root: {again.returncode} {again.stdout} {again.stderr}")
    listed = run(program, path, "roots")
    if (listed.returncode, listed.stdout) != (0, lines_of(kept)):
        wrong.append(f"roots: {listed.returncode} {len(listed.stdout)} bytes {listed.stderr}")
    return wrong, killed


def limits(program, path, draw):
    """A full disk, a file that may not be written, and a second process."""
    wrong = []
    first = dict(block_of(draw) for _ in range(50))
    if run(program, path, "import", given=car_of(first)).stdout != b"stored 50\n":
        wrong.append("the first import")

    def full():
        signal.signal(signal.SIGXFSZ, signal.SIG_IGN)
        resource.setrlimit(resource.RLIMIT_FSIZE, (1 << 20, 1 << 20))

    many = dict(block_of(draw) for _ in range(3000))
    ran = run(program, path, "import", given=car_of(many), preexec_fn=full)
    if (ran.returncode, ran.stdout) != (2, b"") or rows_of(path) != first:
        wrong.append(f"a full disk: {ran.returncode} {ran.stdout} {ran.stderr} {len(rows_of(path))} rows")

    holder = subprocess.Popen([program, path, "import"], stdin=subprocess.PIPE, stdout=subprocess.DEVNULL)
    time.sleep(1)
    ran = run(program, path, "count")
    if (ran.returncode, ran.stderr) != (2, b"dagstore: another process has the file open\n"):
        wrong.append(f"a second process: {ran.returncode} {ran.stderr}")
    holder.kill()
    holder.communicate()

    before = open(path, "rb").read()
    os.chmod(path, 0o444)
    drop = (lambda: (os.setgid(NOBODY), os.setuid(NOBODY))) if os.getuid() == 0 else None
    ran = run(program, path, "count", preexec_fn=drop)
    if ran.returncode != 2 or open(path, "rb").read() != before:
        wrong.append(f"a file that may not be written: {ran.returncode} {ran.stdout} {ran.stderr}")
    os.chmod(path, 0o644)

    name = next(iter(first))
    base = sqlite3.connect(path)
    base.execute("UPDATE block SET bytes = x'00' WHERE cid = ?", (name,))
    base.commit()
    base.close()
    ran = run(program, path, "get", "f" + name.hex())
    if (ran.returncode, ran.stdout) != (1, b""):
        wrong.append(f"a block with other bytes: {ran.returncode} {ran.stdout}")
    return wrong


def sections_of(car):
    """The names and blocks of a file, in its order."""
    def length(at):
        n = shift = 0
        while True:
            byte = car[at]
            n |= (byte & 127) << shift
            shift, at = shift + 7, at + 1
            if byte < 128:
                return n, at
    n, at = length(0)
    at += n
    found = []
    while at < len(car):
        n, at = length(at)
        found.append((car[at:at + 36], car[at + 36:at + n]))
        at += n
    return found


def text_of(name):
    """A CID of version 1 in base 32."""
    return "b" + base64.b32encode(name).decode().lower().rstrip("=")


def lines_of(names):
    return "".join(f"{text_of(name)}\n" for name in names).encode()


def named(codec, block):
    """A block of a codec, and its CID."""
    return b"\x01" + varint(codec) + b"\x12\x20" + hashlib.sha256(block).digest(), block


def parent_of(names):
    """A list of links, and its CID."""
    block = links_of(names)
    return b"\x01\x71\x12\x20" + hashlib.sha256(block).digest(), block


NO_ROOTS = b"dagstore: no roots are stored; name some, or add-root\n"
EARLIER = b"dagstore: the file is of an earlier version, which keeps no roots: export it, and import that into a new file\n"


def roots(program, at, draw):
    """What `roots`, `add-root`, `drop-root`, and `export` and `gc` without words say about the roots of a store."""
    wrong, path = [], f"{at}/roots.db"

    def expect(what, ran, status, said, told=b""):
        if (ran.returncode, ran.stdout, ran.stderr) != (status, said, told):
            wrong.append(f"{what}: {ran.returncode} {ran.stdout[:200]} {ran.stderr}")

    leaves = dict(block_of(draw) for _ in range(30))
    first, second, third = (parent_of(list(leaves)[n:n + 10]) for n in (0, 10, 20))
    blocks = {**leaves, **dict([first, second, third])}
    lost = named(0x71, b"\xf6")[0]
    ordered = dict(sorted(blocks.items()))
    names = [third[0], first[0]]
    said = "".join(f"root {text_of(name)}\n" for name in names).encode() + b"stored %d\n" % len(blocks)
    expect("import of roots", run(program, path, "import", given=car_of(blocks, names)), 0, said)
    expect("roots of an import", run(program, path, "roots"), 0, lines_of(names))
    exported = run(program, path, "export")
    expect("export of stored roots", exported, 0, car_of(ordered, names))
    expect("import of that", run(program, f"{at}/roots2.db", "import", given=exported.stdout), 0, said)
    expect("roots of that", run(program, f"{at}/roots2.db", "roots"), 0, lines_of(names))
    expect("export of that", run(program, f"{at}/roots2.db", "export"), 0, exported.stdout)
    expect("export of given roots", run(program, path, "export", text_of(second[0])), 0, car_of(ordered, [second[0]]))

    # Each is a root after the others, in the order of the words; one that is a root already stays where it is.
    expect("add-root", run(program, path, "add-root", text_of(lost), text_of(first[0]), text_of(second[0]), text_of(lost)), 0, b"")
    names += [lost, second[0]]
    if tables_of(path) != (blocks, names):
        wrong.append("the roots behind add-root")
    expect("roots behind add-root", run(program, path, "roots"), 0, lines_of(names))
    expect("export of more roots", run(program, path, "export"), 0, car_of(ordered, names))
    expect("drop-root", run(program, path, "drop-root", text_of(first[0]), text_of(lost)), 0, b"removed 2\n")
    names = [third[0], second[0]]
    expect("roots behind drop-root", run(program, path, "roots"), 0, lines_of(names))

    # A name that is given twice counts once; those that are not roots are told in the order of the words.
    twice = run(program, path, "drop-root", text_of(lost), text_of(third[0]), text_of(first[0]), text_of(third[0]), text_of(lost))
    told = f"{text_of(lost)} no root\n{text_of(first[0])} no root\n".encode()
    expect("drop-root of none", twice, 1, b"removed 1\n", told)
    expect("roots behind that", run(program, path, "roots"), 0, lines_of([second[0]]))
    expect("add-root of one", run(program, path, "add-root", text_of(third[0])), 0, b"")
    expect("drop-root A A", run(program, path, "drop-root", text_of(third[0]), text_of(third[0])), 0, b"removed 1\n")
    expect("add-root again", run(program, path, "add-root", text_of(third[0])), 0, b"")
    names = [second[0], third[0]]
    if tables_of(path) != (blocks, names):
        wrong.append("the roots behind drop-root")

    # Everything that the stored roots lead to is kept, and nothing else; with no root nothing is taken out.
    expect("gc of stored roots", run(program, path, "gc"), 0, b"removed 11\n")
    kept = {n: b for n, b in blocks.items() if n != first[0] and n not in list(leaves)[:10]}
    if tables_of(path) != (kept, names):
        wrong.append("gc of stored roots keeps others")
    expect("drop-root of all", run(program, path, "drop-root", *map(text_of, names)), 0, b"removed 2\n")
    expect("roots of none", run(program, path, "roots"), 0, b"")
    expect("export of no roots", run(program, path, "export"), 0, car_of(dict(sorted(kept.items()))))
    expect("gc of no roots", run(program, path, "gc"), 1, b"", NO_ROOTS)
    if tables_of(path) != (kept, []):
        wrong.append("gc of no roots changes something")
    expect("gc of given roots", run(program, path, "gc", text_of(third[0])), 0, b"removed 11\n")

    # A file of the earlier version, which has no table of roots.
    old = f"{at}/old.db"
    expect("import", run(program, f"{at}/new.db", "import", given=car_of(blocks)), 0, b"stored %d\n" % len(blocks))
    base = sqlite3.connect(f"{at}/new.db")
    table, = base.execute("SELECT sql FROM sqlite_schema WHERE name = 'block'").fetchone()
    base.close()
    base = sqlite3.connect(old)
    base.execute("PRAGMA user_version = 1")
    base.execute(table)
    base.executemany("INSERT INTO block (cid, bytes) VALUES (?, ?)", blocks.items())
    base.commit()
    base.close()
    expect("roots of the earlier version", run(program, old, "roots"), 0, b"")
    expect("add-root to the earlier version", run(program, old, "add-root", text_of(first[0])), 1, b"", EARLIER)
    expect("gc of the earlier version", run(program, old, "gc"), 1, b"", NO_ROOTS)
    expect("drop-root of the earlier version", run(program, old, "drop-root", text_of(lost)), 1, b"removed 0\n", f"{text_of(lost)} no root\n".encode())
    expect("export of the earlier version", run(program, old, "export"), 0, car_of(ordered))
    more = dict([parent_of([lost])])
    expect("import of a root to the earlier version", run(program, old, "import", given=car_of(more, [lost])), 1, b"", EARLIER)
    if tables_of(old) != (blocks, []):
        wrong.append("a file of the earlier version was changed")
    expect("import of no root to the earlier version", run(program, old, "import", given=car_of(more)), 0, b"stored 1\n")
    if tables_of(old) != ({**blocks, **more}, []):
        wrong.append("a file of the earlier version does not have what was imported")
    return wrong


def paths(program, at, draw):
    """What `at` says about a path over the blocks of a store."""
    wrong, path = [], f"{at}/paths.db"

    def expect(what, words, status, said, told=b""):
        ran = run(program, path, "at", *words)
        if (ran.returncode, ran.stdout, ran.stderr) != (status, said, told):
            wrong.append(f"{what}: {ran.returncode} {ran.stdout[:200]} {ran.stderr}")

    # {"a": [1, h'0102']}, and a list of links to it, to a raw block and to one that is not stored.
    inner, raw = named(0x71, b"\xa1\x61a\x82\x01\x42\x01\x02"), named(0x55, b"foo")
    lost = named(0x71, b"\xf6")[0]
    root, block = parent_of([inner[0], raw[0], lost])
    run(program, path, "import", given=car_of({**dict(block_of(draw) for _ in range(20)), root: block, **dict([inner, raw])}))
    top, below = text_of(root), text_of(inner[0])
    expect("at over a link", [f"{top}/0/a/0"], 0, b"1\n")
    expect("at of bytes", [f"{top}/0/a/1"], 0, b'{"/":{"bytes":"AQI"}}\n')
    expect("at of a link", [f"{top}/0"], 0, f'{{"/":"{below}"}}\n'.encode())
    expect("at --raw", ["--raw", f"{top}/0/a"], 0, b"\x82\x01\x42\x01\x02")
    expect("at of nothing", [f"{top}/0/b"], 1, b"", f"{below} has nothing at b\n".encode())
    expect("at over a missing link", [f"{top}/2/a"], 1, b"", f"missing {text_of(lost)} dag-cbor\n".encode())
    expect("at of a root that is not stored", [f"{text_of(lost)}/a"], 1, b"", f"missing {text_of(lost)} dag-cbor\n".encode())
    expect("at of no CID", ["b!/a"], 2, b"", b"no CID: InvalidCharacter\n")
    ran = run(program, f"{at}/none.db", "at", f"{top}/0")
    if (ran.returncode, ran.stdout) != (1, b"") or os.path.exists(f"{at}/none.db"):
        wrong.append(f"at of no file: {ran.returncode} {ran.stdout} {ran.stderr}")
    base = sqlite3.connect(path)
    base.execute("UPDATE block SET bytes = x'00' WHERE cid = ?", (inner[0],))
    base.commit()
    base.close()
    ran = run(program, path, "at", f"{top}/0/a/0")
    if (ran.returncode, ran.stdout) != (1, b"") or b"other bytes" not in ran.stderr:
        wrong.append(f"at over a damaged block: {ran.returncode} {ran.stdout} {ran.stderr}")
    return wrong


def contents(program, at, draw):
    """What `cat` and `ls` write for the files of IPFS in a store."""
    wrong, path = [], f"{at}/contents.db"

    def expect(what, words, status, said, told=b""):
        ran = run(program, path, what.split()[0], *words)
        if (ran.returncode, ran.stdout, ran.stderr) != (status, said, told):
            wrong.append(f"{what}: {ran.returncode} {ran.stdout[:200]} {ran.stderr}")

    # A directory of a file of three leaves, the last of which is not stored, and of one of two.
    parts = [draw.randbytes(300_000) for _ in range(3)]
    leaves = [(unixfs.leaf_name(it), it) for it in parts]
    whole, cut = (dagpb.spell([(name, b"", len(it)) for name, it in some], unixfs.spelled(unixfs.FILE, None, 300_000 * len(some), [300_000] * len(some))) for some in (leaves[:2], leaves))
    files = [(unixfs.node_name(it), it) for it in (whole, cut)]
    block = dagpb.spell([(files[0][0], b"whole", 1), (files[1][0], b"cut", 1)], unixfs.spelled(unixfs.DIRECTORY))
    root = unixfs.node_name(block)
    run(program, path, "import", given=car_of({**dict(block_of(draw) for _ in range(20)), root: block, **dict(files), **dict(leaves[:2])}))
    top, lost = text_of(root), f"missing {text_of(leaves[2][0])} raw\n".encode()
    expect("cat of a file in a directory", [f"{top}/whole"], 0, parts[0] + parts[1])
    expect("cat of a file", [text_of(files[0][0])], 0, parts[0] + parts[1])
    expect("cat of a leaf", [text_of(leaves[1][0])], 0, parts[1])
    expect("cat of a file that is not all there", [f"{top}/cut"], 1, parts[0] + parts[1], lost)
    expect("cat of nothing", [f"{top}/none"], 1, b"", f"{top} has nothing at none\n".encode())
    expect("cat of a directory", [top], 1, b"", f"{top} refused NotAFile\n".encode())
    expect("cat of a root that is not stored", [f"{text_of(leaves[2][0])}/a"], 1, b"", lost)
    expect("cat of no CID", ["b!/a"], 2, b"", b"no CID: InvalidCharacter\n")
    entries = [f"file 900000 {text_of(files[1][0])} cut\n", f"file 600000 {text_of(files[0][0])} whole\n"]
    expect("ls of a directory", [top], 0, "".join(entries).encode())
    expect("ls of a file", [f"{top}/whole"], 0, f"file 600000 {text_of(files[0][0])}\n".encode())
    expect("ls of a leaf", [text_of(leaves[1][0])], 0, f"file 300000 {text_of(leaves[1][0])}\n".encode())
    expect("ls of nothing", [f"{top}/none"], 1, b"", f"{top} has nothing at none\n".encode())
    expect("ls of a root that is not stored", [text_of(leaves[2][0])], 1, b"", lost)
    expect("ls of no CID", ["b!/a"], 2, b"", b"no CID: InvalidCharacter\n")
    base = sqlite3.connect(path)
    base.execute("UPDATE block SET bytes = x'00' WHERE cid = ?", (leaves[1][0],))
    base.commit()
    base.close()
    ran = run(program, path, "cat", f"{top}/whole")
    if (ran.returncode, ran.stdout) != (1, parts[0]) or b"other bytes" not in ran.stderr:
        wrong.append(f"cat over a damaged block: {ran.returncode} {ran.stdout[:100]} {ran.stderr}")
    base = sqlite3.connect(path)
    base.execute("UPDATE block SET bytes = x'00' WHERE cid = ?", (files[1][0],))
    base.commit()
    base.close()
    ran = run(program, path, "ls", top)
    if (ran.returncode, ran.stdout) != (1, b"") or f"{text_of(files[1][0])} other bytes".encode() not in ran.stderr:
        wrong.append(f"ls over a damaged block: {ran.returncode} {ran.stdout[:100]} {ran.stderr}")
    return wrong


def words(program, at, draw):
    """What `export`, `list` and `check` say about a store, and about one that was changed by hand; and what `import` refuses."""
    wrong, path = [], f"{at}/c.db"

    def expect(what, ran, status, said):
        if (ran.returncode, ran.stdout) != (status, said):
            wrong.append(f"{what}: {ran.returncode} {ran.stdout[:200]} {ran.stderr}")

    blocks = dict(block_of(draw) for _ in range(200))
    lost = next(name for name, _ in iter(lambda: block_of(draw), None) if name not in blocks)
    held = next(iter(blocks))
    # A raw leaf, and a node of the codec 0x70 with a link to the lost one.
    raw, node = named(0x55, b"raw"), named(0x70, b"\x12\x26\x0a\x24" + lost)
    blocks.update((raw, node))
    name, parent = parent_of([lost, held, raw[0], node[0], lost])
    blocks[name] = parent
    stored = sorted(blocks.items())
    said = b"stored %d\n" % len(blocks)
    expect("import", run(program, path, "import", given=car_of(blocks)), 0, said)
    exported = run(program, path, "export")
    if exported.returncode != 0 or sections_of(exported.stdout) != stored:
        wrong.append(f"export: {exported.returncode} {len(exported.stdout)} bytes {exported.stderr}")
    expect("import of the export", run(program, f"{at}/d.db", "import", given=exported.stdout), 0, said)
    expect("export of the import", run(program, f"{at}/d.db", "export"), 0, exported.stdout)
    rooted = run(program, path, "export", text_of(name))
    root = b"\xa2\x65roots\x81\xd8\x2a\x58\x25\x00" + name + b"\x67version\x01"
    if (rooted.returncode, rooted.stdout) != (0, varint(len(root)) + root + exported.stdout[1 + len(HEADER):]):
        wrong.append(f"export with a root: {rooted.returncode} {len(rooted.stdout)} bytes {rooted.stderr}")
    expect("import of the root", run(program, f"{at}/r.db", "import", given=rooted.stdout), 0, b"root %s\n" % text_of(name).encode() + said)
    expect("list", run(program, path, "list"), 0, "".join(f"{text_of(n)} {len(b)}\n" for n, b in stored).encode())
    kinds = {n: "ok list" if n == name else "not read" if n == raw[0] else "ok node" if n == node[0] else "ok bytes" for n in blocks}
    missing = f"missing {text_of(lost)} dag-cbor\n"
    expect("check", run(program, path, "check"), 1, ("".join(f"{text_of(n)} {kinds[n]}\n" for n, _ in stored) + missing).encode())

    # The parent's tree, which leads to one block twice over, and to the lost one; and a root that is not stored.
    above, grandparent = parent_of([name, held, name])
    expect("import of a tree", run(program, f"{at}/e.db", "import", given=car_of({**blocks, above: grandparent})), 0, b"stored %d\n" % (len(blocks) + 1))
    root = b"\xa2\x65roots\x81\xd8\x2a\x58\x25\x00" + above + b"\x67version\x01"
    car = varint(len(root)) + root + b"".join(varint(len(c) + len(b)) + c + b for c, b in ((above, grandparent), (name, parent), (held, blocks[held]), raw, node))
    ran = run(program, f"{at}/e.db", "tree", text_of(above))
    if (ran.returncode, ran.stdout, ran.stderr) != (1, car, missing.encode()):
        wrong.append(f"tree: {ran.returncode} {len(ran.stdout)} bytes {ran.stderr}")
    ran = run(program, f"{at}/e.db", "tree", text_of(lost))
    if (ran.returncode, ran.stdout, ran.stderr) != (1, b"", b"dagstore: no block has the name\n"):
        wrong.append(f"tree of a root that is not stored: {ran.returncode} {ran.stdout[:200]} {ran.stderr}")

    # What links lead to from each root that is given is kept, and nothing else; from a root that is not stored nothing is.
    tree = {above: grandparent, name: parent, held: blocks[held], raw[0]: raw[1], node[0]: node[1]}
    alone = next(n for n in blocks if n not in tree)
    removed = b"removed %d\n" % (len(blocks) + 1 - len(tree) - 1)
    expect("gc", run(program, f"{at}/e.db", "gc", text_of(above), text_of(alone), text_of(held)), 0, removed)
    if rows_of(f"{at}/e.db") != {**tree, alone: blocks[alone]}:
        wrong.append("gc of two roots keeps others")
    expect("gc again", run(program, f"{at}/e.db", "gc", text_of(above)), 0, b"removed 1\n")
    if rows_of(f"{at}/e.db") != tree:
        wrong.append("gc keeps others")
    base = sqlite3.connect(f"{at}/e.db")
    base.execute("UPDATE block SET bytes = x'00' WHERE cid = ?", (held,))
    base.commit()
    base.close()
    ran = run(program, f"{at}/e.db", "gc", text_of(above))
    other = f"dagstore: {text_of(held)} other bytes\ndagstore: what is stored under the name has other bytes than it says\n".encode()
    if (ran.returncode, ran.stdout, ran.stderr) != (1, b"", other) or set(rows_of(f"{at}/e.db")) != set(tree):
        wrong.append(f"gc of a damaged block: {ran.returncode} {ran.stdout} {ran.stderr}")
    # Each command that reads a damaged block names it.
    for words in (("get", text_of(held)), ("tree", text_of(above)), ("export",)):
        ran = run(program, f"{at}/e.db", *words)
        if (ran.returncode, ran.stderr) != (1, other):
            wrong.append(f"{words[0]} of a damaged block: {ran.returncode} {ran.stderr}")
    expect("gc beside a damaged block", run(program, f"{at}/e.db", "gc", text_of(raw[0])), 0, b"removed 4\n")
    # A root without a block: nothing is taken out.
    ran = run(program, f"{at}/e.db", "gc", text_of(lost))
    if (ran.returncode, ran.stdout, ran.stderr) != (1, b"", f"dagstore: {text_of(lost)} missing\ndagstore: a root has no block\n".encode()):
        wrong.append(f"gc of a root that is not stored: {ran.returncode} {ran.stdout} {ran.stderr}")
    if set(rows_of(f"{at}/e.db")) != {raw[0]}:
        wrong.append("gc of a root that is not stored takes blocks out")

    # One block, put by its codec.
    put = f"{at}/p.db"
    given = {("dag-cbor", 0x71): b"\x83\x01\x02\x03", ("raw", 0x55): b"foo", ("0x70", 0x70): b"\x0a\x00", (None, 0x71): b"\xf6"}
    for (word, code), block in given.items():
        own = text_of(named(code, block)[0])
        expect(f"put {word}", run(program, put, "put", *([word] if word else []), given=block), 0, f"{own}\n".encode())
        expect("has", run(program, put, "has", own), 0, b"")
        expect("get", run(program, put, "get", own), 0, block)
    for block, place in ((b"\x18\x17", "NonMinimal at byte 1"), (b"", "Eof at byte 0"), (b"\x01\x01", "TrailingData at byte 1")):
        told = f"dagstore: the block is no DAG-CBOR: {place}\n"
        for file in (put, f"{at}/none.db"):
            ran = run(program, file, "put", given=block)
            if (ran.returncode, ran.stdout, ran.stderr) != (1, b"", told.encode()):
                wrong.append(f"put of no DAG-CBOR: {ran.returncode} {ran.stdout} {ran.stderr}")
        name = named(0x71, block)[0]
        ran = run(program, put, "import", given=car_of({name: block}))
        told = f"dagstore: after 0 sections\ndagstore: of {text_of(name)}\n{told}"
        if (ran.returncode, ran.stdout, ran.stderr) != (1, b"", told.encode()):
            wrong.append(f"import of no DAG-CBOR: {ran.returncode} {ran.stdout} {ran.stderr}")
    for word in ("0x", "0x1z", "0x+1", "0x11111111111111111", "dag-pb"):
        expect(f"put {word}", run(program, put, "put", word), 2, b"")
    expect("count", run(program, put, "count"), 0, b"holds 4\n")
    expect("has of another", run(program, put, "has", text_of(lost)), 1, b"")
    # A name that is given twice counts once; those under which nothing is listed are told in the order of the words.
    foo, other, node = text_of(named(0x55, b"foo")[0]), text_of(named(0x55, b"other")[0]), text_of(named(0x70, b"\x0a\x00")[0])
    ran = run(program, put, "remove", text_of(lost), foo, other, foo, text_of(lost))
    told = f"{text_of(lost)} no block\n{other} no block\n"
    if (ran.returncode, ran.stdout, ran.stderr) != (1, b"removed 1\n", told.encode()):
        wrong.append(f"remove: {ran.returncode} {ran.stdout} {ran.stderr}")
    expect("remove A A", run(program, put, "remove", node, node), 0, b"removed 1\n")
    expect("count", run(program, put, "count"), 0, b"holds 2\n")

    # A file that is read by its path; words that are not a CID, or not there; and what the program says about itself.
    with open(f"{at}/in.car", "wb") as file:
        file.write(exported.stdout)
    expect("import of a path", run(program, f"{at}/f.db", "import", f"{at}/in.car"), 0, said)
    expect("import of -", run(program, f"{at}/g.db", "import", "-", given=exported.stdout), 0, said)
    expect("import of no file", run(program, f"{at}/none.db", "import", f"{at}/none.car"), 2, b"")
    for word, cause in (("mAXASIA", "UnknownBase"), ("b!", "InvalidCharacter"), ("f01", "InvalidCid"), ("", "UnknownBase")):
        for verb in ("export", "get", "has", "remove", "gc", "tree", "add-root", "drop-root"):
            ran = run(program, path, verb, word)
            if (ran.returncode, ran.stdout, ran.stderr) != (2, b"", f"no CID: {cause}\n".encode()):
                wrong.append(f"{verb} {word}: {ran.returncode} {ran.stdout[:100]} {ran.stderr}")
    for wordless in ("remove", "get", "has", "tree", "at", "ls", "cat", "add-root", "drop-root"):
        expect(f"{wordless} of nothing", run(program, path, wordless), 2, b"")
    ran = subprocess.run([program, "--help"], capture_output=True)
    if ran.returncode != 0 or not ran.stdout.startswith(b"usage: dagstore FILE ") or ran.stderr:
        wrong.append(f"--help: {ran.returncode} {ran.stdout[:100]} {ran.stderr}")
    ran = subprocess.run([program, "--version"], capture_output=True)
    if (ran.returncode, ran.stdout, ran.stderr) != (0, b"dagstore 0.7.0\n", b""):
        wrong.append(f"--version: {ran.returncode} {ran.stdout} {ran.stderr}")

    # Bytes that are not a file say which fault they have, and a file that is not there is not made.
    cut = car_of(dict([block_of(draw)]))[:-1]
    ran = run(program, path, "import", given=cut)
    if (ran.returncode, ran.stderr) != (1, b"dagstore: after 0 sections\ndagstore: the input is not a CAR file: Truncated\n"):
        wrong.append(f"import of a cut file: {ran.returncode} {ran.stderr}")
    for word in ("export", "gc", "roots", "check", "list", "count"):
        expect(f"{word} of no file", run(program, f"{at}/none.db", word), 1, b"")
    for word in ("get", "has", "remove", "gc", "tree", "add-root", "drop-root"):
        expect(f"{word} of no file", run(program, f"{at}/none.db", word, text_of(held)), 1, b"")
    if os.path.exists(f"{at}/none.db"):
        wrong.append("a word that reads made a file")

    # A file that ends with a block of other bytes, and a file that is cut, change nothing.
    other = block_of(draw)
    for what, car in (("other bytes", car_of({**dict([block_of(draw)]), other[0]: b"\x41\x00"})), ("cut", car_of(dict([block_of(draw), other]))[:-1])):
        ran = run(program, path, "import", given=car)
        if (ran.returncode, ran.stdout) != (1, b"") or rows_of(path) != blocks:
            wrong.append(f"import of a file that is {what}: {ran.returncode} {ran.stdout} {ran.stderr}")
    expect("a word that is none", run(program, f"{at}/none.db", "lists"), 2, b"")
    if os.path.exists(f"{at}/none.db"):
        wrong.append("a word that is none made a file")

    # Other bytes, and no row, under two names; and no missing link once the lost one is stored by another.
    first, second = stored[0][0], stored[1][0]
    base = sqlite3.connect(path)
    base.execute("UPDATE block SET bytes = x'00' WHERE cid = ?", (first,))
    base.execute("UPDATE block SET bytes = x'ff' WHERE cid = ?", (second,))
    base.commit()
    base.close()
    damaged = {first, second}
    lines = "".join(f"{text_of(n)} other bytes\n" if n in damaged else f"{text_of(n)} {kinds[n]}\n" for n, _ in stored)
    after = missing if name not in damaged else ""
    expect("check of other bytes", run(program, path, "check"), 1, (lines + after).encode())
    ran = run(program, path, "export")
    if ran.returncode != 1 or b"other bytes" not in ran.stderr:
        wrong.append(f"export of other bytes: {ran.returncode} {ran.stderr}")
    # Blocks that are damaged are written anew by an import that has them.
    expect("import of damaged blocks", run(program, path, "import", given=car_of({n: blocks[n] for n in (first, second)})), 0, b"stored 2\n")
    if rows_of(path) != blocks:
        wrong.append("an import left a damaged block")
    return wrong


def unread(program, at):
    """Blocks whose links are not known: each command has one word for such a block, and nothing is lost."""
    wrong, path = [], f"{at}/u.db"

    def expect(what, ran, *wanted):
        if (ran.returncode, ran.stdout, ran.stderr) != wanted:
            wrong.append(f"{what}: {ran.returncode} {ran.stdout[:200]} {ran.stderr}")

    def over(*names):
        links = (b"\xd8\x2a" + head_of(0x40, 1 + len(it)) + b"\x00" + it for it in names)
        return named(0x71, head_of(0x80, len(names)) + b"".join(links))

    # A block of DAG-JSON, two raw ones, and lists of links.
    json, raw, alone = named(0x0129, b"[]"), named(0x55, b"\xf6\xf6"), named(0x55, b"alone")
    # Another name says that the second one is DAG-CBOR, which it is not.
    item = b"\x01\x71" + raw[0][2:]
    over_json, over_item = over(alone[0], json[0]), over(item)
    blocks = dict([json, raw, alone, over_json, over_item])
    expect("import", run(program, path, "import", given=car_of(blocks)), 0, b"stored 5\n", b"")
    base = sqlite3.connect(path)
    base.execute("UPDATE block SET cid = ? WHERE cid = ?", (item, raw[0]))
    base.commit()
    base.close()
    blocks[item] = blocks.pop(raw[0])
    states = {json[0]: "links not read", item: "refused TrailingData"}
    for root, name in ((over_json[0], json[0]), (over_item[0], item)):
        told = f"dagstore: {text_of(name)} {states[name]}\ndagstore: the links of a block cannot be read\n".encode()
        expect("gc", run(program, path, "gc", text_of(alone[0]), text_of(root)), 1, b"", told)
        expect("tree", run(program, path, "tree", text_of(root)), 1, b"", told)
        expect("get", run(program, path, "get", text_of(name)), 0, blocks[name], b"")
    if rows_of(path) != blocks:
        wrong.append("gc took out a block")
    kinds = {alone[0]: "not read", over_json[0]: "ok list", over_item[0]: "ok list", **states}
    expect("check", run(program, path, "check"), 1, "".join(f"{text_of(it)} {kinds[it]}\n" for it in sorted(blocks)).encode(), b"")
    # What no root leads to may be of any codec.
    expect("gc of another root", run(program, path, "gc", text_of(alone[0])), 0, b"removed 4\n", b"")
    # A stored root without a block is told by `check`, and takes nothing with it.
    expect("add-root", run(program, path, "add-root", text_of(item)), 0, b"", b"")
    expect("gc of a stored root", run(program, path, "gc"), 1, b"", f"dagstore: {text_of(item)} missing\ndagstore: a root has no block\n".encode())
    expect("check of a root", run(program, path, "check"), 1, f"{text_of(alone[0])} not read\nmissing {text_of(item)} dag-cbor\n".encode(), b"")
    return wrong


def foreign(program, at):
    """Files that are not stores of this program are refused, and left as they are."""
    wrong = []
    base = sqlite3.connect(f"{at}/other.db")
    base.execute("CREATE TABLE note (a)")
    base.execute("INSERT INTO note VALUES (1)")
    base.commit()
    base.close()
    run(program, f"{at}/names.db", "import", given=car_of({}))
    base = sqlite3.connect(f"{at}/names.db")
    base.execute("INSERT INTO block VALUES (x'00', x'00')")
    base.commit()
    base.close()
    with open(f"{at}/text", "wb") as file:
        file.write(b"a text, and no database\n" * 100)
    for name in ("other.db", "names.db", "text"):
        before = open(f"{at}/{name}", "rb").read()
        ran = run(program, f"{at}/{name}", "count")
        if ran.returncode != 1 or ran.stdout or open(f"{at}/{name}", "rb").read() != before:
            wrong.append(f"{name}: {ran.returncode} {ran.stdout} {ran.stderr}")
    return wrong


def wrong_rows(program, at):
    """An entry, and a row of the roots, that no store writes: each word that meets it names its row, and changes nothing."""
    wrong, held = [], block_of(random.Random(4))
    cases = (
        ("block", "(cid, bytes, rowid) VALUES (x'00', x'00', 7)", b"the index of names has a wrong entry at row 7", ("count", "list", "check")),
        ("root", "(cid, rowid) VALUES (x'00', 9)", b"the table of roots has a wrong row at row 9", ("roots", "add-root", "check")),
    )
    for table, row, told, words in cases:
        path = f"{at}/{table}.db"
        run(program, path, "import", given=car_of(dict([held])))
        base = sqlite3.connect(path)
        base.execute(f"INSERT INTO {table} {row}")
        base.commit()
        base.close()
        before = open(path, "rb").read()
        for word in words:
            ran = run(program, path, word, *([text_of(held[0])] if word == "add-root" else []))
            if (ran.returncode, ran.stdout, ran.stderr) != (1, b"", b"dagstore: " + told + b"\n") or open(path, "rb").read() != before:
                wrong.append(f"{word} over a wrong row of {table}: {ran.returncode} {ran.stdout} {ran.stderr}")
        ran = run(program, path, "get", text_of(held[0]))
        if (ran.returncode, ran.stdout) != (0, held[1]):
            wrong.append(f"get beside a wrong row of {table}: {ran.returncode} {ran.stdout} {ran.stderr}")
    return wrong


def check(report, program, count=200, seed=1):
    """Prints a line for each kind of run."""
    with tempfile.TemporaryDirectory() as at:
        os.chmod(at, 0o777)
        wrong, killed = crash(program, f"{at}/a.db", count, seed)
        report(f"dagstore: killed at random moments ({killed} in an import)", count, wrong)
        wrong, killed = collect(program, f"{at}/gc.db", count // 4, seed)
        report(f"dagstore: killed at random moments of a gc ({killed} in one)", count // 4, wrong)
        wrong, killed = collect(program, f"{at}/gc2.db", count // 4, seed, is_stored=True)
        report(f"dagstore: killed at random moments of a gc of stored roots ({killed} in one)", count // 4, wrong)
        wrong, killed = add_roots(program, f"{at}/add.db", count // 4, seed)
        report(f"dagstore: killed at random moments of an add-root ({killed} in one)", count // 4, wrong)
        report("dagstore: a full disk, a second process, a file that may not be written, other bytes", 4, limits(program, f"{at}/b.db", random.Random(seed)))
        report("dagstore: what its words say of a store, whole and changed by hand", 1, words(program, at, random.Random(seed)))
        report("dagstore: the roots of a store, and what export and gc do of them", 1, roots(program, at, random.Random(seed)))
        report("dagstore: what a path leads to in a store", 1, paths(program, at, random.Random(seed)))
        report("dagstore: what cat and ls write of files of IPFS in a store", 1, contents(program, at, random.Random(seed)))
        report("dagstore: blocks whose links cannot be read, and roots without a block", 1, unread(program, at))
        report("dagstore: files that are none of ours", 3, foreign(program, at))
        report("dagstore: rows that no store writes", 8, wrong_rows(program, at))
