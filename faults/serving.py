"""`dagstore FILE serve`: killed at random moments in a stream of requests, on a full disk, on a file that may not be written, beside
another process; and what it answers, however its input is cut.

What was answered must be there, and of what was not, all or nothing. What the file holds is read by SQLite from a copy."""

import os
import random
import resource
import signal
import sqlite3
import subprocess
import tempfile
import threading
import time

import store
from store import NOBODY, named, rows_of, run, tables_of, text_of


def frame(word, body=b""):
    return b"%s %d\n%s" % (word, len(body), body)


def asked(word, block):
    """A request for a block of the codec raw."""
    return b"%s raw %d\n%s" % (word, len(block), block)


def answers_of(said):
    """The whole answers in what was said: for each a word, and its bytes."""
    found, at = [], 0
    while True:
        end = said.find(b"\n", at)
        if end < 0:
            return found
        word, _, length = said[at:end].partition(b" ")
        body = said[end + 1:end + 1 + int(length)]
        if len(body) < int(length):
            return found
        found.append((word, body))
        at = end + 1 + int(length)


def stream_of(draw, count):
    """Requests, and what the store holds and has as roots after each: what is committed and what waits."""
    requests, states, now, kept = [], [], ({}, []), ({}, [])
    for _ in range(count):
        name, block = named(0x55, draw.randbytes(draw.choice([1, 40, 1000, 20000])))
        sort = draw.choice(["put", "put", "add", "add", "add", "commit", "rollback", "remove", "add-root"])
        rows, roots = dict(now[0]), list(now[1])
        if sort in ("put", "add"):
            rows[name] = block
            request, answer = asked(sort.encode(), block), frame(b"ok", text_of(name).encode())
        elif sort == "remove":
            name = draw.choice([name, *rows])
            request, answer = f"remove {text_of(name)}\n".encode(), frame(b"ok" if name in rows else b"none")
            rows.pop(name, None)
        elif sort == "add-root":
            # A root that is added again stays where it is.
            roots += [name] if name not in roots else []
            request, answer = f"add-root {text_of(name)}\n".encode(), frame(b"ok")
        else:
            request, answer = f"{sort}\n".encode(), frame(b"ok")
            rows, roots = kept if sort == "rollback" else (rows, roots)
        now = (rows, roots)
        kept = now if sort in ("put", "commit") else kept
        requests.append(request)
        states.append((kept, answer))
    return requests, states


def paced(program, path, draw):
    """The seconds that a request takes here, in a stream that nothing kills."""
    requests = stream_of(draw, 300)[0]
    before = time.monotonic()
    subprocess.run([program, path, "serve"], input=b"".join(requests), stdout=subprocess.DEVNULL, check=True)
    return (time.monotonic() - before) / len(requests)


def crash(program, path, count, seed):
    """Kills it at a random moment of a stream, this many times; returns what was wrong."""
    draw, wrong, killed = random.Random(seed), [], 0
    pace = paced(program, path, draw)
    for n in range(count):
        for end in ("", "-wal"):
            if os.path.exists(path + end):
                os.unlink(path + end)
        requests, states = stream_of(draw, draw.choice([5, 50, 300]))
        process = subprocess.Popen([program, path, "serve"], stdin=subprocess.PIPE, stdout=subprocess.PIPE, stderr=subprocess.DEVNULL)
        # A process takes some time to begin.
        timer = threading.Timer(0.01 + draw.random() * pace * len(requests), process.kill)
        timer.start()
        try:
            said = process.communicate(b"".join(requests))[0]
        except BrokenPipeError:
            said = process.stdout.read()
            process.wait()
        timer.cancel()
        timer.join()
        killed += process.returncode == -signal.SIGKILL
        if process.returncode not in (0, -signal.SIGKILL):
            wrong.append(f"{n}: status {process.returncode}")
        told = answers_of(said)
        if b"".join(frame(*it) for it in told) != b"".join(it for _, it in states[:len(told)]):
            wrong.append(f"{n}: another answer among {len(told)}")
        try:
            found = tables_of(path) if os.path.exists(path) else ({}, [])
        except sqlite3.DatabaseError:
            # A file whose making was cut off is not a database yet, and the next open goes on with it.
            found = ({}, [])
        kept = states[len(told) - 1][0] if told else ({}, [])
        after = states[len(told)][0] if len(told) < len(states) else kept
        if found not in (kept, after):
            wrong.append(f"{n}: {len(found[0])} rows behind {len(told)} answers, and {len(kept[0])} or {len(after[0])} ought to be there")
        own = run(program, path, "serve", given=b"count\n")
        if own.stdout != frame(b"ok", b"%d" % len(found[0])):
            wrong.append(f"{n}: the program says {own.stdout} {own.stderr} of {len(found[0])}")
    return wrong, killed


def cuts(program, path, draw):
    """The same requests in one piece, byte by byte and in random pieces have the same answers. If they are cut at each byte, those
    that are whole are answered, and then the program says so."""
    wrong = []
    requests, states = stream_of(draw, 30)
    given, wanted = b"".join(requests), b"".join(it for _, it in states)
    for n, size in enumerate((len(given), 1, None)):
        if size == 1:
            given, wanted = b"".join(requests[:8]), b"".join(it for _, it in states[:8])
        process = subprocess.Popen([program, f"{path}.{n}", "serve"], stdin=subprocess.PIPE, stdout=subprocess.PIPE, bufsize=0)
        said = []
        reader = threading.Thread(target=lambda: said.append(process.stdout.read()))
        reader.start()
        at = 0
        while at < len(given):
            step = size or draw.choice([1, 7, 100, 5000])
            process.stdin.write(given[at:at + step])
            at += step
        process.stdin.close()
        reader.join()
        process.stdout.close()
        if (process.wait(), said) != (0, [wanted]):
            wrong.append(f"in pieces of {size}: {process.returncode} {len(said[0])} bytes, and not {len(wanted)}")
    small = [b"put raw 3\nabc", b"count\n", b"put 0x71 1\n\xff", b"next\n"]
    name = text_of(named(0x55, b"abc")[0]).encode()
    said = [frame(b"ok", name), frame(b"ok", b"1"), frame(b"refused", b"dagstore: the block is no DAG-CBOR: IndefiniteSize at byte 0\n"), frame(b"ok", name)]
    whole, ends = b"".join(small), [sum(map(len, small[:n])) for n in range(len(small) + 1)]
    for at in range(len(whole) + 1):
        done = max(n for n, end in enumerate(ends) if end <= at)
        tail = b"" if at in ends else frame(b"bad", b"bad request\n")
        for end in ("", "-wal"):
            if os.path.exists(f"{path}.cut{end}"):
                os.unlink(f"{path}.cut{end}")
        ran = run(program, f"{path}.cut", "serve", given=whole[:at])
        if (ran.returncode, ran.stdout) != (2 if tail else 0, b"".join(said[:done]) + tail):
            wrong.append(f"cut at {at}: {ran.returncode} {ran.stdout}")
    return wrong


NO_REQUESTS = [
    b"\n", b"get\n", b"get x\n", b"gets x\n", b" count\n", b"count 1\n", b"Count\n", b"put\n", b"put raw\n", b"put raw -1\n",
    b"put raw +1\na", b"put raw 18446744073709551616\n", b"put cbor 1\na", b"put 0x 1\na", b"put raw 1 \na", b"\xff\n", b"next x\n", b"commit now\n", b"roots\r\n",
]


def bad(program, path):
    """What is not a request is told, and ends the program; nothing is reserved from a length that is announced."""
    wrong = []
    for line in NO_REQUESTS:
        ran = run(program, path, "serve", given=b"add raw 1\nz" + line + b"commit\n")
        first = frame(b"ok", text_of(named(0x55, b"z")[0]).encode())
        if (ran.returncode, ran.stdout) != (2, first + frame(b"bad", b"bad request\n")) or rows_of(path):
            wrong.append(f"{line}: {ran.returncode} {ran.stdout} {ran.stderr}")

    def little():
        resource.setrlimit(resource.RLIMIT_AS, (1 << 29, 1 << 29))

    ran = run(program, path, "serve", given=b"put raw 18446744073709551615\nabc", preexec_fn=little)
    if (ran.returncode, ran.stdout) != (2, frame(b"bad", b"bad request\n")):
        wrong.append(f"a length of 2^64 - 1: {ran.returncode} {ran.stdout} {ran.stderr}")
    return wrong


def limits(program, path, draw):
    """A full disk, a second process, a file that may not be written, and files that are imported and exported."""
    wrong = []
    first, second = named(0x55, b"first"), named(0x55, draw.randbytes(3 << 20))

    def full():
        signal.signal(signal.SIGXFSZ, signal.SIG_IGN)
        resource.setrlimit(resource.RLIMIT_FSIZE, (1 << 20, 1 << 20))

    given = asked(b"put", first[1]) + asked(b"put", second[1]) + b"count\n"
    ran = run(program, path, "serve", given=given, preexec_fn=full)
    told = answers_of(ran.stdout)
    if told[:1] != [(b"ok", text_of(first[0]).encode())] or told[1:2] != [(b"refused", b"dagstore: disk I/O error\n")] or rows_of(path) != dict([first]):
        wrong.append(f"a full disk: {ran.returncode} {told} {ran.stderr}")

    holder = subprocess.Popen([program, path, "serve"], stdin=subprocess.PIPE, stdout=subprocess.PIPE)
    holder.stdin.write(b"rollback\n")
    holder.stdin.flush()
    holder.stdout.readline()
    ran = run(program, path, "serve", given=b"count\n")
    if (ran.returncode, ran.stdout, ran.stderr) != (2, b"", b"dagstore: another process has the file open\n"):
        wrong.append(f"a second process: {ran.returncode} {ran.stdout} {ran.stderr}")
    holder.kill()
    holder.communicate()

    out, none = f"{path}.car", f"{path}.none"
    given = b"".join(b"%s %s\n" % it for it in ((b"export", out.encode()), (b"export", out.encode()), (b"import", out.encode()), (b"import", none.encode()))) + b"count\n"
    ran = run(program, path, "serve", given=given)
    wanted = frame(b"ok") + frame(b"refused", b"dagstore: the file is there, or cannot be made\n") + frame(b"ok", b"stored 1\n") + frame(b"refused", b"dagstore: the input failed\n") + frame(b"ok", b"1")
    if (ran.returncode, ran.stdout) != (0, wanted) or open(out, "rb").read() != store.car_of(dict([first])):
        wrong.append(f"import and export: {ran.returncode} {ran.stdout} {ran.stderr}")

    before = open(path, "rb").read()
    os.chmod(path, 0o444)
    drop = (lambda: (os.setgid(NOBODY), os.setuid(NOBODY))) if os.getuid() == 0 else None
    ran = run(program, path, "serve", given=b"count\n", preexec_fn=drop)
    if (ran.returncode, ran.stdout) != (2, b"") or open(path, "rb").read() != before:
        wrong.append(f"a file that may not be written: {ran.returncode} {ran.stdout} {ran.stderr}")
    os.chmod(path, 0o644)
    return wrong


def check(report, program, count=100, seed=1):
    """Prints a line for each kind of run."""
    with tempfile.TemporaryDirectory() as at:
        os.chmod(at, 0o777)
        wrong, killed = crash(program, f"{at}/a.db", count, seed)
        report(f"dagstore serve: killed at random moments ({killed} in a stream)", count, wrong)
        report("dagstore serve: requests in pieces, and cut at each byte", 1, cuts(program, f"{at}/b.db", random.Random(seed)))
        report("dagstore serve: what is no request", len(NO_REQUESTS) + 1, bad(program, f"{at}/c.db"))
        report("dagstore serve: a full disk, a second process, a file that may not be written, files", 4, limits(program, f"{at}/d.db", random.Random(seed)))
