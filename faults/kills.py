"""`dagstore` killed within an open, and within an import: at moments by the clock, spread over the time that the call takes here; and
at calls to the system that make, write, cut or sync a file (kills.c), so that an open is killed in each state that its files pass
through. As when the power fails, what no sync followed is then lost, or some of it.

After each kill SQLite reads a copy of the files; then `dagstore check` opens them, and lists them. Both must have what was said to be
stored, and of the rest all or nothing."""

import hashlib
import os
import random
import signal
import sqlite3
import statistics
import subprocess
import tempfile
import time

from serving import frame
from store import block_of, car_of, run, tables_of, text_of

ROOT = os.path.dirname(os.path.dirname(os.path.realpath(__file__)))
ENDS = ("", "-wal")
NOTHING, DAMAGED = ({}, []), ({b"": b"no database that is whole"}, [])
# What an open without a log leaves of the log at its end: its header.
LOG_HEADER = 41


class Files:
    """The files of a store, as they were, and what is committed in them."""

    def __init__(self, name, path, kept=NOTHING):
        self.name, self.kept, self.parts = name, kept, {}
        for end in ENDS:
            if os.path.exists(path + end):
                with open(path + end, "rb") as file:
                    self.parts[end] = file.read()

    def put(self, path):
        for end in ENDS:
            if os.path.exists(path + end):
                os.unlink(path + end)
            if end in self.parts:
                with open(path + end, "wb") as file:
                    file.write(self.parts[end])


class Call:
    """A call of the program on files: what it gets on standard input, what it says, and what is committed then."""

    def __init__(self, files, words, given, said, after):
        self.files, self.words, self.given, self.said, self.after = files, words, given, said, after


class Killer:
    """Kills a call, and finds what was wrong then. It counts the kills before the call said that it was done, and those after."""

    def __init__(self, program, library, folder):
        self.program, self.library = program, library
        self.path, self.counts = f"{folder}/killed.db", f"{folder}/calls"
        self.wrong, self.within, self.behind = [], 0, 0

    def words(self, call):
        return [self.program, self.path, *call.words]

    def started(self, call, **env):
        call.files.put(self.path)
        how = {"stdin": subprocess.PIPE, "stdout": subprocess.PIPE, "stderr": subprocess.DEVNULL, "env": {**os.environ, **env}}
        return subprocess.Popen(self.words(call), **how)

    def lasting(self, call, count=5):
        """The seconds until the process begins, and those until it has said what it says, for calls that nothing kills."""
        begun, said = [], []
        for _ in range(count):
            before = time.monotonic()
            subprocess.run([self.program, "--version"], stdout=subprocess.DEVNULL, check=True)
            begun.append(time.monotonic() - before)
            process, before = self.started(call), time.monotonic()
            process.stdin.write(call.given)
            process.stdin.close()
            assert process.stdout.read(len(call.said)) == call.said
            said.append(time.monotonic() - before)
            process.stdout.close()
            process.wait()
        return statistics.median(begun), statistics.median(said)

    def calls(self, call):
        """How many of the calls to the system that kills.c knows it makes, and which of them first says something."""
        process = self.started(call, LD_PRELOAD=self.library, CALLS=self.counts)
        assert process.communicate(call.given)[0] == call.said, call.files.name
        with open(self.counts, encoding="ascii") as file:
            count, told = map(int, file.read().split())
        return count, told

    def at_moment(self, call, seconds):
        process = self.started(call)
        try:
            said = process.communicate(call.given, timeout=seconds)[0]
        except subprocess.TimeoutExpired:
            process.kill()
            said = process.communicate()[0]
        self.ended(call, process, said, f"after {seconds:.4f} s")

    def at_call(self, call, n, is_half=False, lose=0):
        env = {"LD_PRELOAD": self.library, "KILL_AT": str(n), "KILL_HALF": str(int(is_half)), "KILL_LOSE": str(lose)}
        process = self.started(call, **env)
        said = process.communicate(call.given)[0]
        self.ended(call, process, said, f"at call {n}{', by half' if is_half else ''}{f', losing by {lose}' if lose else ''}")

    def ended(self, call, process, said, when):
        is_said, is_killed = said == call.said, process.returncode == -signal.SIGKILL
        self.within += is_killed and not is_said
        self.behind += is_killed and is_said
        for it in self.faults(call, process.returncode, is_said):
            self.wrong.append(f"{call.files.name}, {when}: {it}")

    def faults(self, call, status, is_said):
        if status not in (0, -signal.SIGKILL):
            yield f"status {status}"
        found = self.found()
        if found not in ((call.after,) if is_said else (call.files.kept, call.after)):
            blocks = f"{len(call.files.kept[0])} or {len(call.after[0])} blocks"
            yield f"{len(found[0])} blocks and {len(found[1])} roots, and {blocks} were committed"
        lines = "".join(f"{text_of(name)} ok bytes\n" for name in sorted(found[0])).encode()
        if os.path.exists(self.path):
            ran = run(self.program, self.path, "check")
            if (ran.returncode, ran.stdout, ran.stderr) != (0, lines, b""):
                yield f"check: {ran.returncode} {len(ran.stdout)} bytes, and not {len(lines)}, {ran.stderr}"
            if self.found() != found or os.path.getsize(f"{self.path}-wal") > LOG_HEADER:
                yield "behind check the file has something else, or the log was left"

    def found(self):
        if not os.path.exists(self.path):
            return NOTHING
        try:
            return tables_of(self.path)
        except sqlite3.DatabaseError:
            # A file whose making was cut off is not a database yet, and the next open goes on with it.
            return NOTHING
        except AssertionError:
            return DAMAGED


def library(compiler, folder):
    """The library that kills."""
    made = f"{folder}/kills.so"
    words = [*compiler, "-O1", "-Wall", "-shared", "-fPIC", f"{ROOT}/faults/kills.c", "-o", made, "-ldl"]
    subprocess.run(words, check=True)
    return made


def states(killer, draw, at):
    """Files that an open finds: none; whole ones; those whose log has what was committed; those whose log has a part of a commit."""
    program, path = killer.program, f"{at}/made.db"
    blocks = dict(block_of(draw) for _ in range(300))
    roots = draw.sample(list(blocks), 3)
    none = Files("no file", path)
    ran = run(program, path, "import", given=car_of(blocks, roots))
    assert ran.returncode == 0, ran.stderr
    whole = Files("a whole file", path, (blocks, roots))

    more = dict(block_of(draw) for _ in range(200))
    process = subprocess.Popen([program, path, "serve"], stdin=subprocess.PIPE, stdout=subprocess.PIPE)
    for block in more.values():
        process.stdin.write(b"add dag-cbor %d\n" % len(block) + block)
    process.stdin.write(b"commit\n")
    process.stdin.flush()
    wanted = b"".join(frame(b"ok", text_of(name).encode()) for name in more) + frame(b"ok")
    assert process.stdout.read(len(wanted)) == wanted
    process.kill()
    process.communicate()
    left = Files("a file with its log", path, ({**blocks, **more}, roots))

    # An import writes its log, and then moves it into the file.
    others = dict(block_of(draw) for _ in range(1000))
    call = Call(whole, ["import"], car_of(others), b"stored %d\n" % len(others), None)
    for n in range(killer.calls(call)[0]):
        process = killer.started(call, LD_PRELOAD=killer.library, KILL_AT=str(n), KILL_HALF="1")
        process.communicate(call.given)
        torn = Files("a file with a part of a log", killer.path, whole.kept)
        if len(torn.parts["-wal"]) > 100_000:
            break
    assert killer.found() == whole.kept
    return [none, whole, left, torn]


def opens(killer, draw, files, count):
    """Opens of each of the files, killed at this many moments, spread over all; and at each call, or 100 of them, before it and amid it."""
    done, tried = frame(b"ok"), count
    calls = [Call(it, ["serve"], b"rollback\n", done, it.kept) for it in files]
    for call in calls:
        begun, said = killer.lasting(call)
        for _ in range(count // len(calls)):
            killer.at_moment(call, begun / 2 + draw.random() * (said - begun / 2))
        number, _ = killer.calls(call)
        chosen = draw.sample(range(1, number + 1), min(number, 100))
        for n in chosen:
            killer.at_call(call, n)
            killer.at_call(call, n, is_half=True)
        tried += 2 * len(chosen)
    return tried


def imports(killer, draw, files, count):
    """Imports into each of the files, killed at this many moments, and as many calls."""
    blocks = dict(block_of(draw) for _ in range(1000))
    roots = draw.sample(list(blocks), 2)
    said = "".join(f"root {text_of(it)}\n" for it in roots) + f"stored {len(blocks)}\n"
    share = count // len(files)
    for each in files:
        rows, before = each.kept
        call = Call(each, ["import"], car_of(blocks, roots), said.encode(), ({**rows, **blocks}, before + roots))
        begun, lasted = killer.lasting(call)
        for _ in range(share):
            killer.at_moment(call, begun + draw.random() * (lasted - begun))
        _, told = killer.calls(call)
        for n in range(share):
            killer.at_call(call, 1 + (n * told + draw.randrange(told)) // share, n % 2 == 1)
    return 2 * share * len(files)


def powers(killer, draw, files, count):
    """The power fails at this many calls in opens and imports, also after what they say. Then what no sync followed is lost, or some
    of it."""
    blocks = dict(block_of(draw) for _ in range(300))
    share = count // (2 * len(files))
    for each in files:
        rows, roots = each.kept
        said = b"stored %d\n" % len(blocks)
        for call in (
            Call(each, ["serve"], b"rollback\n", frame(b"ok"), each.kept),
            Call(each, ["import"], car_of(blocks), said, ({**rows, **blocks}, roots)),
        ):
            number, _ = killer.calls(call)
            for n in range(share):
                at = 1 + (n * number + draw.randrange(number)) // share
                killer.at_call(call, at, is_half=n % 2 == 1, lose=1 + draw.randrange(10**6))
    return 2 * share * len(files)


def large(killer, draw, whole, count, blocks=160_000):
    """Imports that have more than the 128 MB that are kept in memory, killed once the log has some of it."""
    new = {}
    for _ in range(blocks):
        block = b"\x59\x03\xe5" + draw.randbytes(997)
        new[b"\x01\x71\x12\x20" + hashlib.sha256(block).digest()] = block
    rows, roots = whole.kept
    with tempfile.NamedTemporaryFile(suffix=".car", dir=os.path.dirname(killer.path)) as source:
        source.write(car_of(new))
        source.flush()
        call = Call(whole, ["import", source.name], b"", b"stored %d\n" % blocks, ({**rows, **new}, roots))
        for n in range(count):
            process = killer.started(call)
            process.stdin.close()
            wanted = (n + 1) * 50_000_000
            while process.poll() is None and os.path.getsize(f"{killer.path}-wal") < wanted:
                time.sleep(0.001)
            process.kill()
            said = process.stdout.read()
            process.stdout.close()
            process.wait()
            killer.ended(call, process, said, f"with a log of {wanted} bytes")
    return count


def check(report, program, compiler, count=200, seed=1):
    """Prints a line for each kind of run."""
    with tempfile.TemporaryDirectory() as at:
        killer, draw = Killer(program, library(compiler, at), at), random.Random(seed)
        files = states(killer, draw, at)
        kinds = [("killed within an open", opens), ("killed within an import", imports), ("the power fails", powers)]
        for what, kill in kinds:
            killer.wrong, killer.within, killer.behind = [], 0, 0
            tried = kill(killer, draw, files, count)
            report(f"dagstore: {what} ({killer.within} before it said so, {killer.behind} behind)", tried, killer.wrong)
        killer.wrong, killer.within, killer.behind = [], 0, 0
        tried = large(killer, draw, files[1], 4)
        report(f"dagstore: killed within an import of 160 MB ({killer.within} before it said so)", tried, killer.wrong)
