"""A program, proved and built, with each allocation refused in turn, and each read and write failing or short.

The answers wanted here are those of the format and of the grammar of refusals (docs/GRAMMAR.md); none is copied from a run."""

import os
import subprocess

from expected import LINK, PERSON, THREE_LINKS
from running import put

FOO = LINK.removeprefix("d82a582500")

# Each line of input, what `check` answers, and what `links` does if that is another answer.
ROWS = [
    ("83010203", "ok list", "none"),
    ("1817", "refused NonMinimal", None),
    ("zz", "refused hex", None),
    ("", "refused Eof", None),
    ("f6", "ok null", "none"),
    ("f5", "ok bool", "none"),
    ("3BFFFFFFFFFFFFFFFF", "ok integer", "none"),
    ("62c3a9\r", "ok string", "none"),
    ("62c328ff", "refused RequireUtf8", None),
    ("43010203", "ok bytes", "none"),
    ("a2616201616102", "refused UnorderedKey", None),
    ("a10102", "refused Mismatch", None),
    (PERSON, "ok map", "none"),
    ("d82a490001ce019b010263c8", "ok link", "01ce019b010263c8"),
    ("a26162d82a450001550000626161d82a450001710000", "ok map", "01550000 01710000"),
    (THREE_LINKS, "ok map", f"{FOO} {FOO} {FOO}"),
    ("d82a40", "refused Msg", None),
    ("9bffffffffffffffff", "refused Eof", None),
    ("5bffffffffffffffff", "refused Eof", None),
    ("81" * 127 + "80", "ok list", "none"),
    ("81" * 128 + "80", "refused DepthOverflow", None),
    ("f600", "refused TrailingData", "none"),
    ("ff", "refused IndefiniteSize", None),
    ("f7", "refused Unsupported", None),
    ("78c8" + "61" * 200, "ok string", "none"),
    ("5a00010000" + "a5" * 65536, "ok bytes", "none"),
]

INPUT = "".join(row[0] + "\n" for row in ROWS).encode()
WANTED = {
    "check": (0, "".join(row[1] + "\n" for row in ROWS).encode()),
    "links": (0, "".join((row[2] or row[1]) + "\n" for row in ROWS).encode()),
}
EIO, EINTR, EAGAIN, ENOSPC, EPIPE = 5, 4, 11, 28, 32


class Sweep:
    """The runs of one program: `wanted` has the status and the output of each command over the bytes that are given, and
    `fault_status` is the status where memory, the input or the output failed."""

    def __init__(self, program, library, folder, report, given=INPUT, wanted=WANTED, fault_status=1):
        self.program, self.library, self.report = program, library, report
        self.name = "dagcbor" if given is INPUT else "dagcar"
        self.wanted, self.fault_status = wanted, fault_status
        self.counts, self.input = f"{folder}/counts", put(f"{folder}/input", given)

    def run(self, words, **faults):
        """Status, standard output and standard error; and how many allocations, reads and writes there were."""
        faults = {name: str(value) for name, value in faults.items()}
        env = {**os.environ, **faults, "LD_PRELOAD": self.library, "COUNTS": self.counts}
        # From a file, because it gives each read its bytes whole: a pipe's reads depend on the turns of its two ends.
        with open(self.input, "rb") as file:
            how = {"stdin": file, "capture_output": True, "env": env, "timeout": 60}
            ran = subprocess.run([self.program, *words], **how)
        with open(self.counts, encoding="ascii") as file:
            allocations, reads, writes = map(int, file.read().split())
        return (ran.returncode, ran.stdout, ran.stderr), (allocations, reads, writes)

    def refused(self, command, fault, count, said, **more):
        """For each place: the status, the line on standard error, and whole lines of output, no fewer for a later place."""
        wanted, lines_before, wrong = self.wanted[command][1], 0, []
        for n in range(1, count + 1):
            (status, out, err), _ = self.run(command.split(), **{fault: n}, **more)
            lines = out.count(b"\n")
            is_right = status == self.fault_status and err == said and wanted.startswith(out) and lines >= lines_before
            # A failed write leaves at most the beginning of its line; nothing else does.
            if not is_right or (fault != "FAIL_WRITE" and out and not out.endswith(b"\n")):
                wrong.append((n, status, out[-60:], err))
            lines_before = lines
        how = "".join(f", {name}={value}" for name, value in more.items())
        self.report(f"{self.name} {command}, {fault}{how}", count, wrong)

    def short(self, command, fault, count):
        """A read or a write that moves one byte changes nothing."""
        wrong = []
        for n in range(1, count + 1):
            answer, _ = self.run(command.split(), **{fault: n})
            if answer != (*self.wanted[command], b""):
                wrong.append((n, answer[0], answer[1][-60:], answer[2]))
        self.report(f"{self.name} {command}, {fault}", count, wrong)

    def whole(self, command):
        answer, counts = self.run(command.split())
        short, _ = self.run(command.split(), SHORT_ALL=1)
        for how, found in (("nothing refused", answer), ("one byte a read and a write", short)):
            self.report(f"{self.name} {command}, {how}", 1, [] if found == (*self.wanted[command], b"") else [found])
        return counts

    def sweep_command(self, command, read_errors, write_errors):
        """The command with each place failing."""
        allocations, reads, writes = self.whole(command)
        memory, input_, output = (f"{self.name}: {it}\n".encode() for it in ("out of memory", "input failed", "output failed"))
        self.refused(command, "REFUSE_ALLOCATION", allocations, memory)
        self.refused(command, "REFUSE_FROM", allocations, memory)
        for error in read_errors:
            self.refused(command, "FAIL_READ", reads, input_, ERRNO=error)
        for error in write_errors:
            self.refused(command, "FAIL_WRITE", writes, output, ERRNO=error)
        self.short(command, "SHORT_READ", reads)
        self.short(command, "SHORT_WRITE", writes)

    def sweep_one(self, command):
        """A command that reads all of its input before it answers. A call that is interrupted is made again."""
        self.sweep_command(command, (EIO,), (EIO, ENOSPC, EPIPE, 0))

    def sweep(self, usage, *words):
        """Each command; and these words, which are not commands."""
        for command in self.wanted:
            self.sweep_command(command, (EIO, EINTR, EAGAIN), (EIO, EINTR, ENOSPC, EPIPE, 0))
        # The last two are not texts.
        words = ([], *words, [b"\xff"], [b"check\xff"])
        usage = (2, b"", f"usage: {self.name} {usage}\n".encode())
        wrong = [(it, found) for it in words for found in [self.run(it)[0]] if found != usage]
        self.report(f"{self.name}, words that are no command", len(words), wrong)
