"""Asks a peer: a command that reads lines of hexadecimal and writes a line for each: `ok HEX`, what it writes again of what it read,
or `ok` alone, or `refused ..`. If it ends, hangs or says nothing, the line that does it is found, and asked again alone."""

import os
import resource
import select
import signal
import subprocess
import threading
from dataclasses import dataclass

PATIENCE = 20  # the lines that may hang before the peer is asked no more
MOST_LINE = 1 << 26  # bytes of an answer


@dataclass
class Answer:
    """`ok`, `refused`, `memory`, `crash`, `hang` or `not asked`; what the peer wrote again, if it did; and its words."""

    how: str
    block: bytes | None = None
    words: str = ""


def understood(line):
    how, space, words = line.partition(" ")
    if how == "ok":
        try:  # nothing after a space is what it wrote, and no byte
            return Answer("ok", bytes.fromhex(words.split(" ")[0]) if space else None, words)
        except ValueError:
            return Answer("ok", None, words)
    if how == "refused":
        return Answer("memory" if words.startswith("memory") else "refused", None, words)
    return Answer("crash", None, f"no answer: {line[:60]}")


def feed(pipe, lines):
    """Writes all lines, as far as the peer takes them."""
    try:
        with pipe:
            pipe.writelines(f"{line}\n".encode() for line in lines)
    except OSError:
        pass


def heard(pipe, seconds, most):
    """Returns all that comes, or more lines than this many, or a line without end; and true if nothing came for this long."""
    parts, count, length = [], 0, 0  # of lines, and of the bytes of the last one
    while select.select([pipe], [], [], seconds)[0]:
        part = os.read(pipe, 1 << 16)
        parts.append(part)
        count += part.count(b"\n")
        length = len(part.rpartition(b"\n")[2]) + (0 if b"\n" in part else length)
        if not part or count > most or length > MOST_LINE:
            return b"".join(parts), False
    return b"".join(parts), True


def ends(process, seconds):
    """Returns true if the process ends in that time. It may go on without its output."""
    try:
        process.wait(seconds)
        return True
    except subprocess.TimeoutExpired:
        return False


@dataclass
class Peer:
    """The command, and its limits: the seconds without an answer, and the MB that it may write to."""

    command: list
    seconds: float = 5
    megabytes: int = 1024

    def limit(self):
        most = self.megabytes << 20
        resource.setrlimit(resource.RLIMIT_DATA, (most, most))
        resource.setrlimit(resource.RLIMIT_CORE, (0, 0))

    def ask(self, lines):
        """The answers that came, and why no more came, if not all did."""
        pipes = {"stdin": subprocess.PIPE, "stdout": subprocess.PIPE, "stderr": subprocess.DEVNULL}
        process = subprocess.Popen(self.command, **pipes, preexec_fn=self.limit, start_new_session=True)
        threading.Thread(target=feed, args=(process.stdin, lines), daemon=True).start()
        out, is_late = heard(process.stdout.fileno(), self.seconds, len(lines))
        process.stdout.close()
        if is_late or not ends(process, self.seconds):
            is_late = True
            os.killpg(process.pid, signal.SIGKILL)
        code = process.wait()
        answers = out.decode(errors="replace").split("\n")[:-1]
        if len(answers) == len(lines):
            return answers, None
        if len(answers) > len(lines):
            return [], "more answers than lines"
        why = f"signal {signal.Signals(-code).name}" if code < 0 else f"status {code}"
        return answers, "hang" if is_late else why

    def is_there(self, line="f6"):
        """Returns true if it answers a sound line, in words that are known."""
        try:
            found, _ = self.ask([line])
        except OSError:
            return False
        return len(found) == 1 and understood(found[0]).how != "crash"

    def answers(self, lines):
        """An answer for each line; after many hangs it asks no more."""
        done, size, patience = [], len(lines), PATIENCE
        while len(done) < len(lines):
            if patience == 0:
                return done + [Answer("not asked")] * (len(lines) - len(done))
            batch = lines[len(done) : len(done) + size]
            found, why = self.ask(batch)
            done += map(understood, found)
            if why is None:
                size *= 2
            elif len(batch) == 1:
                done.append(Answer("hang" if why == "hang" else "crash", None, why))
                patience -= why == "hang"
                size = 256
            else:
                size = 1
        return done
