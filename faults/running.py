"""Runs of a program: what it answers, how it is kept short of memory or disk, how it is killed, and how rows of runs are
judged."""

import os
import resource
import signal
import subprocess

NOBODY = 65534


# ---- one run


def answer(words, given=b"", timeout=300, **how):
    """Returns the status, the output and the messages."""
    how = {"stdout": subprocess.PIPE, "stderr": subprocess.PIPE} | how
    ran = subprocess.run(words, input=given, timeout=timeout, check=False, **how)
    return ran.returncode, ran.stdout, ran.stderr


def short_of_memory():
    """Gives the program room for itself, and for nothing that is reserved from a length."""
    resource.setrlimit(resource.RLIMIT_AS, (1 << 28, 1 << 28))


def short_of_disk(size):
    """Limits each file that is written to this many bytes."""
    def limit():
        signal.signal(signal.SIGXFSZ, signal.SIG_IGN)
        resource.setrlimit(resource.RLIMIT_FSIZE, (size, size))

    return limit


def as_nobody():
    """Makes the process one that may not write another user's file."""
    if os.getuid() == 0:
        os.setgid(NOBODY)
        os.setuid(NOBODY)


def killed(words, seconds, given=b"", **how):
    """Returns what it said until then, and its status, if it is killed after this many seconds."""
    process = subprocess.Popen(words, stdin=subprocess.PIPE, stdout=subprocess.PIPE, stderr=subprocess.DEVNULL, **how)
    try:
        said = process.communicate(given, timeout=seconds)[0]
    except subprocess.TimeoutExpired:
        process.kill()
        said = process.communicate()[0]
    return said, process.returncode


# ---- files


def put(path, data):
    """Writes the file, and returns its path."""
    with open(path, "wb") as file:
        file.write(data)
    return path


def read(path):
    with open(path, "rb") as file:
        return file.read()


def remove_store(path):
    """Removes the file, and its log."""
    for end in ("", "-wal"):
        if os.path.exists(path + end):
            os.unlink(path + end)


# ---- many runs


def is_right(found, wanted):
    """Returns true if an answer is one of those that are wanted. Each of these may be a call that judges the answer."""
    return any(it(*found) if callable(it) else it == found for it in wanted)


def sweep(report, name, program, rows, folder=None, wrong=(), **how):
    """Runs the program for each row: words, bytes, and the right answers. The bytes are on standard input; or, if a
    folder is named, in a file there, whose path is the last word."""
    wrong, count = list(wrong), 0
    for words, given, *wanted in rows:
        if folder is not None:
            words, given = [*words, put(f"{folder}/given", given)], b""
        found = answer([program, *words], given, **how)
        if not is_right(found, wanted):
            wrong.append((words[0], count, found[0], found[1][-80:], found[2][-200:]))
        count += 1
    report(name, count, wrong)
