#!/usr/bin/env python3
"""Measures `dagcar event`: for frames that are made to be costly, at three sizes; and for honest frames, compared with SHA-256 of as
many bytes by `dagcar name`, and with a judge in Python that keeps nodes as dicts (conformance/events.py).

    bench/events.py [FRAMES] [page]    takes FRAMES honest frames (100)

The program is the one that `./dagcar` built, or DAGCAR names it. Each run is a process, and the time of a run without input is
subtracted. The least processor time of five runs counts. bench/measuring.py says the rest."""

import os
import subprocess
import sys

from measuring import ROOT, least, machine, measure, put, used
from car_bytes import spelled

PROGRAM = os.environ.get("DAGCAR") or f"{ROOT}/crates/dagcar/out/dagcar"
# The most bytes of blocks in a costly frame.
SIZES = (125_000, 500_000, 1_990_000)
RUNS = 5
# The bytes of the string whose SHA-256 is timed.
HASHED = 20_000_000


def seconds(path, word="event"):
    """The least processor time of a run over the file."""
    return least(RUNS, lambda: used([PROGRAM, word], path, statuses=(0, 1), stderr=subprocess.DEVNULL))[0].processor


def reference(*words):
    """Returns what the judge in Python says."""
    words = [sys.executable, f"{ROOT}/conformance/events.py", *map(str, words)]
    return subprocess.run(words, stdout=subprocess.PIPE, text=True, check=True).stdout


def dear(section, base):
    """The frames that are made to be costly."""
    for size in SIZES:
        reference("hostile", f"{section.folder}/{size}", size)
    section.head("A frame of", *["KB, ms"] * len(SIZES))
    for name in sorted(os.listdir(f"{section.folder}/{SIZES[0]}")):
        paths = [f"{section.folder}/{size}/{name}" for size in SIZES]
        costs = [(os.path.getsize(it) / 1000, (seconds(it) - base) * 1000) for it in paths]
        section.row(name.replace("-", " "), *(f"{size:,.0f}, {took:,.1f}" for size, took in costs))


def honest(section, base, count):
    """Honest frames, and SHA-256 of as many bytes: `dagcar name` over one byte string."""
    path = f"{section.folder}/stream"
    reference("stream", path, count)
    theirs = float(reference("speed", count).split(": ")[1].split()[0])
    length = os.path.getsize(path)
    string = put(f"{section.folder}/string", spelled(2, bytes(HASHED)))
    hashed = (seconds(string, "name") - base) / HASHED * length / count * 1e6
    section.tell(f"\n{count} frames of {length // count:,} bytes on average, over a repository of 10,000 records:")
    section.head("", "Microseconds a frame", "Of SHA-256")
    ours = (seconds(path) - base) / count * 1e6
    for name, took in (("SHA-256 of its bytes", hashed), ("`dagcar event`", ours), ("Python, by dicts", theirs)):
        section.row(name, f"{took:,.1f}", f"{took / hashed:.1f}")


def events(section):
    base = seconds(os.devnull)
    section.tell(f"Measured {machine()}, {section.load}. A run without input takes {base * 1000:.1f} ms, which is taken off.")
    dear(section, base)
    honest(section, base, section.runs)


measure({"events.py": events}, runs=100)
