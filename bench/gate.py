#!/usr/bin/env python3
"""Runs the gate, and says what each crate cost: the processor seconds of its proof, of its tests, and of its must-fail edits.

    bench/gate.py    runs `rt ci`, and after what that prints, it prints two tables:
                     what each crate cost, with the minute at which its last part ended, and the costliest edits

Twice a second it looks at the processes below that run, so it misses up to half a second of each. The last line has the
whole, as the system counts it. "seed" is the check of a crate with which its edits begin. It runs on Linux alone: it reads /proc.
Nothing else should run on the machine."""

import os
import pathlib
import resource
import subprocess
import sys
import time

ROOT = pathlib.Path(__file__).resolve().parent.parent
KINDS = ["proof", "tests", "seed", "edits", "other"]
TICK = os.sysconf("SC_CLK_TCK")


def processes():
    """Each process: its parent, its start, and its processor seconds."""
    for pid in filter(str.isdigit, os.listdir("/proc")):
        try:
            with open(f"/proc/{pid}/stat", encoding="utf-8", errors="replace") as file:
                fields = file.read().rpartition(")")[2].split()
        except OSError:
            continue
        yield int(pid), int(fields[1]), fields[19], (int(fields[11]) + int(fields[12])) / TICK


def below(root):
    """The processes below the root."""
    found = list(processes())
    children = {}
    for it in found:
        children.setdefault(it[1], []).append(it)
    todo = [root]
    while todo:
        for it in children.get(todo.pop(), []):
            todo.append(it[0])
            yield it


def what_of(pid):
    """The crate that a process checks, what for, and the number of the edit; None if it is not a prover."""
    try:
        with open(f"/proc/{pid}/cmdline", "rb") as file:
            words = file.read().decode(errors="replace").split("\0")
        folder = os.readlink(f"/proc/{pid}/cwd")
    except OSError:
        return None
    if "--crate-name" not in words:
        return None
    crate = words[words.index("--crate-name") + 1]
    if "/rt-edit-" in folder:
        kept = words[words.index("--incremental") + 1] if "--incremental" in words else ""
        number = kept.rpartition("/")[2]
        return (crate, "seed", None) if number == "seed" else (crate, "edits", int(number) if number.isdigit() else None)
    if "check" not in words[:2] and "build" not in words[:2]:
        return crate, "other", None
    return crate, "tests" if "--test" in words else "proof", None


def watch(words):
    """Returns the status of the run, the seconds of each crate's parts, when they ended, and the seconds of each edit."""
    seconds, names, ends = {}, {}, {}
    began = time.time()
    run = subprocess.Popen(words)
    while run.poll() is None:
        for pid, _, start, spent in below(run.pid):
            key = pid, start
            if names.get(key) is None:
                names[key] = what_of(pid)
            seconds[key] = spent
            if names[key]:
                ends[names[key][:2]] = (time.time() - began) / 60
        time.sleep(0.5)
    costs, edits = {}, {}
    for key, spent in seconds.items():
        crate, kind, number = names.get(key) or ("", "other", None)
        costs.setdefault(crate, dict.fromkeys(KINDS, 0.0))[kind] += spent
        if kind == "edits":
            edits[crate, number] = edits.get((crate, number), 0.0) + spent
    return run.returncode, costs, ends, edits


def name_of_edit(crate, number):
    files = sorted((ROOT / "crates" / crate / "must-fail").glob("*.edit"))
    return files[number].stem if number is not None and number < len(files) else "tried from nothing"


def table(costs, ends):
    """A row for each crate: the seconds of each part, how many edits, and the minute of its end."""
    yield "| Crate | Proof | Tests | Seed | Edits | How many | Other | End |"
    yield "|---|---|---|---|---|---|---|---|"
    for crate, row in sorted(costs.items()):
        proof, tests, seed, edits, other = (f"{row[it]:.0f}" if row[it] >= 0.5 else "" for it in KINDS)
        many = len(list((ROOT / "crates" / crate / "must-fail").glob("*.edit"))) if crate else ""
        end = max((minute for (name, _), minute in ends.items() if name == crate), default=None)
        cells = [f"`{crate}`" if crate else "all else", proof, tests, seed, edits, many, other, "" if end is None else f"{end:.0f}"]
        yield "| " + " | ".join(map(str, cells)) + " |"
    sums = (sum(row[it] for row in costs.values()) / 60 for it in KINDS)
    yield "\n" + ", ".join(f"{kind} {minutes:.0f}" for kind, minutes in zip(KINDS, sums)) + " processor minutes"


def main(words):
    start = time.time()
    status, costs, ends, edits = watch(["rt", "ci", *words])
    spent = resource.getrusage(resource.RUSAGE_CHILDREN)
    print("\nProcessor seconds, and the minute at which the last part of the crate ended.\n")
    print(*table(costs, ends), sep="\n")
    print("\n| Edit | Processor seconds |\n|---|---|")
    for (crate, number), cost in sorted(edits.items(), key=lambda it: -it[1])[:30]:
        print(f"| {crate}/{name_of_edit(crate, number)} | {cost:.0f} |")
    whole = (spent.ru_utime + spent.ru_stime) / 60
    print(f"\n{(time.time() - start) / 60:.1f} minutes, {whole:.0f} processor minutes")
    return status


sys.exit(main(sys.argv[1:]))
