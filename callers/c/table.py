"""Holds the example over each file of callers/tables/files.txt, which conformance/rows writes: table.py PROGRAM."""

import os
import subprocess
import sys
import tempfile

sys.dont_write_bytecode = True
sys.path.insert(0, os.path.join(os.path.dirname(os.path.abspath(__file__)), "../../faults"))

from car_bytes import text_of

TABLE = os.path.join(os.path.dirname(os.path.abspath(__file__)), "../tables/files.txt")


def parts(text):
    return [] if text == "-" else text.split(",")


def lines_of(roots, sections, fault):
    """What is to be printed."""
    for it in parts(roots):
        yield f"root {text_of(bytes.fromhex(it))}"
    for it in parts(sections):
        name, _, code = it.split(":")
        yield f"{text_of(bytes.fromhex(name))} {code}"
    yield "end" if fault == "-" else " at ".join(fault.split(":"))


def main():
    with open(TABLE, encoding="ascii") as lines:
        rows = [line.split() for line in lines if not line.startswith("#")]
    for file, roots, sections, fault, _ in rows:
        with tempfile.NamedTemporaryFile() as kept:
            kept.write(bytes.fromhex(file.strip("-")))
            kept.flush()
            words = [sys.argv[1], kept.name]
            ran = subprocess.run(words, stdout=subprocess.PIPE, text=True, check=False)
            with open("/dev/full", "wb") as full:
                lost = subprocess.run(words, stdout=full, stderr=subprocess.DEVNULL, check=False)
        wanted = list(lines_of(roots, sections, fault))
        if ran.stdout.splitlines() != wanted or ran.returncode != (fault != "-"):
            sys.exit(f"wrong: {file}\n{ran.stdout}")
        if lost.returncode != 2:
            sys.exit(f"the output is lost, and that is not told: {file}")
    print(f"{len(rows)} files")


main()
