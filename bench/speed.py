#!/usr/bin/env python3
"""Speed, compared with a Rust program over serde_cbor: the library's calls on small blocks, the program on 20 MB of lines, and the
heap. Also CAR files, compared with SHA-256 alone, and a block as DAG-JSON, compared with Python.

    bench/speed.py [RUNS] [cars] [shown] [derives] [page]

RUNS is 7 if none is given. `cars` measures CAR files, `shown` DAG-JSON, and `derives` a type that derives. Without any of them
calls, lines and the heap are measured too. If there is valgrind, calls have instructions beside their times. The peer in Rust needs
cargo and Debian's sources of serde_cbor and serde_derive, and the one in Go Debian's sources of fxamacker/cbor.
bench/measuring.py says the rest."""

import random
import shutil
import subprocess
import sys

from measuring import (ROOT, built, digits, heap_counter, heap_of_call, in_cargo, in_go, instructions, least, measure, put, ratio,
                       seconds_of_calls, used)
import cars
import shown
from blocks import listed, record

DEPENDENCIES = 'serde = "1"\nserde_cbor = { version = "0.11.2", features = ["tags"] }\nserde_derive = "1"'
SOURCES = ("serde_cbor-0.11.2", "serde_derive-1.0.152")
LINES = 20_000_000
RECORD = record(random.Random(1))
WRONG, INTEGER = RECORD[:-1] + b"\xff", b"\x1a\x12\x34\x56\x78"
# Each call, the peer's call, the block, and how many calls are made.
CALLS = (
    ("judging a record of 84 bytes", "check_slice", "from_slice::<IgnoredAny>", RECORD, 400_000),
    ("judging an integer of five bytes", "check_slice", "from_slice::<IgnoredAny>", INTEGER, 4_000_000),
    ("refusing the record, for its last byte", "check_slice", "from_slice::<IgnoredAny>", WRONG, 400_000),
    ("reading a tree of the record", "from_slice::<Ipld>", "from_slice::<Value>", RECORD, 100_000),
    ("refusing it as a tree", "from_slice::<Ipld>", "from_slice::<Value>", WRONG, 100_000),
    ("writing the tree", "to_vec::<Ipld>", "to_vec::<Value>", RECORD, 100_000),
    ("reading a struct of the record", "from_slice::<Record>", "from_slice::<Record>", RECORD, 200_000),
    ("refusing it as a struct", "from_slice::<Record>", "from_slice::<Record>", WRONG, 200_000),
    ("reading the struct from a source", "from_reader::<Record>", "from_reader::<Record>", RECORD, 200_000),
    ("writing the struct", "to_vec::<Record>", "to_vec::<Record>", RECORD, 200_000),
    ("writing it, its row in no key order", "to_vec::<Declared>", "to_vec::<Record>", RECORD, 200_000),
)
GO_CALLS = (
    ("judging the record", "check_slice", "Valid", RECORD, 400_000),
    ("reading a tree", "from_slice::<Ipld>", "Unmarshal[any]", RECORD, 100_000),
    ("writing the tree", "to_vec::<Ipld>", "Marshal[any]", RECORD, 100_000),
    ("reading a struct", "from_slice::<Record>", "Unmarshal[Record]", RECORD, 200_000),
    ("writing the struct", "to_vec::<Record>", "Marshal[Record]", RECORD, 200_000),
)
# Each derived call, and those by hand and of the peer.
DERIVED = (
    ("read", "from_slice::<Derived>", "from_slice::<Record>", "from_slice::<Record>"),
    ("written; by hand in the order of its fields", "to_vec::<Derived>", "to_vec::<Declared>", "to_vec::<Record>"),
    ("written; by hand in key order", "to_vec::<Derived>", "to_vec::<Record>", "to_vec::<Record>"),
)


def number(chance):
    """An integer of one to nine bytes."""
    width = chance.choice((0, 1, 2, 4, 8))
    if width == 0:
        return bytes([chance.randrange(24)])
    info = {1: 0x18, 2: 0x19, 4: 0x1A, 8: 0x1B}[width]
    least_number = 24 if width == 1 else 1 << 4 * width
    return bytes([info]) + chance.randrange(least_number, 1 << 8 * width).to_bytes(width, "big")


KINDS = {
    "records": record,
    "numbers": lambda chance: b"\x98\xc8" + b"".join(number(chance) for _ in range(200)),
    "nested": lambda chance: b"\x81" * 100 + number(chance),
    "payload": lambda chance: b"\x59\x03\xe8" + chance.randbytes(1000),
}


def peer():
    """The folder of the programs over serde_cbor, or None."""
    return in_cargo(f"{ROOT}/bench/out/peer", DEPENDENCIES, ("peer/calls", "peer/lines"), *SOURCES)


def of_two(numbers, form=digits):
    """The numbers as cells, and the ratio if there are two."""
    return [*map(form, numbers), *([ratio(*numbers)] if len(numbers) == 2 else [])]


def counted(program, call, block):
    return instructions([program, call], (1000, 0), block, right=block != WRONG)


def calls(section, rows, peer_name, program, is_counted):
    """The library's calls, each on one small block, compared with those of the peer's program if there is one."""
    ours = built("dagcbor_bench")
    columns = ["ours, ns", f"{peer_name}, ns", f"ours / {peer_name}"][: 3 if program else 1]
    columns += ["instructions", f"{peer_name}'s", f"ours / {peer_name}'s"][: (3 if program else 1) * is_counted]
    section.head("Call", *columns)
    for name, call, theirs, block, times in rows:
        both = [(ours, call)] + ([(program, theirs)] if program else [])
        seconds = seconds_of_calls(section.runs, both, times, block, block != WRONG)
        counts = [counted(*it, block) for it in both if is_counted]
        section.row(name, *of_two([1e9 * it for it in seconds]), *of_two(counts, "{:,}".format))


def program_used(words, given, is_piped, answers):
    """Measures a program over the file, which it reads itself or through a pipe."""
    if not is_piped:
        return used(words, given, answers)
    with open(given, "rb") as source, subprocess.Popen(["cat"], stdin=source, stdout=subprocess.PIPE) as cat:
        return used(words, f"/dev/fd/{cat.stdout.fileno()}", answers)


def lines(section, programs, kind):
    """The programs over 20 MB of lines of one kind, from a file and from a pipe. They must answer the same."""
    chance, data = random.Random(2), bytearray()
    while len(data) < LINES:
        data += KINDS[kind](chance).hex().encode() + b"\n"
    given, answers = put(f"{section.folder}/lines", data), [f"{section.folder}/answers{at}" for at in range(len(programs))]
    for command in ("check", "links"):
        for way in ("file", "pipe"):
            runner = lambda program, out: lambda: program_used([program, command], given, way == "pipe", out)
            took = least(section.runs, *map(runner, programs, answers))
            if len({open(it, "rb").read() for it in answers}) > 1:
                sys.exit(f"bench/speed.py: the answers of {command} on {kind} differ")
            section.row(f"`dagcbor {command}`, {kind}, from a {way}", *of_two([it.processor for it in took]))


def heap(section, folder):
    """The most heap that a tree takes while it is read, as a factor of its block."""
    library = heap_counter(section.folder)
    if library is None:
        return
    programs = [(built("dagcbor_bench"), "from_slice::<Ipld>")] + ([(f"{folder}/calls", "from_slice::<Value>")] if folder else [])
    section.head("A list of 100,000 times", *["`Ipld`, as a factor of the block", "`Value`"][: len(programs)])
    for name, item in (("`00`", b"\x00"), ("`81 00`", b"\x81\x00"), ("`a1 60 00`", b"\xa1\x60\x00"), ("the record", RECORD)):
        block = listed(100_000, item)
        section.row(name, *(f"{heap_of_call(*it, block, library) / len(block):.3g}" for it in programs))


def of_blocks(section):
    folder, go = peer(), in_go(section.folder, "peer/calls")
    section.measured()
    calls(section, CALLS, "serde_cbor", folder and f"{folder}/calls", bool(shutil.which("valgrind")))
    if go:
        calls(section, GO_CALLS, "fxamacker/cbor", go, False)
    section.head("Program, 20 MB of lines", *["ours, s", "serde_cbor, s", "ours / serde_cbor"][: 3 if folder else 1])
    for kind in KINDS:
        lines(section, [built("dagcbor_tool")] + ([f"{folder}/lines"] if folder else []), kind)
    heap(section, folder)


def derives(section):
    """The record as a type that derives, compared with the type by hand and serde_cbor's derive."""
    if not shutil.which("valgrind"):
        print("\nderives are skipped, because there is no valgrind")
        return
    folder, ours = peer(), built("dagcbor_bench")
    columns = ["a derive", "by hand", "a derive / by hand", "serde_cbor's derive", "a derive / serde_cbor's"]
    section.head("The record, instructions a call", *columns[: 5 if folder else 3])
    for name, derived, by_hand, theirs in DERIVED:
        one = counted(ours, f"types_serde::{derived}", RECORD)
        others = [counted(ours, by_hand, RECORD)] + ([counted(f"{folder}/calls", theirs, RECORD)] if folder else [])
        section.row(name, f"{one:,}", *(cell for it in others for cell in (f"{it:,}", ratio(one, it))))


parts = {"speed.py": of_blocks, "speed.py cars": cars.measure, "speed.py shown": shown.measure, "speed.py derives": derives}
measure(parts, runs=7)
