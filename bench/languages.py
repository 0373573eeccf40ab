#!/usr/bin/env python3
"""Speed of the packages for Python and Node, and of the calls of the C ABI.

    bench/languages.py [RUNS] [libcbor | node] [page]

RUNS is 9 if none is given. Python's calls are compared with json and with the accelerator of Debian's python3-cbor2. With `node`,
those of Node are compared with its JSON and Debian's node-cbor; with `libcbor`, the judge of the C ABI with Debian's libcbor-dev;
without these words, all. docs/OTHER_LANGUAGES.md says how the packages are built, bench/measuring.py the rest."""

import os
import random
import shutil

from measuring import FFI, ffi, in_c, in_node, in_python, measure, printed, put
from blocks import PERSON, listed
from car_bytes import head, link, spelled

FRENCH = "les élèves de la classe sont partis ce matin pour visiter le musée avec leur professeur et sont rentrés très tard".split()
JAPANESE = "日本語 東京 学校 先生 猫 犬 水 山 川 ひらがな カタカナ 電車 新聞 音楽 映画 料理 天気".split()

TEXTS = (("French", FRENCH, 3, " "), ("French", FRENCH, 100, " "), ("Japanese", JAPANESE, 5, ""), ("Japanese", JAPANESE, 100, ""))


def numbers():
    chance = random.Random(1)
    return head(4, 65535) + b"".join(b"\x19" + chance.randrange(256, 65536).to_bytes(2, "big") for _ in range(65535))


BLOCKS = {
    "`[1, 2, 3]`": b"\x83\x01\x02\x03",
    "the record, 66 bytes": PERSON,
    "10,000 records": listed(10_000, PERSON),
    "65,535 integers of 3 bytes": numbers(),
    "10,000 links": listed(10_000, link(b"\x01\x71\x12\x20" + bytes(range(32)))),
}


def maps_and_texts():
    """Wide maps, texts beyond ASCII, and bytes: each block's name, and its bytes."""
    chance = random.Random(1)
    entries = [b"\x65key_" + bytes([97 + n]) + b"\x19" + chance.randrange(256, 65536).to_bytes(2, "big") for n in range(20)]
    yield "500 maps of 20 keys", listed(500, b"\xb4" + b"".join(entries))
    for language, words, count, between in TEXTS:
        texts = [between.join(chance.choices(words, k=count)).encode() for _ in range(500)]
        yield f"500 texts of {count} words of {language}", head(4, 500) + b"".join(spelled(3, it) for it in texts)
    yield "a byte string of 1 MB", spelled(2, chance.randbytes(1_000_000))


def files(section, blocks):
    """The files of the blocks."""
    return [put(f"{section.folder}/{n}.block", block) for n, block in enumerate(blocks.values())]


def of_c(section, name, blocks, *libraries):
    """Returns what the program in C prints for each block."""
    program = in_c(section.folder, f"languages/{name}.c", f"-I{FFI}/include", ffi(), *libraries)
    return dict(zip(blocks, printed(program, section.runs, *files(section, blocks))))


def packages(section):
    section.measured("nanoseconds of processor time, ")
    section.table("C", ["check", "tape", "spell"], of_c(section, "calls", BLOCKS), [(1, 0), (2, 0)])
    columns = ["loads", "dumps", "cbor2.loads", "cbor2.dumps", "json.loads", "json.dumps"]
    rows = in_python(section.folder, "calls.py", section.runs, *files(section, BLOCKS))
    section.table("Python", columns, dict(zip(BLOCKS, rows)), [(0, 2), (1, 3)])


def beside_json(section):
    if not shutil.which("node"):
        return
    blocks = BLOCKS | dict(maps_and_texts())
    columns = ["decode", "encode", "JSON.parse", "JSON.stringify", "cbor.decode", "cbor.encode"]
    rows = in_node("calls.js", section.runs, *files(section, blocks))
    section.measured("nanoseconds of processor time, ")
    section.table("Node", columns, dict(zip(blocks, rows)), [(0, 2), (1, 3), (0, 4), (1, 5)])


def beside_libcbor(section):
    if not os.path.exists("/usr/include/cbor.h"):
        return
    section.measured("nanoseconds of processor time, ")
    columns = ["dagcbor_check", "cbor_stream_decode", "cbor_load"]
    section.table("C", columns, of_c(section, "libcbor", BLOCKS, "-lcbor"), [(0, 1), (0, 2)])


measure({"languages.py": packages, "languages.py node": beside_json, "languages.py libcbor": beside_libcbor})
