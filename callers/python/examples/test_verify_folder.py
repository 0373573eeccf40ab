"""Twelve files whose links lead from one to another, with damage and missing blocks, over three
workers: what is told is what one check of all their sections in one file tells."""

import hashlib
import os
import random
import subprocess
import sys
from collections import Counter

import pytest
from dagcbor import check_car
from dask.distributed import Client, LocalCluster
from verify_folder import verify

FILES, BLOCKS = 12, 600
HERE = os.path.dirname(os.path.abspath(__file__))


def varint(number):
    return bytes([number & 127 | 128]) + varint(number >> 7) if number > 127 else bytes([number])


def cid(block):
    return b"\x01\x71\x12\x20" + hashlib.sha256(block).digest()


def held_inside(block):
    """The name by the identity."""
    return b"\x01\x71\0" + bytes([len(block)]) + block


def link(name):
    count = len(name) + 1
    head = bytes([0x40 + count]) if count < 24 else bytes([0x58, count])
    return b"\xd8\x2a" + head + b"\0" + name


def links_to(names):
    return b"".join(map(link, names))


def block_of(names, number):
    tail = b"\x19" + (1000 + number).to_bytes(2, "big")
    return bytes([0x81 + len(names)]) + links_to(names) + tail


def section(block, name=None):
    body = (name or cid(block)) + block
    return varint(len(body)) + body


def header(roots):
    count = bytes([0x80 + len(roots)]) if len(roots) < 24 else b"\x98" + bytes([len(roots)])
    block = b"\xa2\x65roots" + count + links_to(roots) + b"\x67version\x01"
    return varint(len(block)) + block


def second(inner):
    """A file of version 2 around it."""
    numbers = b"".join(it.to_bytes(8, "little") for it in (60, len(inner), 60 + len(inner)))
    front = bytes.fromhex("0aa16776657273696f6e02") + bytes(16) + numbers
    return front + b"\xff" * 9 + inner + b"\x80"


def blocks(chance):
    """Of each block its bytes and its links, to some before it, and at times within a name."""
    names = []
    for number in range(BLOCKS):
        links = chance.sample(names, min(len(names), chance.randrange(4)))
        block = block_of(links, number)
        names.append(cid(block))
        if links and chance.random() < 0.1:
            small = b"\x05" if chance.random() < 0.5 else b"\xf6"
            block = block_of([*links, held_inside(small)], number)
            names[-1] = cid(block)
        yield block, links


@pytest.fixture(scope="module")
def made(tmp_path_factory):
    """The folder; all whole sections under one header; each file's verdicts; what is missing."""
    chance, folder = random.Random(12), tmp_path_factory.mktemp("files")
    told = [Counter() for _ in range(FILES)]
    sections, roots = [[] for _ in range(FILES)], [[] for _ in range(FILES)]
    held, wanted = set(), set()
    for number, (block, links) in enumerate(blocks(chance)):
        file, fate = chance.randrange(FILES - 1), chance.random()  # the last has none
        if chance.random() < 0.02:
            roots[file].append(cid(block))
            wanted.add(cid(block))
        if fate < 0.03:  # in no file
            continue
        if fate < 0.06:
            sections[file].append(section(block[:-1] + b"\xff", cid(block)))
            told[file]["other bytes"] += 1
            continue
        sections[file].append(section(block))
        told[file]["ok list"] += 1
        held.add(cid(block))
        wanted.update(links)
    paths = []
    for number, (of_file, of_roots) in enumerate(zip(sections, roots)):
        file = header(of_roots) + b"".join(of_file)
        file = second(file) if number % 3 == 1 else file
        if number == 3:
            file += section(b"\xf6")[:-1]  # is cut
        paths.append(folder / f"{number:02}.car")
        paths[-1].write_bytes(file)
    all_sections = b"".join(it for of_file in sections for it in of_file)
    whole = header([it for of_roots in roots for it in of_roots]) + all_sections
    return folder, paths, whole, told, sorted(wanted - held)


@pytest.fixture(scope="module")
def client():
    with LocalCluster(n_workers=3, threads_per_worker=1, dashboard_address=None) as cluster:
        with Client(cluster) as client:
            yield client


def test_as_one_file(made, client):
    _, paths, whole, told, lost = made
    assert len(paths) == FILES and len(lost) > 5 and len(client.ncores()) == 3
    found = check_car(whole)
    assert [bytes(it) for it in found.missing] == lost and found.verdicts["other bytes"] > 5
    for parts in (1, 7, 64):
        reports, missing = verify(paths, parts)
        assert missing == found.missing
        assert [it["verdicts"] for it in reports] == [dict(it) for it in told]
        counts = sum((Counter(it["verdicts"]) for it in reports), Counter())
        assert counts == Counter(found.verdicts)
        refused = [it["refused"] and it["refused"].rpartition(" ")[0] for it in reports]
        assert refused == [None] * 3 + ["refused Truncated at"] + [None] * (FILES - 4)


def test_a_file_that_is_not_there(made, client):
    """The others are checked nevertheless."""
    folder, paths, _, told, _ = made
    reports, _ = verify([folder / "none.car", *paths[:2]], 3)
    assert reports[0]["refused"].startswith("not read: [Errno 2]") and not reports[0]["verdicts"]
    assert [it["verdicts"] for it in reports[1:]] == [dict(it) for it in told[:2]]


def test_no_part_has_all_names(made, client):
    """Names are divided, and each worker sees some alone."""
    from verify_folder import verified

    _, paths, _, _, _ = made
    for path in paths[:-1]:
        _, pieces = verified(path, 8)
        sizes = [len(held) for _, held, _ in pieces]
        assert len(sizes) == 8 and 0 < max(sizes) < sum(sizes) / 2


def test_command(made, client):
    folder, paths, _, told, lost = made
    address = ["--scheduler", client.scheduler.address]
    words = [sys.executable, f"{HERE}/verify_folder.py", *address, "--parts", "5", str(folder)]
    ran = subprocess.run(words, stdout=subprocess.PIPE, text=True, check=False)
    lines = ran.stdout.splitlines()
    assert ran.returncode == 1 and len(lines) == FILES + len(lost)
    cut = paths[3].stat().st_size - len(section(b"\xf6")) + 1
    assert lines[3].endswith(f"refused Truncated at {cut}") and lines[3].startswith(str(paths[3]))
    assert lines[FILES - 1] == f"{paths[-1]}: no section"
    assert all(it.startswith("missing bafyrei") for it in lines[FILES:])
    words[-1] = str(paths[-1])
    ran = subprocess.run(words, stdout=subprocess.PIPE, text=True, check=False)
    assert (ran.returncode, ran.stdout) == (0, f"{paths[-1]}: no section\n")
