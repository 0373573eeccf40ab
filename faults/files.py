"""The word `cat` of `dagcar` over files of IPFS: those that Debian's `ipfs-unixfs` makes, and random ones, some of them damaged.
For a random file, `unixfs.cat`, which reads it by itself, finds the right answer."""

import hashlib
import json
import os
import random
import re
import shutil
import subprocess

import building
import dagpb
import running
import unixfs
from building import REGISTRY
from car_bytes import file_of, text_of

HERE = os.path.dirname(os.path.abspath(__file__))
NAMES = ["a", "b.txt", "with space", "ünïcode", "sub/h", "sub/deep/er/x", "sub/deep/y"]


def cat(root, names, blocks, *wanted):
    """A run of `cat` over a file of the blocks, and the right answer."""
    return ["cat", f"{text_of(root)}/{names}"], file_of([root], blocks), *wanted


def wanted(blocks, root):
    content, line = unixfs.cat(blocks, root)
    return int(line is not None), content, b"" if line is None else f"{line}\n".encode()


def listed(blocks, root):
    lines, is_well = unixfs.ls(blocks, root)
    return int(not is_well), lines, b""


# ---- files that another program makes


def maker(folder):
    """The program that makes blocks, or None."""
    if not os.path.exists(f"{folder}/maker"):
        shutil.copytree(f"{HERE}/unixfs_maker", f"{folder}/maker")
    programs = building.cargo_built(f"{folder}/maker", "ipfs-unixfs-0.2.0")
    return programs and f"{programs}/unixfs_maker"


def made(program, folder, chunk, links):
    """The blocks of the files in the folder, each under its name, and the root."""
    ran = subprocess.run([program, folder, str(chunk), str(links)], capture_output=True, text=True, check=True)
    rows = [tuple(map(bytes.fromhex, line.split(" "))) for line in ran.stdout.splitlines() if " " in line]
    return dict(rows), rows[-1][0]


def refused(line):
    """A line that ends so, and nothing else."""
    return lambda status, out, told: status == 1 and not out and told.endswith(f" {line}\n".encode())


def cut_before(name, content):
    """The whole content, or the front of it and the line that a block is missing."""
    missing = f"missing {text_of(name)} dag-pb\n".encode()
    return lambda status, out, told: status == 1 and content.startswith(out) and told == missing


def rows_of_made(program, folder):
    rng = random.Random(1)
    for chunk, links in ((16, 2), (64, 3), (1000, 11), (4096, 174), (262144, 174)):
        tree, contents = f"{folder}/tree-{chunk}", {}
        for name, size in zip(NAMES, [0, 1, chunk - 1, chunk, chunk + 1, 7 * chunk, min(40 * chunk, 2000000)]):
            os.makedirs(os.path.dirname(f"{tree}/{name}"), exist_ok=True)
            contents[name] = rng.randbytes(size)
            running.put(f"{tree}/{name}", contents[name])
        blocks, root = made(program, tree, chunk, links)
        for name, content in contents.items():
            yield cat(root, name, blocks, (0, content, b""))
        for name, line in (("sub", "refused NotAFile"), ("none", "has nothing at none"), ("a/b", "refused NotADirectory")):
            yield cat(root, name, blocks, refused(line))
        for lost in rng.sample(sorted(blocks), min(len(blocks), 12)):
            fewer = {name: block for name, block in blocks.items() if name != lost}
            for name, content in contents.items():
                yield cat(root, name, fewer, (0, content, b""), cut_before(lost, content))


def sweep_made(path, folder, report):
    program = maker(folder)
    if program is None:
        report("dagcar cat of files by ipfs-unixfs, which is not here", 0, [])
        return
    running.sweep(report, "dagcar cat of files by ipfs-unixfs", path, rows_of_made(program, folder))


def rows_of_named(program, namer, folder):
    rng = random.Random(5)
    for size in (1, 7, 262144, 262145, 1000000):
        tree, content = f"{folder}/named-{size}", rng.randbytes(size)
        os.mkdir(tree)
        running.put(f"{tree}/file", content)
        told = subprocess.run([namer, f"{tree}/file"], capture_output=True, text=True, check=True).stdout
        blocks, root = made(program, tree, 262144, 174)
        yield ["cat", json.loads(told)["CIDv0"]], file_of([root], blocks), (0, content, b"")


def sweep_named(path, folder, report):
    """The names that the program `ipfs_cid` gives to files, beside those of the blocks that are read."""
    program, namer = maker(folder), shutil.which("ipfs_cid")
    if program is None or namer is None:
        report("dagcar cat of files that ipfs_cid names, which is not here", 0, [])
        return
    running.sweep(report, "dagcar cat of files that ipfs_cid names", path, rows_of_named(program, namer, folder))


# ---- blocks of go-ipfs, which the sources of `ipfs-unixfs` have

SAMPLES = [f"{REGISTRY}/ipfs-unixfs-0.2.0/src/{it}.rs" for it in ("test_support", "symlink")]
FOOBAR = ("QmRJHYTNvC3hmd9gJQARxLR1QMEincccBV53bBw524yyq6", "QmWfQ48ChJUj4vWKFsUDe4646xCBmXgdmNfhjz9T7crywd")


def samples():
    """The blocks, each under its name, and the names of blocks that the sources tell."""
    text = "".join(running.read(path).decode() for path in SAMPLES)
    blocks = (bytes.fromhex(digits) for digits in re.findall(r'hex!\("([0-9a-f]+)"\)', text))
    blocks = {b"\x12\x20" + hashlib.sha256(block).digest(): block for block in blocks}
    told = set(re.findall(r"\bQm[1-9A-HJ-NP-Za-km-z]{44}\b", text))
    return blocks, told & set(map(text_of, blocks))


def rows_of_samples(blocks):
    """Each is listed and read, and the directories of shards are refused by name."""
    for name, block in blocks.items():
        yield cat(name, "", blocks, (0, b"foobar\n", b"") if text_of(name) in FOOBAR else wanted(blocks, name))
        words, is_well = unixfs.entity(blocks, name)
        right = int(not is_well), f"{words} {text_of(name)}\n".encode(), b""
        if words.startswith("directory "):
            right = listed(blocks, name)
        elif words.startswith("shard "):
            right = 1, b"", f"{text_of(name)} refused InShards\n".encode()
        yield ["ls", text_of(name)], file_of([name], blocks), right


def sweep_samples(path, report):
    if not all(map(os.path.exists, SAMPLES)):
        report("dagcar of blocks of go-ipfs, which are not here", 0, [])
        return
    blocks, told = samples()
    wrong = [] if len(told) > 10 else [f"only {len(told)} blocks have the names that are told"]
    running.sweep(report, "dagcar of blocks of go-ipfs", path, rows_of_samples(blocks), wrong=wrong)


# ---- random files


def leaf(rng):
    content = rng.randbytes(rng.choice([0, 1, 1, 2, 5, 30]))
    if rng.random() < 0.5:
        return unixfs.leaf_name(content), content, len(content)
    size = len(content) if rng.random() < 0.8 else None
    block = dagpb.spell([], unixfs.spelled(rng.choice([unixfs.FILE, unixfs.FILE, unixfs.RAW]), content, size))
    return unixfs.node_name(block), block, len(content)


def node(rng, blocks, depth):
    """Makes a part of a file of at most this many levels, and returns its name and size."""
    if depth == 0 or rng.random() < 0.3:
        name, block, size = leaf(rng)
        blocks[name] = block
        return name, size
    parts = [node(rng, blocks, depth - 1) for _ in range(rng.randrange(1, 4))]
    parts = [part for part in parts if part[1] or rng.random() < 0.05]
    content = rng.randbytes(rng.choice([0, 0, 3]))
    sizes = [size for _, size in parts]
    total = len(content) + sum(sizes)
    fault = rng.random()
    if fault < 0.03 and sizes:
        sizes[rng.randrange(len(sizes))] += rng.choice([-1, 1])
    elif fault < 0.05:
        sizes += [1]
    said = total + 1 if fault > 0.98 else total
    kind = rng.choice([unixfs.DIRECTORY, unixfs.SYMLINK, unixfs.SHARD, unixfs.METADATA]) if 0.05 < fault < 0.06 else unixfs.FILE
    data = unixfs.spelled(kind, content or None, said if rng.random() < 0.8 else None, [max(size, 0) for size in sizes])
    if 0.06 < fault < 0.1 and data:
        at = rng.randrange(len(data))
        data = data[:at] + rng.randbytes(1) + data[at + rng.randrange(2) :]
    links = [(name, b"", size) for name, size in parts]
    block = dagpb.spell(links, None if 0.2 < fault < 0.21 else data)
    if 0.1 < fault < 0.2:
        block = dagpb.field(dagpb.DATA, data) + dagpb.spell(links)
    if 0.21 < fault < 0.23:
        at = rng.randrange(len(block))
        block = block[:at] + rng.randbytes(1) + block[at + 1 :]
    name = unixfs.node_name(block)
    blocks[name] = block
    return name, total


def random_files(count):
    rng = random.Random(2)
    for _ in range(count):
        blocks = {}
        root, _ = node(rng, blocks, rng.randrange(1, 5))
        names = sorted(blocks)
        if rng.random() < 0.2:
            del blocks[rng.choice(names)]
        elif rng.random() < 0.1:
            blocks[rng.choice(names)] = b"\x0a\x00"
        yield cat(root, "", blocks, wanted(blocks, root))


# ---- random nodes, listed


def field(rng):
    """A field of a message, or something close to one."""
    number = rng.choice([0, 1, 2, 5, 127, 128, 300, 2**32, 2**63, 2**64 - 1])
    known = [0x08, 0x12, 0x18, 0x20, 0x20, 0x28, 0x30, 0x38, 0x3A, 0x39, 0x3D, 2**32 - 8]
    tag = rng.choice(known) if rng.random() < 0.9 else rng.choice([0x22, 0x0B, 0x0A, 0x10, 2**32 + 2])
    if tag == 0x08:
        number = rng.choice([0, 1, 2, 3, 4, 5] * 3 + [6, 200])
    if tag % 8 == 2:
        return dagpb.field(tag, rng.randbytes(rng.randrange(4)))
    if tag % 8 in (1, 5):
        return dagpb.varint(tag) + rng.randbytes(8 if tag % 8 == 1 else 4)
    return dagpb.field(tag, number)


def damaged(rng, block):
    if not block or rng.random() < 0.85:
        return block
    at = rng.randrange(len(block))
    front, rest = block[:at], block[at + 1 :]
    return rng.choice([front, front + rng.randbytes(1) + rest, front + rest, front + b"\x80" + block[at:]])


def random_node(rng):
    data = b"" if rng.random() < 0.1 else unixfs.spelled(rng.randrange(6), rng.choice([None, b"", b"to"]))
    data = damaged(rng, data + b"".join(field(rng) for _ in range(rng.randrange(4))))
    links = []
    for _ in range(rng.randrange(3)):
        name = unixfs.leaf_name(rng.randbytes(1))
        links.append((name, rng.choice([None, b"", rng.randbytes(2)]), rng.choice([None, 0, 2**64 - 1])))
    return damaged(rng, dagpb.spell(links, data if rng.random() < 0.95 else None))


def directory(rng, blocks, count):
    """Makes a directory of this many random nodes, and returns its name."""
    links = []
    for _ in range(count):
        block = random_node(rng)
        name = unixfs.node_name(block) if rng.random() < 0.97 else unixfs.leaf_name(block)
        if rng.random() < 0.98:
            blocks[name] = block if rng.random() < 0.98 else block + b"\x00"
        links.append((name, rng.randbytes(rng.randrange(4)), rng.randrange(2**64)))
    root = dagpb.spell(links, unixfs.spelled(unixfs.DIRECTORY))
    blocks[unixfs.node_name(root)] = root
    return unixfs.node_name(root)


def directories(turns, count):
    rng = random.Random(3)
    for _ in range(turns):
        blocks = {}
        root = directory(rng, blocks, count)
        yield ["ls", text_of(root)], file_of([root], blocks), listed(blocks, root)


def chain(count):
    """A leaf below one node less than this number. Each of these has one link."""
    content = b"deep"
    name, blocks = unixfs.leaf_name(content), {}
    blocks[name] = content
    for _ in range(count - 1):
        block = dagpb.spell([(name, b"", 4)], unixfs.spelled(unixfs.FILE, None, 4, [4]))
        name = unixfs.node_name(block)
        blocks[name] = block
    return name, blocks


def chains():
    for count in (1, 2, 255, 256, 257, 300):
        root, blocks = chain(count)
        right = wanted(blocks, root)
        assert (right[0] == 0) == (count <= unixfs.MOST_DEPTH)
        yield cat(root, "", blocks, right)


# ---- out of a store


def is_sound(block, name):
    """Returns true if a store takes it under this name."""
    try:
        return hashlib.sha256(block).digest() == name[-32:] and (unixfs.codec_of(name) != 0x70 or bool(dagpb.read(block)))
    except dagpb.Refused:
        return False


def sweep_stored(report, name, path, folder, rows):
    """Each row is a word, a root, blocks, and the right answer over a new store of these blocks."""
    wrong, count = [], 0
    for word, root, blocks, right in rows:
        store = f"{folder}/files.db"
        stored = running.answer([path, store, "import"], file_of([root], blocks))
        found = running.answer([path, store, word, text_of(root)])
        if stored[0] or found != right:
            wrong.append((count, stored[0], found[0], found[1][-80:], found[2]))
        count += 1
        running.remove_store(store)
    report(name, count, wrong)


def files_to_store(count):
    """Files of which a store takes each block that is there."""
    rng = random.Random(4)
    for _ in range(count):
        blocks = {}
        root, _ = node(rng, blocks, rng.randrange(1, 5))
        blocks = {name: block for name, block in blocks.items() if is_sound(block, name) and rng.random() < 0.97}
        yield "cat", root, blocks, wanted(blocks, root)


def nodes_to_store(turns, count):
    """Directories of which a store takes each block that is there. Some blocks have many links to them."""
    rng = random.Random(5)
    for _ in range(turns):
        blocks = {}
        first = directory(rng, blocks, count)
        links, data = dagpb.read(blocks[first])
        root_block = dagpb.spell(rng.choices(links, k=2 * count), data)
        root = unixfs.node_name(root_block)
        blocks = {name: block for name, block in blocks.items() if is_sound(block, name)} | {root: root_block}
        yield "ls", root, blocks, listed(blocks, root)


def sweep_store(path, folder, report):
    sweep_stored(report, "dagstore cat of random files", path, folder, files_to_store(300))
    sweep_stored(report, "dagstore ls of 20000 links to random nodes", path, folder, nodes_to_store(100, 100))


def sweep(path, folder, report):
    sweep_made(path, folder, report)
    sweep_named(path, folder, report)
    sweep_samples(path, report)
    running.sweep(report, "dagcar cat of random files", path, random_files(3000))
    running.sweep(report, "dagcar ls of 100000 random nodes", path, directories(100, 1000))
    running.sweep(report, "dagcar cat of chains of blocks", path, chains())
