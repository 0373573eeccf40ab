"""The program `dagcar`, proved and built: files of the sections of others, of random files, and of what is left of them if
they are cut or a byte of them is changed; and several files as one.

What is wanted is found here by a reader of its own of the format (CARv1 specification); none is copied from a run."""

import hashlib
import os
import random
import subprocess
import tempfile

import running
from car_bytes import CODECS, cid, counted, header, lines_of, missing_line, parts_of, section, sections_of, text_of, varint, wrapped
from indexes import NOT_OPENED


def told(fault):
    return f"refused {fault}\n".encode() if fault else b""


def body_of(sections):
    return b"".join(counted(name + block) for name, block in sections)


def filtered(roots, file, at, given, keeps, sought=()):
    """What `filter` writes and says for a file of these roots, whose header ends at this place."""
    sections, fault = sections_of(file, at)
    kept = [(name, block) for name, block in sections if keeps(name)]
    out = counted(header(*(given or filter(keeps, roots)))) + body_of(kept)
    if fault:
        return 1, out, told(fault)
    missing = sorted(set(sought) - {name for name, _ in kept}, key=order)
    return int(bool(missing)), out, lines_of(map(missing_line, missing))


def order(name):
    """The order of names: by version, codec, hash and digest."""
    return name[:1] != b"\x12", *parts_of(name)[:3]


# ---- files


def random_file(rng):
    """The roots of a file, its bytes, and where its header ends."""
    blocks = [(rng.choice([*CODECS, 0x78]), rng.randbytes(rng.choice([0, 1, 3, 40, 200]))) for _ in range(rng.randrange(9))]
    sections = []
    for codec, block in blocks:
        name = rng.choice([cid(block, codec)] * 4 + [cid(b"other", codec), b"\x12\x20" + bytes(32), b"\x01\x55\x00\x02hi"])
        sections += [section(block, name=name)] * rng.choice([1, 1, 1, 2])
    rng.shuffle(sections)
    roots = [cid(block, codec) for codec, block in blocks if rng.random() < 0.4]
    first = counted(header(*roots))
    return roots, first + b"".join(sections), len(first)


def damaged(rng, file, at):
    """The file, the file cut, and the file with a changed byte after its header."""
    yield file
    if len(file) > at:
        yield file[: rng.randrange(at, len(file))]
        place = rng.randrange(at, len(file))
        yield file[:place] + bytes([file[place] ^ 1 << rng.randrange(8)]) + file[place + 1 :]
        yield file + varint(rng.randrange(1 << 63)) + b"\x00"
        yield file + b"\x80" * rng.randrange(1, 12)


def codec_words(rng, codec):
    return ["--codec", rng.choice([CODECS.get(codec, hex(codec)), hex(codec)])]


def root_words(roots):
    return [word for root in roots for word in ("--root", text_of(root))]


def by_codec(rng):
    for _ in range(120):
        roots, file, at = random_file(rng)
        codec = rng.choice([*CODECS, 0x78])
        given = rng.choice([[], [], [cid(b"a root"), cid(b"a root")]])
        words = ["filter", *root_words(given), *codec_words(rng, codec)]
        for it in damaged(rng, file, at):
            yield words, it, filtered(roots, it, at, given, lambda name, codec=codec: parts_of(name)[0] == codec)


def by_names(rng, folder):
    words = ["filter", "--names", f"{folder}/names"]
    for _ in range(120):
        roots, file, at = random_file(rng)
        names = [name for name, _ in sections_of(file, at)[0]]
        sought = rng.sample(names, rng.randrange(len(names) + 1))
        sought += rng.choice([[], [cid(b"away")], [cid(b"away"), b"\x12\x20" + bytes(32)]])
        rng.shuffle(sought)
        end = rng.choice([b"\n", b"\r\n"])
        lines = [text_of(name).encode() for name in sought]
        for it in damaged(rng, file, at):
            running.put(words[-1], b"".join(line + end for line in lines))
            yield words, it, filtered(roots, it, at, [], sought.__contains__, sought)
        if lines:
            place = rng.randrange(len(lines))
            lines[place] = rng.choice([b"", b"hello", lines[place] + b" "])
            if lines[place] in (b"", b"hello"):
                running.put(words[-1], b"".join(line + end for line in lines))
                yield words, file, (1, b"", f"line {place + 1}: no CID: UnknownBase\n".encode())


def is_right(name, block):
    """Returns true if the block is the one that the name says, by SHA-256 or inline."""
    _, code, digest, _ = parts_of(name)
    return digest == (hashlib.sha256(block).digest() if code == 0x12 else block if code == 0 else None)


def merged(files, given):
    """What `merge` writes and says for files, each given by its roots, its bytes and the end of its header."""
    roots, held, kept = given or dict.fromkeys(root for its, _, _ in files for root in its), set(), []
    for number, (_, file, at) in enumerate(files, 1):
        sections, fault = sections_of(file, at)
        for name, block in sections:
            if name not in held:
                kept.append((name, block))
                held |= {name} if is_right(name, block) else set()
        if fault:
            return 1, counted(header(*roots)) + body_of(kept), f"file {number}: ".encode() + told(fault)
    return 0, counted(header(*roots)) + body_of(kept), b""


def merges(folder, rng, count):
    """Two to four files, some of them twice, some damaged."""
    for _ in range(count):
        files = [random_file(rng) for _ in range(rng.randrange(2, 5))]
        if len(files) > 2:
            files[1] = files[0]
        at = rng.randrange(len(files))
        roots, file, end = files[at]
        files[at] = roots, rng.choice([file, *damaged(rng, file, end)]), end
        paths = [running.put(f"{folder}/{number}.car", file) for number, (_, file, _) in enumerate(files)]
        given = rng.choice([[], [], [cid(b"a root"), cid(b"a root")]])
        yield ["merge", *root_words(given), *paths], b"", merged(files, given)


# ---- split


def files_of(roots, sections, size):
    """The files of the parts of these sections, each within the size, or of one section."""
    parts = [counted(header(*roots))]
    first = len(parts[0])
    for it in sections:
        whole = body_of([it])
        if len(parts[-1]) == first or len(parts[-1]) + len(whole) <= size:
            parts[-1] += whole
        else:
            parts.append(parts[0][:first] + whole)
    return parts


def names_of(parts):
    return [f"part-{number}.car" for number in range(len(parts))]


def run_split(path, folder, words, before, given=b"", **how):
    """What a split answers in a folder with these files alone, and which files are there then."""
    for name in os.listdir(folder):
        os.remove(f"{folder}/{name}")
    for name, held in before.items():
        running.put(f"{folder}/{name}", held)
    found = running.answer([path, "split", *words], given, cwd=folder, **{"preexec_fn": running.short_of_memory} | how)
    return *found, {name: running.read(f"{folder}/{name}") for name in os.listdir(folder)}


def wanted_split(parts, before, fault):
    """What a split answers whose parts are these, for a file with this fault, if these files were there."""
    made, lines = dict(before), []
    for name, part in zip(names_of(parts), parts):
        if name in before:
            return 2, lines_of(lines), f"dagcar: there is a file {name}\n".encode(), made
        made[name] = part
        lines.append(name)
    return int(bool(fault)), lines_of(lines), told(fault), made


def wrong_splits(path, folder, rng, count):
    """The number of splits of files, some damaged, into new files, and those that did not answer as
    wanted."""
    found_wrong, runs = [], 0
    for _ in range(count):
        roots, whole, at = random_file(rng)
        given = rng.choice([[], [], [cid(b"a root"), cid(b"a root")]])
        size = rng.choice([1, at, at + 40, 200, 300, 1000, 1 << 20, (1 << 64) - 1])
        words = [*root_words(given), "--size", str(size)]
        for file in damaged(rng, whole, at):
            sections, fault = sections_of(file, at)
            parts = files_of(given or roots, sections, size)
            before = {"whole.car": file}
            if rng.random() < 0.3:
                before[rng.choice(names_of([*parts, b""]))] = b"of another"
            ran, wanted = run_split(path, folder, [*words, "whole.car", "part"], before), wanted_split(parts, before, fault)
            joined = b"".join(part[len(counted(header(*(given or roots)))) :] for part in parts)
            if ran != wanted or joined != body_of(sections):
                found_wrong.append((words, *zip(ran[:3], wanted[:3])))
            runs += 1
    return runs, found_wrong


def without_output():
    """Leaves no standard output to a program: the first file that it opens for itself could take that place."""
    running.short_of_memory()
    os.close(1)


def wrong_devices(path, folder):
    """Splits from standard input, of a file that is not there, to a full device or a closed one, and beside files that cannot be made."""
    first, one, two = counted(header(cid(b"a", 0x55))), section(b"a", 0x55), section(bytes(120), 0x55)
    file, failed, other = first + one + two, b"dagcar: output failed\n", {"part-1.car": b"of another"}
    both, split = b"part-0.car\npart-1.car\n", {"part-0.car": first + one, "part-1.car": first + two}
    alone, little = {"part-0.car": first + one}, {"preexec_fn": running.short_of_disk(150)}
    runs = [
        ("-", "part", {}, file, {}, (0, both, b"", split)),
        ("away", "part", {}, b"", {}, (*NOT_OPENED, {})),
        ("-", "away/part", {}, file, {}, (2, b"", failed, {})),
        ("-", "part", {}, first[:9], {}, (1, b"", b"refused Truncated\n", {})),
        ("-", "part", {}, file, little, (2, b"part-0.car\n", failed, alone)),
        ("-", "part", {}, file, {"preexec_fn": without_output}, (2, b"", failed, alone)),
        ("-", "part", other, first, {}, (0, b"part-0.car\n", b"", {"part-0.car": first, **other})),
    ]
    found = [run_split(path, folder, ["--size", "100", of, to], before, given, **how) for of, to, before, given, how, _ in runs]
    found_wrong = [(ran, row) for ran, row in zip(found, runs) if ran != row[-1]]
    with open("/dev/full", "wb") as full:
        how = {"capture_output": False, "stdout": full, "stderr": subprocess.PIPE}
        status, _, err, there = run_split(path, folder, ["--size", "100", "whole.car", "part"], {"whole.car": file}, **how)
    if (status, err, there) != (2, failed, {"whole.car": file, **alone}):
        found_wrong.append(("a full output", status, err, there))
    return len(runs) + 1, found_wrong


def headers():
    """Bytes that do not begin a file, and a file of version 2."""
    words, first = ["filter", "--codec", "raw"], counted(header(cid(b"a", 0x55)))
    file = first + section(b"a", 0x55) + section(b"\x01")
    for end in range(len(first)):
        yield words, file[:end], (1, b"", b"refused Truncated\n")
    second = wrapped(file, bytes(9), b"behind", characteristics=bytes(16))
    yield words, second, (0, first + section(b"a", 0x55), b"")


def sweep(path, folder, report):
    rng, little = random.Random(11), {"preexec_fn": running.short_of_memory}
    running.sweep(report, "dagcar, filter by a codec", path, by_codec(rng), folder, **little)
    running.sweep(report, "dagcar, filter by names", path, by_names(rng, folder), folder, **little)
    running.sweep(report, "dagcar, filter, where a file begins", path, headers(), folder, **little)
    running.sweep(report, "dagcar merge", path, merges(folder, rng, 400), **little)
    with tempfile.TemporaryDirectory() as made:
        report("dagcar split", *wrong_splits(path, made, rng, 150))
        report("dagcar split, devices", *wrong_devices(path, made))
    away = f"{folder}/away"
    rows = [["filter", "--codec", "raw", away], ["filter", "--names", away, f"{folder}/given"]]
    running.sweep(report, "dagcar filter, no file", path, [(words, b"", NOT_OPENED) for words in rows])
