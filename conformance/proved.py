"""What the proved programs and the proved library say of blocks, in the words of a vector, to be compared with the judge."""

import json
import os
import subprocess
import sys
import tempfile
from concurrent.futures import ThreadPoolExecutor

import cars
import cidtexts
import dagjson
import dagpb
import known
from judge import Link, Refused, judge, links_of, spell, varint
from vectors import VARIANTS, block_of

ROOT = known.ROOT


def program(name):
    return os.environ.get(name.upper(), f"{ROOT}/{name}")


def lines_of(command, lines):
    ran = subprocess.run(command, input="".join(it + "\n" for it in lines), capture_output=True, text=True, check=True)
    return ran.stdout.split("\n")[:-1]


def wanted_check(said):
    return f"ok {said['kind']}" if said["verdict"] == "ok" else f"refused {VARIANTS[said['cause']]}"


def wanted_links(block):
    try:
        return " ".join(it.hex() for it in links_of(judge(block))) or "none"
    except Refused:
        return None


def by_checks(vectors):
    """Tells where `dagcbor check` and `dagcbor links` say something else."""
    blocks = [block_of(it) for it in vectors]
    lines = [it.hex() for it in blocks]
    checked = lines_of([program("dagcbor"), "check"], lines)
    linked = lines_of([program("dagcbor"), "links"], lines)
    assert len(checked) == len(linked) == len(vectors)
    for vector, block, verdict, links in zip(vectors, blocks, checked, linked):
        if wanted_check(vector) != verdict:
            yield f"{vector['id']}: the judge says {wanted_check(vector)}, dagcbor {verdict}"
        if vector["verdict"] == "ok" and wanted_links(block) != links:
            yield f"{vector['id']}: the judge has the links {wanted_links(block)}, dagcbor {links}"


def by_places(vectors, library):
    """Tells where the library has another place, another kind or other links, or spells the block in another way."""
    with tempfile.TemporaryDirectory() as folder:
        source, include = f"{known.HERE}/peers/library.c", f"{ROOT}/crates/dagcbor_ffi/include"
        subprocess.run(["cc", "-O1", source, "-I", include, library, "-o", f"{folder}/library"], check=True)
        answers = lines_of([f"{folder}/library"], [block_of(it).hex() for it in vectors])
    assert len(answers) == len(vectors)
    for vector, answer in zip(vectors, answers):
        if vector["verdict"] == "ok":
            block = block_of(vector)
            links = "".join(f" {it.hex()}" for it in links_of(judge(block)))
            wanted = f"ok {block.hex()} {vector['kind']}{links}"
        else:
            wanted = f"refused {VARIANTS[vector['cause']]} {vector['at']}"
        if wanted != answer:
            yield f"{vector['id']}: the judge says {wanted[:80]}, the library {answer[:80]}"


class Front(bytes):
    """How a refusal begins."""


def run(words, given):
    """What `dagcar` writes, or its refusal."""
    ran = subprocess.run([program("dagcar"), *words.split(" ", 2)], input=given, capture_output=True)
    if words == "check":  # it tells what is missing in the order of the file
        lines = ran.stdout.splitlines(True)
        return b"".join(sorted(lines, key=lambda it: (it.startswith(b"missing"), it if it.startswith(b"missing") else b"")))
    return ran.stdout or ran.stderr.split(b"\n")[0].rpartition(b"dagcar: ")[2]


def by_texts(vectors):
    """Tells where `dagcar show`, `name` or `make` say something else about a sound block."""
    sound = [it for it in vectors if it["verdict"] == "ok" and "dag_json" in it]
    asked = [row for it in sound for row in of_block(it)]
    yield from differing(asked)


def of_block(vector):
    block, text = block_of(vector), vector["dag_json"].encode()
    for word, given, wanted in (("show", block, text + b"\n"), ("name", block, vector["cid"].encode() + b"\n"), ("make", text, block)):
        yield vector["id"], word, given, wanted


def by_forms(vectors):
    """Tells where `dagcar` says something else about data for writers, a CID as text, a CAR file, DAG-JSON, DAG-PB or a path."""
    judged = {"files": of_file, "cid-texts": of_cid_text, "dag-pb": of_node, "paths": of_path}
    yield from differing([judged.get(it["group"], of_json)(it) for it in vectors if it["group"] != "segments" and not is_beyond(it)])


def is_beyond(vector):
    """Returns true for a path that no word of a command line can be, or that leads on from a link, or whose block is not one."""
    is_path = vector["group"] == "paths"
    return is_path and ("\0" in vector["path"] or vector["verdict"] == "refused" and vector.get("kind", "link") == "link")


def of_path(vector):
    """In a file of the block alone."""
    block = block_of(vector)
    name, given = cidtexts.written(cars.name(block)), cars.header() + cars.section(block)
    wanted = block[slice(*vector["span"])] if vector["verdict"] == "ok" else Front(f"{name} has nothing at ".encode())
    return vector["id"], f"at --raw {name}/{vector['path']}", given, wanted


def of_json(vector):
    given = vector["dag_json"].encode() if vector["group"] == "writing" else block_of(vector)
    if vector["verdict"] == "ok":
        return vector["id"], "make", given, bytes.fromhex(vector["block"])
    return vector["id"], "make", given, Front(f"refused {dagjson.VARIANTS[vector['cause']]} ".encode())


def of_cid_text(vector):
    """Within a link."""
    given = json.dumps({"/": vector["text"]}).encode()
    wanted = spell(Link(bytes.fromhex(vector["cid"]))) if vector["verdict"] == "ok" else Front(b"refused NoCid ")
    return vector["id"], "make", given, wanted


# The names of codecs that `dagcar` knows (multicodec table).
CODECS = {0x55: "raw", 0x70: "dag-pb", 0x71: "dag-cbor", 0x72: "libp2p-key", 0x129: "dag-json", 0x200: "json"}


def codec_of(text):
    """The name of a CID's codec: for version 0 it is dag-pb."""
    cid = cidtexts.read(text)
    return 0x70 if cid[0] == 0x12 else varint(varint(cid)[1])[0]


def missing_line(text):
    """The line for a name that leads nowhere, with its codec."""
    codec = codec_of(text)
    return f"missing {text} {CODECS.get(codec, f'codec {codec:#x}')}"


def program_verdict(section, file):
    """What the programs say of a section: also of blocks of DAG-PB, which the vectors leave to others, and of other codecs."""
    if section["verdict"] == "not read" and codec_of(section["cid"]) == 0x70:
        return dagpb.judged(file[section["block"] : section["end"]])[0]
    if section["verdict"] == "not read" and codec_of(section["cid"]) != 0x55:
        return "links not read"
    return cars.in_variants(section["verdict"])


def of_file(vector):
    file = block_of(vector)
    said = [f"{it['cid']} {program_verdict(it, file)}" for it in vector.get("sections", ())]
    if vector["verdict"] == "refused":
        said.append(f"refused {cars.VARIANTS[vector['cause']]}")
    said += sorted(map(missing_line, vector.get("missing", ())))
    return vector["id"], "check", file, "".join(f"{it}\n" for it in said).encode()


def of_node(vector):
    """As the one section of a file."""
    block = block_of(vector)
    cid = cars.name(block, 0x70)
    verdict, links = dagpb.judged(block)
    missing = {missing_line(cidtexts.written(it)) for it in links if it != cars.RAW}
    said = [f"{cidtexts.written(cid)} {verdict}", *sorted(missing)]
    return vector["id"], "check", cars.header() + cars.section(block, cid), "".join(f"{it}\n" for it in said).encode()


def differing(asked):
    """For a name, the words of `dagcar`, its input, and what it has to write, or the Front of that."""
    with ThreadPoolExecutor(os.cpu_count()) as pool:
        answers = pool.map(lambda row: run(row[1], row[2]), asked)
    for (name, word, _, wanted), answer in zip(asked, answers):
        if answer != wanted and not (isinstance(wanted, Front) and answer.startswith(wanted)):
            yield f"{name}: the judge has {wanted[:60]}, dagcar {word} {answer[:60]}"
