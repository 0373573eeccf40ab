"""The vectors: the bytes of grammar.py with what the judge says of them, as lines of JSON; and the vectors that are made from them."""

import functools
import hashlib
import itertools
import json
import math
import os
import struct
import sys
import threading

import cars
import cbor
import cidtexts
import dagjson
import dagpb
import forms
import grammar
import paths
import standards
from judge import CAUSES, KINDS, PROFILES, TOKENS, VARIANTS, Link, causes, head, judge, links_of, parts_of, spell, tokens

HERE = os.path.dirname(os.path.abspath(__file__))
FOLDER = f"{HERE}/vectors"
# What the standards leave open, or implementations do. A vector of such a question holds with either verdict.
OPEN = {
    "floats": "DAG-CBOR has floats of 64 bits, neither NaN nor infinite; a codec may have none: open where it names no profile",
    "depth": "no standard says how many lists and maps a codec follows; above 32 either verdict holds",
    "digests": cidtexts.OPEN["digests"],
    "varints": cidtexts.OPEN["varints"],
    "integers": "data models of 64-bit signed integers have no integer beyond these",
}
FIELDS = {
    "id": "the name, which stays",
    "bytes": "hexadecimal",
    "repeat": "of long ones, in place of `bytes`: pairs of hexadecimal and how often, one behind the other",
    "verdict": "ok or refused",
    "kind": "null, bool, integer, string, bytes, list, map or link; with floats also float",
    "dag_json": "the data as DAG-JSON; not of long ones, nor with floats, nor where a map has the key that DAG-JSON keeps",
    "links": "the CIDs in the block, in its order, repeats kept",
    "cid": "the block's name: version 1, DAG-CBOR, SHA-256",
    "cause": "the first fault, a key of `causes`; `variants` has the proved library's name of it",
    "at": "the offset of the byte with which that fault is told: of a head its first, or its last for `non-minimal` and a CID that is too long; of a payload its last; for `too deep` the last before the item; of cut ones the length",
    "also": "other causes that stand at the same byte: each may be told",
    "without_bounds": "the cause and the offset for a codec that bounds neither depth nor digests",
    "level": "what the bytes are by RFC 8949, a key of `levels`",
    "open": "a key of `open`: then either verdict holds; but what is taken and written again must be the same bytes",
    "with_floats": "what is said in the profile `floats`, in place of all between the bytes and here; else it is said in both profiles",
    "tokens": "the heads in the order of the bytes, as kind:number:place, of at most 40: a kind of `tokens`; the integer (-1 - n for `negative`), the bool, the count or the length; where a payload begins, or what stands behind the head; of refused bytes those that stand whole before `at`",
    "why": "why it is interesting",
    "section": "the standard's section",
}
FORM_FIELDS = {
    "text": "the bytes as text, where they are one",
    "path": "a path in the block, as a text; or `segments`, of which each is taken whole",
    "span": "where the item to which it leads begins and ends; of a text that leads to none the last item on the way, behind `passed` bytes of the text; of a file of version 2 that of version 1 in it",
    "cid": "of a text the binary CID, in hexadecimal; `written` is how it is written by default",
    "block": "of DAG-JSON the block of its data, in hexadecimal; `written` is its one spelling",
    "dag_json": "for writers: what is to be written as a block; `loose` is the same as CBOR that DAG-CBOR forbids, for a codec that reads such",
    "cause": "the first fault, a key of the group's `causes`; of a file `at` is where what is faulty begins, and `block_cause` why a header is no block; of a path why its block is none, told at `at`",
    "node": "of a sound block of DAG-PB each link: its `hash`, its `name` in hexadecimal, its `tsize`; `links` has the hashes alone, and `data` the data in hexadecimal, where there is some",
    "at": "where what is wrong begins: of DAG-PB a number, a tag or a CID",
    "roots": "the roots; `behind` is where the first section begins",
    "sections": "those before a fault: where each begins, its CID, where its block begins, where it ends, and what is said of the block",
    "missing": "of a whole file the roots and links that lead to no verified block, in the order of their binary forms; a CID by the identity holds its block",
    "open": "a key of the group's `open`: then either verdict holds, but what is taken is as it is said here",
    "with_floats": "what is said in the profile `floats`",
}
LEVELS = {
    "not well-formed": "no CBOR at all (RFC 8949, 3)",
    "not valid": "well-formed, and not valid (RFC 8949, 5.3.1): a text that is not UTF-8",
    "repeated keys": "well-formed, and not valid: a repeated key, which a decoder may leave to its caller (RFC 8949, 5.6)",
    "CBOR": "valid CBOR, which DAG-CBOR forbids",
}
FEW_LEVELS = 32


def deeply(call):
    """Calls it with a limit of recursion of 100,000 levels."""
    answers = []
    sys.setrecursionlimit(1 << 20)
    threading.stack_size(1 << 30)
    thread = threading.Thread(target=lambda: answers.append(call()))
    thread.start()
    thread.join()
    return answers[0] if answers else 1


def levels(data):
    return 1 + max(map(levels, parts_of(data)), default=0) if isinstance(data, (dict, list)) else 0


def leaves(data):
    return [it for part in parts_of(data) for it in leaves(part)] if isinstance(data, (dict, list)) else [data]


def question(data):
    """The open question about a sound block, or None."""
    if any(map(cidtexts.has_long_varint, links_of(data))):
        return "varints"
    if any(type(it) is int and not -(2**63) <= it < 2**63 for it in leaves(data)):
        return "integers"
    return "depth" if levels(data) > FEW_LEVELS else None


FLOAT = 0xFB  # without that byte both profiles say the same
BOUNDLESS = {"deepest": math.inf, "most_digest": math.inf}
# For a cause, the open question, and what to ask the judge for the other answer.
ASKED = {"float": ("floats", {"floats": True}), "too deep": ("depth", BOUNDLESS), "no CID": ("digests", BOUNDLESS)}


def expected(block):
    """What the judge says, in the words of a vector: without floats, and with them if that differs."""
    said = expected_in(block, False)
    other = expected_in(block, True) if FLOAT in block else said
    return said if said == other else said | {"with_floats": other}


def expected_in(block, floats):
    refused = causes(block, floats=floats)
    if refused:
        said = refusal(block, refused, floats)
        told = said.get("without_bounds", said)["cause"]
        is_known = said.get("open") == "depth" or told == "truncated"  # and need not be gone through again
        level = cbor.level(block) if not is_known else "not well-formed" if told == "truncated" else "CBOR"
        return said | {"level": level}
    data = judge(block, floats=floats)
    assert spell(data) == block
    said = {"verdict": "ok", "kind": KINDS[type(data)], "links": [cidtexts.written(it) for it in links_of(data)]}
    said |= {"cid": cidtexts.written(dagjson.name(block))} | ({"open": it} if (it := question(data)) else {})
    return said | {"dag_json": dagjson.to_json(data)} if has_text(data) and len(block) <= 600 else said


def refusal(block, refused, floats):
    said = {"verdict": "refused", "cause": refused.cause, "at": refused.place} | ({"also": refused.also} if refused.also else {})
    if refused.cause not in ASKED:
        return said
    question, words = ASKED[refused.cause]
    other = causes(block, **{"floats": floats, **words})
    if other is None:
        return said | {"open": question}
    is_other = words is BOUNDLESS and (other.cause, other.place) != (refused.cause, refused.place)
    return said | ({"without_bounds": {"cause": other.cause, "at": other.place}} if is_other else {})


def has_text(data):
    """Returns true if its DAG-JSON is beyond doubt: no map has the key that is kept for links, and nothing is a float."""
    if isinstance(data, float) or (isinstance(data, dict) and "/" in data):
        return False
    return all(map(has_text, parts_of(data)))


def in_profile(vector, profile):
    """The vector as it holds for a codec of that profile; if the codec names none, a float is an open question."""
    if profile == "floats" and "with_floats" in vector:
        kept = {key: it for key, it in vector.items() if key not in SAID}
        return kept | vector["with_floats"]
    if profile is None:
        return vector
    others = ("with_floats", "open") if vector.get("open") == "floats" else ("with_floats",)
    return {key: it for key, it in vector.items() if key not in others}


# What is said of the bytes, in a profile.
SAID = ("verdict", "cause", "at", "also", "without_bounds", "level", "kind", "links", "cid", "dag_json", "open", "with_floats")


def packed(block):
    """`bytes` in hexadecimal; for long ones `repeat`: pairs of hexadecimal and how often."""
    if len(block) <= 600:
        return {"bytes": block.hex()}
    parts = []
    for byte, run in itertools.groupby(block):
        count = len(list(run))
        if count < 9 and parts and parts[-1][1] == 1:
            parts[-1][0] += bytes([byte]).hex() * count
        else:
            parts.append([bytes([byte]).hex() * count, 1] if count < 9 else [bytes([byte]).hex(), count])
    return {"bytes": block.hex()} if len(parts) > 9 else {"repeat": parts}


def block_of(vector):
    if "bytes" in vector:
        return bytes.fromhex(vector["bytes"])
    return b"".join(bytes.fromhex(part) * count for part, count in vector["repeat"])


def made():
    """All vectors of the grammar, anew."""
    for group, (rows, _) in grammar.GROUPS.items():
        for slug, block, why, section in rows():
            heads = tokens(block) if len(block) <= 600 else None
            is_short = heads is not None and len(heads) <= 40
            told = {"tokens": ",".join(f"{kind:d}:{number:d}:{place}" for kind, number, place in heads)} if is_short else {}
            yield {"id": f"{group}/{slug}", "group": group, **packed(block), **expected(block), **told, "why": why, "section": section}


# What stands around blocks: its rows, what judges it, and what it is.
FORMS = {
    "paths": (forms.paths, paths, "what a path leads to in a block, as a text"),
    "segments": (forms.segments, paths, "the same, of a list of segments, of which each is taken whole"),
    "cid-texts": (forms.cid_texts, cidtexts, "CIDs as text: bases, letters, padding bits"),
    "files": (forms.files, cars, "CAR files of both versions: headers, offsets, cuts, other bytes"),
    "dag-json": (forms.json_texts, dagjson, "DAG-JSON, to be read"),
    "dag-pb": (forms.nodes, dagpb, "blocks of DAG-PB: fields, orders, numbers, cuts"),
}


def made_forms():
    """All vectors of these, anew."""
    for group, (rows, judged, _) in FORMS.items():
        for slug, given, why, section in rows():
            yield {"id": f"{group}/{slug}", "group": group, **of_given(given), **judged.expected(given), "why": why, "section": section}


def of_given(given):
    """The bytes of a row; and the text, the path or the segments."""
    if isinstance(given, tuple):
        return packed(given[0]) | {"path" if isinstance(given[1], str) else "segments": given[1]}
    return packed(given.encode()) | {"text": given} if isinstance(given, str) else packed(given)


# In each list, map and link of the other groups this many paths are asked for, and one in each that is refused.
FEW_PATHS = {"paths": ("", "0", "1/0", "a", "a/a"), "segments": ([], [""], ["0"], ["1", "0"], ["a"], ["a", "a"], ["", ""])}


def paths_in(vectors, name):
    for it in vectors:
        block, is_block = block_of(it), it["verdict"] == "ok"
        are_asked = FEW_PATHS[name] if not is_block or it["kind"] in ("list", "map", "link") else ()
        for number, path in enumerate(are_asked if is_block else are_asked[2:3]):
            yield {"id": f"{name}/{it['id'].replace('/', '-')}-{number}", "group": name, **of_given((block, path)), **paths.expected((block, path))}


@functools.cache
def subjects(name):
    """The vectors of a subject: blocks, with those that are made from them, or what stands around them."""
    if name == "blocks":
        kept = list(load())
        return [*kept, *truncations(kept), *load_short()]
    if name == "to-dag-json":
        return [{**it, "id": f"{name}/{it['id'].replace('/', '-')}", "group": name} for it in load() if "dag_json" in it]
    kept = list(load([name]))
    return [*kept, *paths_in((it for it in load() if "tokens" in it), name)] if name in FEW_PATHS else kept


def line_of(vector):
    """The line that asks for it."""
    if vector["group"] == "writing":
        return vector.get("line", vector["dag_json"])
    block = block_of(vector).hex()
    if "path" in vector:
        return f"{block or '-'} {vector['path'].encode().hex() or '-'}"
    if "segments" in vector:
        return f"{block or '-'} {'/'.join(it.encode().hex() or '-' for it in vector['segments']) or '/'}"
    return block


def for_writers(vectors, is_loose, cannot):
    """The vectors for writers that can be asked. If the peer takes the loose form, those that have one are handed over in it, in place of
    the text; and vectors that cannot be handed over are left out."""
    if not is_loose:
        return [it for it in vectors if it.get("cause") not in cannot]
    return [{**it, "line": it["loose"]} for it in vectors if it.get("loose") not in (None, it.get("block"))]


# What can be asked of a peer, and a line for each that a peer answers with `ok`.
SUBJECTS = {
    "blocks": "f6", "writing": "null", "cid-texts": b"bafkqaaa".hex(), "files": "19a265726f6f747381d82a4500015500006776657273696f6e01",
    "dag-json": b"null".hex(), "to-dag-json": "f6", "paths": "f6 -", "segments": "f6 /", "dag-pb": "0a020801",
}  # fmt: skip

# The groups of all vectors that are asked, but for random ones.
GROUPS = (*grammar.GROUPS, "short", "truncations", *FORMS, "writing", "to-dag-json")


def written():
    """For writers: data as DAG-JSON, with the keys of maps in other orders, and its one spelling; or data that has none."""
    for slug, text, why, section in forms.writing():
        said = dagjson.expected(text)
        said.pop("written", None)  # the data counts here, and not how it is told
        if said.get("open") == "spelling":
            del said["open"]
        said |= {"loose": loose(dagjson.json_of(text), slug in WIDE).hex()} if "block" in said.get("with_floats", said) else {}
        yield {"id": f"writing/{slug}", "group": "writing", "dag_json": text, **said, "why": why, "section": section}


# Those whose heads are wide in the loose form; of the others the keys' order is at stake.
WIDE = ("integers", "texts", "heads-of-texts", "heads-of-lists", "heads-of-bytes")


def loose(value, is_wide):
    """The same data as CBOR that DAG-CBOR forbids: with wide heads, or the keys in the text's order; floats that are exact in 16 bits in
    so many."""
    put = (lambda major, argument: grammar.wide(major, argument, 8 if major < 2 else 4)) if is_wide else head
    if isinstance(value, dagjson.Number):
        half = float(value) in (1.5, -2.5)
        return (b"\xf9" + struct.pack(">e", float(value))) if half else b"\xfb" + struct.pack(">d", float(value))
    if isinstance(value, dagjson.Members) and any(key == "/" for key, _ in value):
        data = dagjson.reserved(value)
        return spell(data) if isinstance(data, Link) else put(2, len(data)) + data
    if isinstance(value, dagjson.Members):
        return put(5, len(value)) + b"".join(loose(key, is_wide) + loose(it, is_wide) for key, it in value)
    if isinstance(value, list):
        return put(4, len(value)) + b"".join(loose(it, is_wide) for it in value)
    if isinstance(value, str):
        return put(3, len(value.encode())) + value.encode()
    if type(value) is int:
        return put(0, value) if value >= 0 else put(1, -1 - value)
    return spell(value)


def short():
    """All byte strings of at most two bytes, as runs with one verdict: first, last, and the verdict; for refused ones the causes, the
    first of them before the place, and the others after it. For the profile `floats`, those with another verdict."""
    said = {block: both_short(block) for block in all_short()}
    other = {block: with_floats for block, (without, with_floats) in said.items() if with_floats != without}
    return {"runs": runs_of({block: without for block, (without, _) in said.items()}), "with_floats": runs_of(other)}


def both_short(block):
    return expected_short(block, False), expected_short(block, FLOAT in block)


def all_short():
    return [bytes(digits) for length in range(3) for digits in itertools.product(range(256), repeat=length)]


def runs_of(said):
    """For blocks in order, each the next number: pairs of the first and the last with one verdict, and the verdict."""
    runs, behind = [], None
    for block, verdict in said.items():
        if (len(block), int.from_bytes(block, "big")) != behind or runs[-1][2:] != list(verdict):
            runs.append([block.hex(), "", *verdict])
        runs[-1][1], behind = block.hex(), (len(block), int.from_bytes(block, "big") + 1)
    return runs


@functools.cache
def expected_short(block, floats):
    refused = causes(block, floats=floats)
    if not refused:
        return ("ok", KINDS[type(judge(block, floats=floats))])
    return ("refused", refused.cause, refused.place, *refused.also)


def files(kept):
    """The contents of the folder, for these vectors: the name of each file, and its text."""
    every = [*kept, *made_forms(), *written()]
    assert len({it["id"] for it in every}) == len(every) and all(standards.places(it["section"]) is not None for it in every)
    texts = {f"{group}.jsonl": lines(it for it in every if it["group"] == group) for group in (*grammar.GROUPS, *FORMS, "writing")}
    index = {
        "groups": {group: why for group, (_, why) in grammar.GROUPS.items()},
        "counts": {group: sum(it["group"] == group for it in kept) for group in grammar.GROUPS},
        "fields": FIELDS, "standards": standards.index(), "causes": standards.worded(CAUSES),
        "variants": VARIANTS, "profiles": PROFILES, "tokens": TOKENS, "open": OPEN, "levels": LEVELS,
        "forms": {
            group: {"what": why, "causes": standards.worded(judged.CAUSES), "variants": judged.VARIANTS, "open": judged.OPEN}
            for group, (_, judged, why) in {**FORMS, "writing": (None, dagjson, "data for writers, as DAG-JSON")}.items()
        },
        "form_fields": FORM_FIELDS,
    }  # fmt: skip
    return texts | {
        "short.json": json.dumps(short()).replace(" [[", "\n[[").replace(" [", "\n[") + "\n",
        "index.json": json.dumps(index, indent=1, ensure_ascii=False) + "\n",
    }


def lines(vectors):
    return "".join(json.dumps(it, ensure_ascii=False) + "\n" for it in vectors)


def load(groups=grammar.GROUPS):
    """The vectors of the folder, of blocks or of other groups, in their order."""
    for group in groups:
        with open(f"{FOLDER}/{group}.jsonl", encoding="utf-8") as file:
            yield from map(json.loads, file)


@functools.cache
def index():
    """What is said of all vectors: groups, causes and the rules that they break, and more."""
    with open(f"{FOLDER}/index.json", encoding="utf-8") as file:
        return json.load(file)


@functools.cache
def digest():
    """Which data this is: the first 12 digits of the SHA-256 of its files, one after another in the order of their names."""
    found = hashlib.sha256()
    for name in sorted(os.listdir(FOLDER)):
        with open(f"{FOLDER}/{name}", "rb") as file:
            found.update(file.read())
    return found.hexdigest()[:12]


def load_short():
    """The blocks of at most two bytes."""
    with open(f"{FOLDER}/short.json", encoding="utf-8") as file:
        kept = json.load(file)
    other = dict(each_of(kept["with_floats"]))
    for block, said in each_of(kept["runs"]):
        yield of_short(block, said, other.get(block, said))


def each_of(runs):
    for first, last, *said in runs:
        for number in range(int(first or "0", 16), int(last or "0", 16) + 1):
            yield number.to_bytes(len(first) // 2, "big"), said


def of_short(block, said, with_floats):
    words = {"id": f"short/{block.hex() or 'none'}", "group": "short", "bytes": block.hex(), **in_words(block, *said)}
    return words if said == with_floats else words | {"with_floats": in_words(block, *with_floats)}


def in_words(block, verdict, what, place=None, *also):
    if verdict == "ok":
        return {"verdict": verdict, "kind": what}
    return {"verdict": verdict, "cause": what, "at": place, "level": cbor.level(block)} | ({"also": list(also)} if also else {})


def every_short():
    """The same, of the judge, anew."""
    for block in all_short():
        yield of_short(block, *both_short(block))


def truncations(vectors, most=100):
    """Each sound vector of at most this many bytes, cut at each byte: no beginning of a block is a block."""
    for vector in vectors:
        is_sound = vector["verdict"] == "ok"
        if (is_sound or in_profile(vector, "floats")["verdict"] == "ok") and len(block_of(vector)) <= most:
            for cut in range(len(block_of(vector))):
                block = block_of(vector)[:cut]
                said = {"id": f"truncations/{vector['id'].replace('/', '-')}-{cut}", "group": "truncations", "bytes": block.hex()}
                is_cut = {"verdict": "refused", "cause": "truncated", "at": cut, "level": "not well-formed"}
                yield said | (is_cut if is_sound else expected(block))
