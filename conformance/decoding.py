"""Holds the function of Decode.antt, as decode.py has it, against the vectors, and plants mistakes in it, for `conformance/selftest`. Alone
it counts by how many of all vectors each mistake is told, and holds so many edited blocks against judge.py:

    python3 conformance/decoding.py [EDITED [SEED]]"""

import ast
import os
import random
import re
import sys
import time
import types

HERE = os.path.dirname(os.path.abspath(__file__))
ROOT = os.path.dirname(HERE)
sys.dont_write_bytecode = True
sys.path.insert(0, HERE)

import cars
import cidtexts
import dagjson
import fuzz
import vectors
from judge import WIDTHS, Link, spell
from vectors import VARIANTS, block_of

# ---- names: the definitions of the specs, and those of the two files

WHOLE = ("crates/dagcbor_decode/specs/Decode.antt", "crates/dagcbor_decode/specs/CidTest.antt")
OF_SPEC = re.compile(r"^(?: {2}| {4})?(?:abbrev |unfoldable )?(?:pub )?(\w[\w'-]*) : ", re.MULTILINE)  # constructors too, and no types
OF_PYTHON = re.compile(r"^(?:# ---- (crates/\S+|the standard library)$|(?:def )?(\w+)(?:\(| = ))", re.MULTILINE)


def read(path):
    with open(f"{ROOT}/{path}", encoding="utf-8") as file:
        return file.read()


def names_by_spec(source):
    """For each spec that a file names, the names that follow, without the `_` after those that Python has too."""
    found, spec = {}, None
    for section, name in OF_PYTHON.findall(source):
        spec = section or spec
        found.setdefault(spec, [])
        if name:
            found[spec].append(name.removesuffix("_"))
    return found


def other_names():
    """Tells where the two files have other names than the specs, or in another order. WHOLE specs must be there with all their names."""
    found = names_by_spec(read("conformance/decode.py")) | names_by_spec(read("conformance/decode_uses.py"))
    yield from (f"of {spec}: nothing" for spec in WHOLE if spec not in found)
    for spec, names in found.items():
        wanted = names if spec == "the standard library" else OF_SPEC.findall(read(spec)) if spec else []
        if names != (wanted if spec in WHOLE else [it for it in wanted if it in names]):
            differing = [it for it in (*wanted, *names) if (it in names) != (it in wanted)]
            yield f"of {spec}: {differing if spec in WHOLE and differing else f'another order, or other names: {names}'}"


# ---- vectors: for each its name, its block, and what it says of that

NAMES = {  # what a refusal names, by the cause; if a head tells it, by the head's major type
    "truncated": {b"any", b"u64", b"bytes", b"string", b"array", b"map", b"map key", b"tag", b"cid"},
    "invalid UTF-8": {b"string", b"map key"}, "key no text": {b"map key"}, "other tag": {b"CBOR tag", b"CBOR tag head"},
    "tag without bytes": {b"cid"}, "no CID": {b"Invalid CID"}, "simple value": {b"any"}, "float": {b"any"},
    "too deep": {b"any", b"array", b"map"},
}  # fmt: skip
OF_HEADS = [{b"u64"}, {b"any"}, {b"bytes", b"cid"}, {b"string", b"map key"}, {b"array"}, {b"map"}, set(), {b"any"}]


def stated():
    """All vectors of blocks; and of the vectors of what is around blocks, those in which a block is judged."""
    yield from ((it["id"], block_of(it), it) for it in vectors.subjects("blocks"))
    for it in (*vectors.subjects("paths"), *vectors.subjects("segments")):
        is_none = it.get("cause") == "no block"
        yield it["id"], block_of(it), {"verdict": "refused", "at": it["at"]} if is_none else {"verdict": "ok"}
    for it in vectors.load(["dag-json", "writing"]):
        if it["verdict"] == "ok":
            yield it["id"], bytes.fromhex(it["block"]), {"verdict": "ok"}
    for it in vectors.load(["files"]):
        yield from ((it["id"], block, said) for block, said in stated_in(block_of(it), it))


def stated_in(file, vector):
    """The header of a file, and its blocks under a name of DAG-CBOR."""
    if "behind" in vector or "block_cause" in vector:
        header = file[slice(*cars.counted_at(file, vector.get("span", [0])[0], len(file)))]
        yield header, {"verdict": "refused", "cause": vector["block_cause"]} if "block_cause" in vector else {"verdict": "ok"}
    for it in vector.get("sections", ()):
        word, _, what = it["verdict"].partition(" ")
        if what and word in ("ok", "refused"):
            yield file[it["block"] : it["end"]], {"verdict": word, "kind" if word == "ok" else "cause": what}


def printed():
    """What `crates/tests_types` says is printed for refusals: the bytes, and the whole message, with names and numbers."""
    source = read("crates/tests_types/src/tests/refusals.rt")
    rows = "".join(re.findall(r"^const (?:LEAVES|TREES|LINKS): .*?^\];$", source, re.MULTILINE | re.DOTALL))
    found = re.findall(r'\(\s*(b"[^"]*"),\s*(?:r#"(.*?)"#|"(\w+)"),?\s*\)', rows)
    assert len(found) == rows.count('b"') > 0
    for block, told, plain in found:
        yield ast.literal_eval(block), told or plain


# ---- what the function answers, compared with that

KINDS = {"boolean": "bool", "text": "string", "mapping": "map"}  # the words for which vectors and trees have different names


def differing(module, block, said):
    """What the function says differently from the vector: about the block, and about the item at its front."""
    whole, first = module.decode(block), module.decode_first(block)
    if whole[0] == "got":
        return "a block" if said["verdict"] != "ok" else "the first item" if first != whole else other_tree(module, block, whole[1], said)
    _, why, left = whole
    place = module.place_of(block, why, left)
    if said["verdict"] == "ok" or place != said.get("at", place) or (why[0] == "eof" and left):
        return f"{why}, at {place}"
    if why[0] != "trailing_data":
        return "the first item" if first != whole else other_why(block, why, place, said)
    is_before = first[0] == "got" and first[2] == block[place:] and spell(data_of(first[1])) == block[:place]
    return other_why(block, why, place, said) if is_before else "the first item"


def other_tree(module, block, tree, said):
    """What differs in the kind, the links, the spelling or the DAG-JSON."""
    kind, links, data = KINDS.get(tree[0], tree[0]), list(map(cidtexts.written, module.links_of(tree))), data_of(tree)
    if kind != said.get("kind", kind) or links != said.get("links", links):
        return f"{kind} {links}"
    is_same = spell(data) == block and ("dag_json" not in said or dagjson.to_json(data) == said["dag_json"])
    return None if is_same else f"{tree}"


def other_why(block, why, place, said):
    """What differs in the variant, in what is named, or in the byte that was found."""
    cause, name = said.get("cause"), why[1] if len(why) > 1 else None
    if cause and variant_of(why) != VARIANTS[cause]:
        return f"{why}"
    if why[0] in ("mismatch", "unsupported", "non_minimal"):
        at = place - WIDTHS.get(why[2] % 32, 0) if why[0] == "non_minimal" else place
        if block[at : at + 1] != bytes([why[2]]):
            return f"{why}"
    named = OF_HEADS[why[2] // 32] if cause in ("reserved", "non-minimal") else NAMES.get(cause, {None})
    return None if not cause or name in named else f"{why}"


def variant_of(why):
    return why[0].title().replace("_", "")


def data_of(tree):
    """The tree, as the data that judge.py has."""
    kind, *of = tree
    if kind == "list":
        return list(map(data_of, of[0]))
    if kind == "mapping":
        return {key.decode(): data_of(it) for key, it in of[0]}
    return {"null": lambda: None, "text": bytes.decode, "link": Link}.get(kind, lambda it: it)(*of)


def written(why):
    """As `Debug` prints it."""
    variant, words = variant_of(why), [it.decode() if isinstance(it, bytes) else it for it in why[1:]]
    if variant == "Msg":
        return f'Msg("{words[0]}")'
    fields = [f'name: "{words[0]}"'] if words else []
    if variant == "Eof":
        fields.append(f"expect: {words[1][0]}{f'({words[1][1]})' if words[1][1:] else ''}")
    elif words[1:]:
        fields.append(f"found: {words[1]}")
    return f"{variant} {{ {', '.join(fields)} }}" if fields else variant


def told_by(module, kept, rows):
    """The names of vectors, and the rows of printed messages, of which the function says something else."""
    found = [f"{name}: {it}" for name, block, said in kept if (it := differing(module, block, said))]
    answers = [(block, told, module.decode(block)) for block, told in rows]
    return found, [f"{block.hex()}: {it}" for block, told, it in answers if it[0] == "got" or written(it[1]) != told]


# ---- mistakes: the file, what is there, and what takes its place

MISTAKES = [
    ("decode", "2, 2**8, b", "2, 2**8 - 1, b"),
    ("decode", "i == 31: return", "i == 32: return"),
    ("decode", "if 87 < n", "if 88 < n"),
    ("decode", "item_of(256, b)", "item_of(255, b)"),
    ("decode", "first == 0xf6", "first in (0xf6, 0xf7)"),
    ("decode", "integer(-1 - n)", "integer(-n)"),
    ("decode", "first % 32 == 31", "first % 32 == 31 and first // 32 != 7"),
    ("decode", 'argument_of(b"u64"', 'argument_of(b"any"'),
    ("decode", 'mismatch(b"map key"', 'mismatch(b"string"'),
    ("decode", 'text_of(b"map key"', 'text_of(b"string"'),
    ("decode", 'eof(b"cid", len_of(1))', 'eof(b"tag", len_of(1))'),
    ("decode", "eof(name, len_of(n))", "eof(name, len_of(n - len(b)))"),
    ("decode", "non_minimal(name, first), len(rest))", "non_minimal(name, first), len(rest) + 1)"),
    ("decode", "require_utf8(name), len(rest))", "require_utf8(name), len(rest) + len(s))"),
    ("decode", "refused(trailing_data, len(rest))", "refused(trailing_data, 0)"),
    ("decode_uses", "(len(k), k) < (len(l), l)", "(len(k), k) <= (len(l), l)"),
    ("decode_uses", "(len(k), k) < (len(l), l)", "k < l"),
    ("decode_uses", "len(c.digest) < 65", "len(c.digest) < 64"),
    ("decode_uses", "return varint_groups(10, n)", "return varint_groups(9, n)"),
    ("decode_uses", "len(b) - left - 1", "len(b) - left"),
]


def made(name="", old="", new=""):
    """The two files as one module, with that mistake in one of them."""
    module = types.ModuleType("decoding")
    for it in ("decode", "decode_uses"):  # also in place of what the first file takes from the second
        source = read(f"conformance/{it}.py")
        assert it != name or source.count(old) == 1, old
        exec(compile(source.replace(old, new) if it == name else source, f"{it}.py", "exec"), vars(module))
    return module


def planted(kept, rows):
    """For each mistake, what it puts in, how many vectors tell it, and how many rows of printed messages."""
    for name, old, new in MISTAKES:
        yield new, *map(len, told_by(made(name, old, new), kept, rows))


EDITED = 20000


def differences():
    """All lines about what differs: names, vectors, printed messages, edited blocks; and mistakes that nothing tells."""
    kept, rows = list(stated()), list(printed())
    yield from other_names()
    for them in told_by(made(), kept, rows):
        yield from (f"by Decode.antt {it}" for it in them)
    short = [it for it in kept if it[0].split("/")[0] in vectors.index()["groups"] and len(it[1]) <= 600]
    yield from (f"Decode.antt: nothing tells: {new}" for new, count, named in planted(short, rows) if not count + named)
    yield from (f"by Decode.antt {it}" for it in told_by(made(), edited(EDITED, 1), [])[0])


def edited(count, seed):
    """Blocks of the vectors with a byte changed, put in or left out, or cut: this many, and what judge.py says of each."""
    rng = random.Random(seed)
    blocks = [it for it in map(block_of, vectors.load()) if 0 < len(it) <= 600]
    for number in range(count):
        block = fuzz.damaged(rng, rng.choice(blocks))
        yield f"edited/{seed}-{number} {block.hex()}", block, vectors.expected(block)


def main():
    count, seed = map(int, (*sys.argv[1:], *(EDITED, 1)[len(sys.argv) - 1 :]))
    begun, kept, rows = time.process_time(), list(stated()), list(printed())
    found = [*other_names(), *(line for them in told_by(made(), kept, rows) for line in them)]
    print(f"{len(kept)} vectors and {len(rows)} printed refusals in {time.process_time() - begun:.1f} s of processor, {len(found)} differ")
    for new, told, named in planted(kept, rows):
        print(f"  {new}: told by {told} vectors, {named} printed refusals")
    begun, (others, _) = time.process_time(), told_by(made(), edited(count, seed), [])
    print(f"{count} edited blocks in {time.process_time() - begun:.1f} s of processor, {len(others)} differ")
    for line in (found := [*found, *others]):
        print(line)
    return 1 if found else 0


if __name__ == "__main__":
    sys.exit(vectors.deeply(main))
