"""What an answer is worth, vector by vector."""

from collections import Counter
from dataclasses import dataclass

import cbor
from judge import VARIANTS, WIDTHS
from vectors import block_of, in_profile, line_of

# What may come of a vector, from the best to the worst, and if it is wrong by RFC 8949 too.
OUTCOMES = {
    "held": (False, "as the vector wants"),
    "not strict": (False, "took CBOR that DAG-CBOR forbids, repeated keys too"),
    "respelled": (False, "wrote other bytes for the same data"),
    "other cause": (False, "refused it, and told a cause or a place that does not stand there"),
    "refused": (True, "refused a sound block"),
    "other data": (True, "wrote other data than it read"),
    "not UTF-8": (True, "took a text that is not UTF-8"),
    "malformed": (True, "took what is no CBOR"),
    "memory": (True, "wanted more memory than it may have"),
    "not asked": (True, "was asked no more, after many hangs"),
    "hang": (True, "gave no answer in time"),
    "crash": (True, "ended without an answer"),
}
NO_ANSWER = ("crash", "hang", "memory", "not asked")
OF_LEVEL = {"CBOR": "not strict", "repeated keys": "not strict", "not valid": "not UTF-8", "not well-formed": "malformed"}


@dataclass
class Judged:
    vector: dict
    outcome: str
    answer: object

    def line(self):
        block = self.vector.get("dag_json" if self.vector["group"] == "writing" else "bytes") or "..".join(f"{part}*{count}" for part, count in self.vector.get("repeat", []))
        rule = self.vector.get("cause") or f"a sound {self.vector.get('kind', 'block')}"
        back = self.answer.block.hex() if self.answer.block is not None else self.answer.words
        return f"{self.vector['id']}: {self.outcome}; {rule}; {shortened(block)} -> {self.answer.how} {shortened(back)}"


def shortened(text):
    return text if len(text) <= 60 else f"{text[:40]}..{text[-12:]}"


def is_told(vector, words):
    """Returns true if the words are a cause that stands in the vector, by its own name or the proved library's, and perhaps its place:
    without a profile, in either one."""
    either = [vector, in_profile(vector, "floats")] if "with_floats" in vector else [vector]
    return any(stands(it, words) for it in either if it["verdict"] == "refused")


def stands(vector, words):
    name, _, place = words.rpartition(" ") if words.rpartition(" ")[2].isdigit() else (words, "", "")
    named = {cause for cause, variant in VARIANTS.items() if name in (cause, variant)}
    also, at = vector.get("also", []), vector["at"]
    is_bound = vector.get("open") == "digests" or "no CID" in also
    if named & {"too deep", *(["no CID"] if is_bound else [])} & {vector["cause"], *also}:
        return True  # each codec sets the place of a bound itself
    all_there = [(it, at) for it in (vector["cause"], *also)]
    all_there += [("non-minimal", end_of_head(vector))] if "non-minimal" in also else []
    all_there += [(it["cause"], it["at"]) for it in [vector.get("without_bounds")] if it]
    return any(cause in named and place in ("", str(at)) for cause, at in all_there)


def end_of_head(vector):
    """The place of the last byte of the head that begins where the fault is told."""
    at = vector["at"]
    return at + WIDTHS.get(block_of(vector)[at] & 31, 0)


def outcome(vector, answer, cannot=(), tells=False):
    """`cannot` has causes that the peer's calls, by design, do not tell; and `links`, if it has no tags. `tells` says that its
    refusals name causes."""
    if answer.how == "memory" and vector["group"] == "depth":
        return "held"  # no room for more levels: a refusal
    if answer.how in NO_ANSWER:
        return answer.how
    if answer.how == "refused":
        if vector["verdict"] == "refused":
            return "held" if not tells or is_told(vector, answer.words) else "other cause"
        return "held" if "open" in vector or ("links" in cannot and vector.get("links")) else "refused"
    if vector["verdict"] == "refused" and "open" not in vector:
        return "not strict" if vector["cause"] in cannot else OF_LEVEL[vector.get("level", "CBOR")]
    if vector["group"] in WORDS:
        return outcome_of_words(vector, answer.words)
    if answer.block is None:
        said, is_writer = answer.words.split(" ")[0], vector["group"] == "writing"
        return "held" if said in ("", vector.get("kind", said)) and not is_writer else "other data"
    block = block_of(vector) if vector["group"] != "writing" else written_block(vector)
    if answer.block == block or block is None:
        return "held"
    return "respelled" if cbor.same_data(answer.block, block) else "other data"


def held_against(peer, vectors, cannot=(), tells=False, profile=None):
    """A Judged for each vector."""
    vectors = [in_profile(it, profile) for it in vectors]
    answers = peer.answers(list(map(line_of, vectors)))
    return [Judged(vector, outcome(vector, answer, cannot, tells), answer) for vector, answer in zip(vectors, answers)]


def written_block(vector):
    """The block that a writer has to write; or None, if it is open and not said."""
    block = vector.get("block", vector.get("with_floats", {}).get("block"))
    return block and bytes.fromhex(block)


# What a peer answers after `ok` about what stands around blocks: a word or two, the second of which it may leave out.
WORDS = {
    "cid-texts": lambda it: [it["cid"], it["written"]],
    "files": lambda it: [",".join(it["roots"]) or "-", ",".join(one["cid"] for one in it["sections"]) or "-"],
    "dag-json": lambda it: [it["block"]],
    "dag-pb": lambda it: [",".join(it["links"]) or "-", it.get("data", "") or "-"],
    "paths": lambda it: [block_of(it)[it["span"][0] : it["span"][1]].hex()],
    "segments": lambda it: [block_of(it)[it["span"][0] : it["span"][1]].hex()],
    "to-dag-json": lambda it: [it["dag_json"].encode().hex()],
}


def outcome_of_words(vector, words):
    """For what a peer took: the same words, or the first of them."""
    said = vector if vector["verdict"] == "ok" else vector.get("with_floats", vector)
    try:
        wanted = WORDS[vector["group"]](said)
    except KeyError:
        return "held"  # it is open if it is taken, and not said how
    told = words.split()
    return "held" if told and told == wanted[: len(told)] else "other data"


def table(judged):
    """How often each outcome came, by group."""
    groups = {}
    for it in judged:
        groups.setdefault(it.vector["group"], Counter())[it.outcome] += 1
    return groups


def is_wrong(outcome):
    return OUTCOMES[outcome][0]
