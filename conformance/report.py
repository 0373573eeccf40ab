"""What was found about a peer, as text and as JSON."""

import json
from collections import Counter
from dataclasses import dataclass, field

import vectors
from verdicts import OUTCOMES, is_wrong, table


@dataclass
class Result:
    """What is said of the peer: a Judged for each vector; for a random run the smallest cases; and by the names of vectors, what came of
    them in an earlier run, which may come again."""

    about: dict
    judged: list = field(default_factory=list)
    smallest: list = field(default_factory=list)
    before: dict = field(default_factory=dict)

    def others(self):
        """What did not hold, and did not come so before."""
        return [it for it in self.judged if it.outcome not in ("held", self.before.get(it.vector["id"]))]

    def is_well(self):
        return bool(self.judged) and not self.others()

    def counts(self):
        return Counter(it.outcome for it in self.judged)


def text(result, most=20):
    counts, about = result.counts(), result.about
    lines = [f"{about['name']} {about.get('version', '')}".rstrip() + f": promises {about['promises']}"]
    lines.append("  " + ", ".join(f"{counts[it]} {it}" for it in OUTCOMES if counts[it]) + f"; of {len(result.judged)}")
    for group, row in table(result.judged).items():
        if set(row) != {"held"}:
            rest = ", ".join(f"{row[it]} {it}" for it in OUTCOMES if row[it] and it != "held")
            lines.append(f"  {group:12} {row['held']} of {sum(row.values())} held; {rest}")
    if result.before:
        held = sum(it.outcome == "held" and it.vector["id"] in result.before for it in result.judged)
        lines.append(f"  {len(result.others())} other than before; {held} that did not hold before do now")
    for kind in reversed(OUTCOMES):
        found = [it for it in result.others() if it.outcome == kind]
        lines += [f"    {it.line()}" for it in found[:most]]
        lines += [f"    .. and {len(found) - most} more {kind}"] if len(found) > most else []
    lines += ["  the smallest cases, each near one of these:"] if result.smallest else []
    lines += [f"    {it.line()}" for it in result.smallest]
    lines += [f"  {cause}: {'; '.join(rules)}" for cause, rules in broken(result.others()).items()]
    return "\n".join(lines)


def broken(judged):
    """For each of these causes, what it says, and by which standard."""
    index = vectors.index()
    found = {}
    for vector in (it.vector for it in reversed(judged) if "cause" in it.vector):
        causes = index["forms"].get(vector["group"], {"causes": index["causes"]})["causes"]
        rules = causes[vector["cause"]]["by"]
        found[vector["cause"]] = [" ".join([*([f"{it['standard']}, {it['section']}:"] if "standard" in it else []), it["says"]]) for it in rules]
    return found


MADE = ("short", "truncations", "random")


def as_table(results):
    """A table in Markdown of the vectors that are written out, and of how many cut blocks were taken."""
    lines = ["| Peer | DAG-CBOR forbids it | Not as RFC 8949 either, or no answer |", "|---|---|---|"]
    for result in results:
        counts = Counter(it.outcome for it in result.judged if it.vector["group"] not in MADE)
        counts["cut blocks taken"] = sum(it.vector["group"] == "truncations" and it.outcome != "held" for it in result.judged)
        loose = sum(counts[it] for it in OUTCOMES if it != "held" and not is_wrong(it))
        wrong = [f"{counts[it]:,} {it}" for it in counts if counts[it] and (it not in OUTCOMES or is_wrong(it))]
        said = f"{loose} | {', '.join(wrong) or 'none'}" if result.judged else f"{result.about.get('lack', 'not asked')} | "
        lines.append(f"| {result.about['name']} {result.about.get('version', '')} | {said} |")
    return "\n".join(lines) + "\n"


def as_json(results):
    return json.dumps([peer_json(it) for it in results], indent=1, ensure_ascii=False) + "\n"


def earlier(path):
    """From such a file, by the peer's name, what came of each vector that did not hold."""
    with open(path, encoding="utf-8") as file:
        return {peer["name"]: {it["id"]: it["outcome"] for it in peer["failures"]} for peer in json.load(file)}


def peer_json(result):
    return {
        **{key: it for key, it in result.about.items() if key != "commands"},
        "vectors": vectors.digest(),
        "counts": result.counts(),
        "groups": table(result.judged),
        "failures": [failure(it) for it in result.judged if it.outcome != "held"],
        "smallest": [failure(it) for it in result.smallest],
    }


def failure(judged):
    vector, answer = judged.vector, judged.answer
    rule = {key: vector[key] for key in ("bytes", "repeat", "verdict", "cause", "at", "kind", "level", "section") if key in vector}
    back = {"words": answer.words} if answer.block is None else {"came_back": answer.block[:600].hex(), "length": len(answer.block)}
    return {"id": vector["id"], "outcome": judged.outcome, "is_wrong_as_cbor": is_wrong(judged.outcome), **rule, **back}
