"""Every call of the package, over random objects, and over random blocks, files and texts that are damaged.

    fuzz.py SECONDS [SEED]

Each call answers, as the others do, or refuses with an error of the package. Beside that it is for the
address sanitizer: what a call may not touch, it tells."""

import io
import os
import random
import sys
import time
from collections import Counter

from dagcbor import CID, DagCborError, check, check_car, dumps, find, from_json, iter_loads, links
from dagcbor import loads, loads_first, name, read_car, read_commit, read_repo, record_proof, resolve, to_json
from dagcbor import verify, write_car
from dagcbor.atproto import CommitEvent, Known, read_event, read_events, verify_event
from plain import links_in, mutated, random_cid, random_text, random_value, same, spelling


sys.path.append(os.path.join(os.path.dirname(os.path.realpath(__file__)), "../../../conformance"))

import events

FRAMES = [row[1] for row in events.frames_of(1) if row[4] == "ok"]


class Text(str):
    pass


class Whole(int):
    pass


class Entries(dict):
    pass


NO_DATA = (1.5, 2**64, -(2**64) - 1, "\ud800", {1: 2}, object(), {"a": CID}, {"": [{3.0}]})


def told(call, *given):
    """Returns what it answers, alone in a list; else how it refuses."""
    try:
        return [call(*given)]
    except DagCborError as error:
        return error.kind, error.place
    except LookupError:
        return "leads nowhere"


def disguised(rng, value):
    """An object of which the same is written."""
    if isinstance(value, list):
        parts = [disguised(rng, it) for it in value]
        return tuple(parts) if rng.random() < 0.5 else parts
    if isinstance(value, dict):
        entries = {Text(key) if rng.random() < 0.2 else key: disguised(rng, it) for key, it in value.items()}
        return Entries(entries) if rng.random() < 0.3 else entries
    if isinstance(value, bytes):
        return rng.choice((bytes, bytearray, memoryview))(value)
    if isinstance(value, bool) or rng.random() < 0.7:
        return value
    sorts = {str: Text, int: Whole}
    return sorts[type(value)](value) if type(value) in sorts else value


def spoiled(rng, value):
    """An object that has no block."""
    if isinstance(value, list) and value:
        at = rng.randrange(len(value))
        return [*value[:at], spoiled(rng, value[at]), *value[at + 1 :]]
    if isinstance(value, dict) and value:
        key = rng.choice(list(value))
        return {**value, key: spoiled(rng, value[key])}
    deep = []
    deep.append(deep)
    return rng.choice((*NO_DATA, deep))


def at_path(value, path):
    """The data to which segments lead, alone in a list; else an empty list."""
    for segment in path:
        if isinstance(value, dict) and segment in value:
            value = value[segment]
        elif isinstance(value, list) and segment in map(str, range(len(value))):
            value = value[int(segment)]
        else:
            return "leads nowhere"
    return [value]


def random_path(rng, value):
    path = []
    while isinstance(value, (list, dict)) and value and rng.random() < 0.8:
        key = rng.choice(list(value) if isinstance(value, dict) else range(len(value)))
        path, value = [*path, str(key)], value[key]
    return path if rng.random() < 0.8 else [*path, random_text(rng)]


def objects(rng, value):
    block = spelling(value)
    assert dumps(disguised(rng, value)) == block
    assert isinstance(told(dumps, spoiled(rng, value)), tuple)
    assert same(loads(rng.choice((bytes, bytearray, memoryview))(block)), value)
    path = random_path(rng, value)
    assert told(find, block, path) == at_path(value, path)
    blocks = {name(block): block}
    assert told(resolve, blocks, name(block), path) == at_path(value, path)
    return block


def bytes_of_any_sort(rng, given):
    """Blocks, and bytes that are not blocks: the calls agree."""
    found = told(loads, given)
    if isinstance(found, list):
        assert check(given) and dumps(*found) == given and links(given) == links_in(*found)
        assert loads_first(given + b"\xff", 0) == (*found, len(given))
    else:
        assert told(check, given) == found
    items = told(lambda: list(iter_loads(given)))
    assert isinstance(items, (list, tuple)) and name(given).codec == 0x71
    text = told(to_json, given)
    if isinstance(text, list):
        assert from_json(*text) == given
        told(from_json, mutated(rng, text[0].encode()))
    for call in (links, loads_first, CID, read_repo, read_commit, from_json, read_event, verify_event):
        told(call, given)
    told(find, given, random_text(rng))
    told(verify, random_cid(rng), given)
    told(CID, given.decode("latin-1"))


def files(rng, blocks):
    named = [(name(it), it) for it in blocks]
    file = io.BytesIO()
    write_car(file, [it for it, _ in named[:2]], named)
    for given in (file.getvalue(), mutated(rng, file.getvalue())):
        found = told(lambda: [it.verdict for it in read_car(io.BytesIO(given))])
        checked = told(check_car, given)
        if isinstance(found, list):
            assert Counter(*found) == checked[0].verdicts
        else:
            assert checked == found
        told(read_repo, given)
        told(record_proof, given, random_text(rng))


def frames(rng):
    """A damaged commit is read or not, and verified or not; what is read is found again among others."""
    given = mutated(rng, rng.choice(FRAMES))
    found = told(read_event, given)
    known = Known(random_cid(rng), random_text(rng))
    for what in (None, known):
        told(verify_event, given, what)
    if isinstance(found, list):
        event, rest = found[0]
        assert event.frame + rest == given
        assert next(read_events(io.BytesIO(given))) == event
        if isinstance(event, CommitEvent):
            proves(event)


def proves(event):
    """A damaged CAR file has its commit or not, and proves each record or not; what is proved is proved again."""
    own = told(read_commit, event.blocks)
    for op in event.ops:
        proof = told(record_proof, event.blocks, op.path)
        if isinstance(proof, list):
            assert own == told(read_commit, *proof) == [read_commit(*proof)]
            assert record_proof(*proof, op.path.encode()) == proof[0]


def main():
    seed = int(sys.argv[2]) if len(sys.argv) > 2 else time.time_ns()
    rng, end, count = random.Random(seed), time.monotonic() + float(sys.argv[1]), 0
    try:
        while time.monotonic() < end:
            block = objects(rng, random_value(rng))
            damaged = [mutated(rng, block) for _ in range(5)]
            for given in (block, *damaged, mutated(rng, damaged[0] or block)):
                bytes_of_any_sort(rng, given)
            files(rng, [block, *damaged])
            frames(rng)
            count += 1
    except BaseException:
        print("seed", seed, file=sys.stderr)
        raise
    print(f"{count} objects, {7 * count} blocks, {2 * count} files")


main()
