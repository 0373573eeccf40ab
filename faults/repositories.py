"""The program `dagcar` over repositories of signed records: random ones, and damaged ones of each kind.

No row is copied from a run: trees are those of `signed_trees`."""

import base64
import json
import random
import re

import running
from car_bytes import cid, counted, header, missing_line, section, text_of
from signed_trees import (MOST_KEY, Node, Pool, Row, commit, fields, file_of, key_text, layer, lines_of, named, record,
                          shared_front, spelled, tree_of)

RANDOM_TREES = 2_000

# The name of a record, and the root of the tree of these keys, each with that record: from the tests of the reference
# implementation.
VALUE = "bafyreie5cvv4h45feadgeuwhbcutmh6t2ceseocckahdoe6uat64zmz454"
ROOTS = {
    (): "bafyreie5737gdxlw5i64vzichcalba3z2v5n6icifvx5xytvske7mr3hpm",
    ("3jqfcqzm3fo2j",): "bafyreibj4lsc3aqnrvphp5xmrnfoorvru4wynt6lwidqbm2623a6tatzdu",
    ("3jqfcqzm3fx2j",): "bafyreih7wfei65pxzhauoibu3ls7jgmkju4bspy4t2ha2qdjnzqvoy33ai",
    ("3jqfcqzm3fp2j", "3jqfcqzm3fr2j", "3jqfcqzm3fs2j", "3jqfcqzm3ft2j", "3jqfcqzm4fc2j"):
        "bafyreicmahysq4n6wfuxo522m6dpiy7z7qzym3dzs756t5n7nfdgccwq7m",
}


# -- damages: each returns a file, and what must be told


def some(rng, pool, wanted=lambda tree: True):
    """A tree, and its records, that has the property."""
    while True:
        records = pool.take(rng)
        tree = tree_of(records)
        if wanted(tree):
            return tree, records


def over(tree, **changed):
    return file_of(commit(tree.name(), **changed), tree.all())


def pick(rng, pool, wanted):
    """A tree, and a node of it that has the property."""
    tree, _ = some(rng, pool, lambda it: any(map(wanted, it.all())))
    return tree, rng.choice([node for node in tree.all() if wanted(node)])


def has_rows(node):
    return bool(node.rows)


def node_missing(rng, pool):
    tree, _ = some(rng, pool)
    lost = rng.choice(tree.all())
    kept = [node for node in tree.all() if node.block() != lost.block()]
    return file_of(commit(tree.name()), kept), missing_line(lost.name())


def short_prefix(rng, pool):
    tree, _ = some(rng, pool, lambda it: any(row.shared for node in it.all() for row in node.rows))
    row = rng.choice([row for node in tree.all() for row in node.rows if row.shared])
    row.shared -= 1
    return over(tree), "canonical"


def long_prefix(rng, pool):
    tree, node = pick(rng, pool, has_rows)
    node.rows[0].shared = 1
    return over(tree), "front"


def lower_key(rng, pool):
    """A key of a lower layer in a node, although its place is below."""
    tree, node = pick(rng, pool, lambda it: it.rows and layer(it.rows[-1].key + b"\x00") < layer(it.rows[-1].key) < 40)
    row = node.rows[-1]
    row.after = None
    node.rows.append(Row(len(row.key), row.key + b"\x00", row.value, None))
    return over(tree), "canonical"


def empty_subtree(rng, pool):
    tree, _ = some(rng, pool, lambda it: any(not row.after for node in it.all() for row in node.rows))
    row = rng.choice([row for node in tree.all() for row in node.rows if not row.after])
    row.after = Node(None, [])
    return over(tree), "canonical"


def empty_chain(rng, pool):
    """Nodes without keys below a key, before other faults: the last node is not there, or has falling keys."""
    tree, node = pick(rng, pool, lambda it: it.rows and not it.rows[0].after)
    chain = Node(None, [])
    for _ in range(rng.choice((0, 1, 5, 60))):
        chain = Node(chain, [])
    node.rows[0].after = chain
    if rng.random() < 0.5:
        node.rows.append(Row(0, node.rows[0].key, node.rows[0].value, None))
        return over(tree), "canonical"
    node.rows.append(Row(0, node.rows[-1].key + b"\x00", node.rows[-1].value, Node(None, [Row(0, b"away", record(b"1"), None)])))
    kept = [it for it in tree.all() if it is not node.rows[-1].after]
    return file_of(commit(tree.name()), kept), "canonical"


def empty_root(rng, pool):
    """A node of a higher layer than that of any key."""
    tree, _ = some(rng, pool)
    return over(Node(tree, [])), "canonical"


def deep(rng, pool):
    tree, _ = some(rng, pool)
    for _ in range(130):
        tree = Node(tree, [])
    return over(tree), "deep"


def out_of_order(rng, pool):
    tree, node = pick(rng, pool, lambda it: len(it.rows) >= 2)
    one, other = node.rows[0], node.rows[1]
    one.key, other.key = other.key, one.key
    one.shared, other.shared = 0, 0
    for before, row in zip(node.rows[1:], node.rows[2:]):
        row.shared = shared_front(before.key, row.key)
    return over(tree), "order"


def listed_twice(rng, pool):
    tree, node = pick(rng, pool, has_rows)
    row = node.rows[-1]
    node.rows.append(Row(len(row.key), row.key, row.value, None))
    return over(tree), "order"


def node_twice(rng, pool):
    """A node that two links lead to."""
    tree, node = pick(rng, pool, lambda it: it.rows and it.below() and it.below()[0].rows)
    node.left = node.rows[-1].after = node.below()[0]
    return over(tree), "order"


def empty_key(rng, pool):
    tree, _ = some(rng, pool, has_rows)
    node = tree
    while node.left:
        node = node.left
    node.rows.insert(0, Row(0, b"", record(b"1"), None))
    return over(tree), "length"


def long_key(rng, pool):
    tree, node = pick(rng, pool, has_rows)
    row = node.rows[-1]
    row.key = row.key + b"x" * (MOST_KEY + 1 - len(row.key))
    return over(tree), "length"


def no_node(rng, pool):
    empty, none = (b"e", b"\x80"), (b"l", b"\xf6")
    nodes = fields(empty), fields(empty, none, (b"m", b"\x01")), fields((b"e", b"\x81\xa0"), none)
    block = rng.choice((b"\x80", b"\xa0", b"\x05", *nodes))
    tree = Node(None, [])
    tree.block = lambda: block
    return over(tree), "node"


def no_commit(rng, pool):
    tree, _ = some(rng, pool)
    changed = rng.choice(({"did": None}, {"sig": spelled(3, b"a")}, {"data": b"\xf6"}, {"prev": None},
                          {"version": spelled(3, b"3")}, {"rev": b"\x01"}, {"version": b"\x20"}))
    return over(tree, **changed), "commit"


def other_version(rng, pool):
    tree, _ = some(rng, pool)
    return over(tree, version=rng.choice((b"\x02", b"\x04", b"\x00"))), "version"


def missing_field(rng, pool):
    """A commit of version 3, or of version 2 without what came later."""
    tree, _ = some(rng, pool)
    return over(tree, **rng.choice(({"prev": None}, {"rev": None}, {"rev": None, "version": b"\x02"}))), "missing"


def other_fields(rng, pool):
    tree, _ = some(rng, pool)
    return over(tree, more=b"\x01"), "fields"


def no_root(rng, pool):
    tree, _ = some(rng, pool)
    return counted(header()) + section(commit(tree.name())), "root"


def later_root(rng, pool):
    """The commit is not the first root."""
    tree, _ = some(rng, pool)
    block = commit(tree.name())
    return file_of(block, tree.all(), tree.name(), named(block)), "fields"


def commit_missing(rng, pool):
    tree, _ = some(rng, pool)
    name = record(b"away")
    return file_of(commit(tree.name()), tree.all(), name), missing_line(name)


DAMAGES = (node_missing, short_prefix, long_prefix, lower_key, empty_subtree, empty_chain, empty_root, deep, out_of_order,
           listed_twice, node_twice, empty_key, long_key, no_node, no_commit, other_version, other_fields, missing_field, no_root,
           later_root, commit_missing)

# What a line says about a damage.
WORDS = {
    "canonical": "the nodes are not those of the tree of their entries",
    "front": "an entry shares more bytes with the key before it than that has",
    "length": "a key has no byte, or more than 1024",
    "order": "the keys do not rise",
    "deep": "stands below 129 nodes",
    "node": "is no node",
    "commit": "is no commit: ",
    "version": "is a commit of version",
    "fields": "is no commit: unknown field",
    "missing": "is no commit: missing field",
    "root": "the file has no commit: it has no root",
}


def reference():
    """Returns true if this reading gives the roots of the reference implementation."""
    value = base64.b32decode(VALUE[1:].upper() + "=" * (-len(VALUE[1:]) % 8))
    for keys, root in ROOTS.items():
        tree = tree_of({f"com.example.record/{key}".encode(): value for key in keys})
        if text_of(tree.name()) != root:
            yield f"{keys}: another root than the reference's"


def whole(rng, pool, count):
    for _ in range(count):
        records = pool.take(rng)
        tree = tree_of(records)
        block = commit(tree.name())
        more = rng.choice(([], [named(block)], [tree.name(), record(b"away")]))
        yield ["records"], file_of(block, tree.all(), named(block), *more), (0, lines_of(records).encode(), b"")


def changed_lines(old, new):
    """A line for each key whose records differ, in the order of keys."""
    lines = []
    for key in sorted({**old, **new}):
        before, after = old.get(key), new.get(key)
        if before != after:
            word = "added" if before is None else "removed" if after is None else "changed"
            lines.append(" ".join([word, key_text(key), *(text_of(name) for name in (before, after) if name)]))
    return "".join(f"{line}\n" for line in lines)


def later(rng, pool, records):
    """Records that share most with these."""
    kept = {key: value for key, value in records.items() if rng.random() < 0.9}
    changed = {key: record(rng.randbytes(4)) for key in kept if rng.random() < 0.1}
    fresh = pool.take(rng)
    some_new = rng.sample(sorted(fresh), min(len(fresh), rng.choice((0, 1, 5))))
    return {**kept, **changed, **{key: fresh[key] for key in some_new}}


def on_two(folder, old, new, which):
    """The words and the bytes of `changes` of two files. The one of that number, if it is one of the two, is standard input."""
    files = [old, new]
    words = ["-" if at == which else running.put(f"{folder}/{at}.car", file) for at, file in enumerate(files)]
    return ["changes", *words], files[which] if which < 2 else b""


def differing(folder, rng, pool, count):
    """Two repositories that share most records; each third pair is one of equal records."""
    for number in range(count):
        old = pool.take(rng)
        new = old if number % 3 == 2 else later(rng, pool, old)
        words, data = on_two(folder, over(tree_of(old)), over(tree_of(new)), number % 4)
        yield words, data, (0, changed_lines(old, new).encode(), b"")


def differing_damaged(path, folder, rng, pool, count):
    """One of the two files damaged, or both: for the old one the program says what `records` says, and else that of the new one."""
    for number in range(count):
        bad, wanted = DAMAGES[number % len(DAMAGES)](rng, pool)
        sound = over(tree_of(pool.take(rng)))
        others = (bad, sound, b"old: "), (sound, bad, b"new: "), (bad, pick_other(rng, pool), b"old: ")
        old, new, front = others[number // len(DAMAGES) % 3]
        told, words = running.answer([path, "records"], bad)[2], WORDS.get(wanted, wanted).encode()
        is_right = lambda *found, right=(1, b"", front + told), is_said=words in told: is_said and found == right
        yield *on_two(folder, old, new, number % 4), is_right


def pick_other(rng, pool):
    return rng.choice(DAMAGES)(rng, pool)[0]


def not_told(folder):
    """Words that are wrong, and files that are not there: the status is 2."""
    file = over(tree_of({b"a/b": record(b"1")}))
    away, here = f"{folder}/away.car", running.put(f"{folder}/here.car", file)
    usage = [], [here], ["-", "-"], [here, here, here]
    closed = [away, here], [here, away], ["-", away], [away, "-"], [away, away]
    for front, calls in (b"usage: dagcar ", usage), (b"dagcar: the file cannot be opened\n", closed):
        is_line = lambda told, front=front: told.startswith(front) and told.count(b"\n") == 1
        for words in calls:
            yield ["changes", *words], file, lambda status, out, told, is_line=is_line: status == 2 and not out and is_line(told)


def is_told(wanted):
    """Returns true if a line says what is wrong, and nothing else is written."""
    words = WORDS.get(wanted, wanted).encode()
    return lambda status, out, told: status == 1 and not out and words in told and told.count(b"\n") == 1


def damaged(rng, pool, count):
    for number in range(count):
        file, wanted = DAMAGES[number % len(DAMAGES)](rng, pool)
        yield ["records"], file, is_told(wanted)


def word_of(rng, key):
    """The key as lines have it; or itself, if it is not the text of a key. A word of a program is text, without a zero byte."""
    try:
        raw = b"\x00" not in key and key_text(key).encode() != key and bool(key.decode())
    except UnicodeDecodeError:
        raw = False
    if raw and not re.fullmatch(rb"(%[0-9A-F]{2}|[!-$&-~])*", key) and rng.random() < 0.5:
        return key
    return key_text(key).encode()


def raw_record():
    """If the name of a record says another codec, its bytes are not shown, even if they are DAG-CBOR."""
    data = spelled(2, b"raw")
    for codec, word in ((0x55, "raw"), (0x70, "dag-pb"), (0x0129, "dag-json"), (0x300, "codec 0x300")):
        name = cid(data, codec)
        tree = tree_of({b"a/b": name})
        file = file_of(commit(tree.name()), tree.all()) + section(data, codec)
        yield ["record", "a/b"], file, (1, b"", f"{text_of(name)} is {word}, not dag-cbor\n".encode())


def way_to(tree, key):
    """The nodes on the way to the key, from the root on."""
    way, node = [], tree
    while node is not None:
        way.append(node)
        before = [row for row in node.rows if row.key <= key]
        node = None if before and before[-1].key == key else before[-1].after if before else node.left
    return way


def said_of(block, tree):
    """What `commit` says about a commit of the reference."""
    name, data = text_of(named(block)), text_of(tree.name())
    return f"commit {name}\ndid did:plc:abc\nrev 3jzfcijpj2z2a\ndata {data}\nprev none\n".encode()


def text_of_bytes(data):
    return '{"/":{"bytes":"' + base64.b64encode(data).decode().rstrip("=") + '"}}'


def json_of(records, blocks):
    """What `records --json` says: for the records of these blocks, in DAG-JSON, and for those whose block is missing."""
    data = {named(block): text for block, text in blocks}
    rows = [(key_text(key), name, data.get(name)) for key, name in sorted(records.items())]
    lines = [f'{{"cid":{{"/":"{text_of(name)}"}},"key":{json.dumps(key)},"value":{text}}}\n' for key, name, text in rows if text]
    told = [f"{key}: {missing_line(name)}\n" for key, name, text in rows if not text]
    return int(bool(told)), "".join(lines).encode(), "".join(told).encode()


def of_one_record(rng, key, records, proof, data):
    """What is asked about one record of the file, and the right answer: its block is that of the data, or there is none."""
    word = word_of(rng, key)
    if key not in records:
        yield ["record-proof", word], (0, proof, b"")
        yield ["record", word], lambda status, out, told: (status, out) == (1, b"") and b"no record" in told
    elif records[key] == record(data):
        yield ["record-proof", word], (0, proof + section(spelled(2, data)), b"")
        yield ["record", word], (0, f"{text_of_bytes(data)}\n".encode(), b"")
    else:
        missing = 1, b"", f"{missing_line(records[key])}\n".encode()
        yield from ((["record-proof", word], missing), (["record", word], missing))


def one_record(rng, pool, count):
    """Each key that there is, and some that are not, over the whole file and over the nodes on the way alone."""
    for _ in range(count):
        data = rng.randbytes(8)
        records = {**pool.take(rng), b"app.bsky.feed.post/self": record(data)}
        tree = tree_of(records)
        block, blocks = commit(tree.name()), [(spelled(2, data), text_of_bytes(data))]
        key = rng.choice([*records, b"app.bsky.feed.post/none"])
        way = way_to(tree, key)
        for nodes in (tree.all(), way):
            file = file_of(block, nodes) + section(spelled(2, data))
            yield ["commit"], file, (0, said_of(block, tree), b"")
            if nodes == tree.all():
                yield ["records", "--json"], file, json_of(records, blocks)
            for words, wanted in of_one_record(rng, key, records, file_of(block, way), data):
                yield words, file, wanted


def small(folder):
    """A file of three records, and what the program says of it, and of it and another one."""
    note, link_to, raw = fields((b"text", spelled(3, b"hi"))), spelled(2, b"away"), spelled(2, b"b")
    key = b"app.bsky.feed.post/self"
    records = {key: named(note), b"app.bsky.feed.like/1": named(link_to), b"a": named(raw)}
    later_records = {b"a": record(b"c"), b"b/c": record(b"d")}
    texts = [(note, '{"text":"hi"}'), (link_to, text_of_bytes(b"away")), (raw, text_of_bytes(b"b"))]
    tree = tree_of(records)
    block = commit(tree.name())
    newer = running.put(f"{folder}/newer.car", over(tree_of(later_records)))
    return file_of(block, tree.all()) + b"".join(map(section, (note, link_to, raw))), {
        "records": (0, lines_of(records).encode()),
        "records --json": json_of(records, texts)[:2],
        f"record {key.decode()}": (0, b'{"text":"hi"}\n'),
        f"changes - {newer}": (0, changed_lines(records, later_records).encode()),
        "commit": (0, said_of(block, tree)),
        f"record-proof {key.decode()}": (0, file_of(block, way_to(tree, key)) + section(note)),
    }


def sweep(path, folder, report, count=RANDOM_TREES):
    """All runs of the program that is built there. Files lie in the folder."""
    rng = random.Random(20261127)
    pool = Pool(rng)
    report("repositories, roots of the reference", len(ROOTS), list(reference()))
    for name, rows in (
        ("random trees", whole(rng, pool, count)),
        ("damaged", damaged(rng, pool, count // 4)),
        ("one record, its proof, and the commit", one_record(rng, pool, count // 8)),
        ("a record of another codec", raw_record()),
        ("two random ones", differing(folder, rng, pool, count // 4)),
        ("two, damaged", differing_damaged(path, folder, rng, pool, count // 8)),
        ("two, not told", not_told(folder)),
    ):
        running.sweep(report, f"repositories, {name}", path, rows)
