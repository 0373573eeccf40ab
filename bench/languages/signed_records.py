"""A repository of signed records, read and checked by dicts, over the package's `loads`: signed_records.py < repo.car

Each block is hashed, each node is loaded, and the tree of the records is made anew. Prints how many records there are."""

import hashlib
import os
import sys

sys.path.insert(0, os.path.join(os.path.dirname(os.path.realpath(__file__)), "..", "..", "faults"))

from dagcbor import loads, read_car
from signed_trees import Node, Row, layer, shared_front


def listed(blocks, name, found):
    node = loads(blocks[name])
    if node["l"] is not None:
        listed(blocks, bytes(node["l"]), found)
    key = b""
    for row in node["e"]:
        key = key[: row["p"]] + row["k"]
        found.append((key, bytes(row["v"])))
        if row["t"] is not None:
            listed(blocks, bytes(row["t"]), found)


def made(entries, level):
    """The name of the node over these."""
    if not entries:
        return None
    tops = [at for at, (key, _, of) in enumerate(entries) if of == level]
    node = Node(None, [])
    left = made(entries[:tops[0] if tops else len(entries)], level - 1)
    node.left = left and Named(left)
    before = b""
    for at, end in zip(tops, [*tops[1:], len(entries)]):
        key, value, _ = entries[at]
        after = made(entries[at + 1:end], level - 1)
        node.rows.append(Row(shared_front(before, key), key, value, after and Named(after)))
        before = key
    return node.name()


class Named:
    def __init__(self, name):
        self.name = lambda: name


car = read_car(sys.stdin.buffer)
blocks = {bytes(cid): block for cid, block, _ in car}
(root,) = map(bytes, car.roots)
assert all(name[-32:] == hashlib.sha256(block).digest() for name, block in blocks.items())
found = []
data = bytes(loads(blocks[root])["data"])
listed(blocks, data, found)
assert all(one[0] < other[0] for one, other in zip(found, found[1:]))
entries = [(key, value, layer(key)) for key, value in found]
assert made(entries, max((it[2] for it in entries), default=0)) == data
print(len(found))
