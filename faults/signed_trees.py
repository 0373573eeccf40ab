"""Repositories of signed records of the AT Protocol, as bytes: commits, trees and files of them.

A second reading of its page on repositories, which shares nothing with what is proved."""

import hashlib

from car_bytes import cid as named
from car_bytes import counted, head, header, link, section, spelled, text_of

MOST_KEY = 1024


# ---- blocks


def fields(*pairs):
    """A map of these entries, whose keys are in their order."""
    return head(5, len(pairs)) + b"".join(spelled(3, key) + value for key, value in pairs)


def linked(name):
    return b"\xf6" if name is None else link(name)


# ---- trees


def layer(key):
    """The number of zero bits at the front of its SHA-256; two make a layer."""
    return (256 - int.from_bytes(hashlib.sha256(key).digest(), "big").bit_length()) // 2


class Row:
    """An entry: how many bytes it shares with the key before it, its key, its record and the node after it."""

    def __init__(self, shared, key, value, after):
        self.shared, self.key, self.value, self.after = shared, key, value, after

    def block(self):
        return fields((b"k", spelled(2, self.key[self.shared:])), (b"p", head(0, self.shared)),
                      (b"t", linked(self.after and self.after.name())), (b"v", link(self.value)))


class Node:
    def __init__(self, left, rows):
        self.left, self.rows = left, rows

    def block(self):
        rows = head(4, len(self.rows)) + b"".join(row.block() for row in self.rows)
        return fields((b"e", rows), (b"l", linked(self.left and self.left.name())))

    def name(self):
        return named(self.block())

    def below(self):
        """The nodes right below it, in order."""
        return [it for it in (self.left, *(row.after for row in self.rows)) if it]

    def all(self):
        """It, and all nodes below it, in the order of a walk."""
        return [self] + [it for node in self.below() for it in node.all()]


def shared_front(one, other):
    count = 0
    while count < min(len(one), len(other)) and one[count] == other[count]:
        count += 1
    return count


def node_of(entries, level):
    """The node over these, with keys of this layer at most; None if there are none."""
    if not entries:
        return None
    tops = [at for at, (key, _) in enumerate(entries) if layer(key) == level]
    ends = [*tops[1:], len(entries)]
    rows, before = [], b""
    for at, end in zip(tops, ends):
        key, value = entries[at]
        rows.append(Row(shared_front(before, key), key, value, node_of(entries[at + 1:end], level - 1)))
        before = key
    return Node(node_of(entries[:tops[0] if tops else len(entries)], level - 1), rows)


def tree_of(records):
    """The root's node, over keys and the names of their records."""
    entries = sorted(records.items())
    return node_of(entries, max(map(layer, records))) if entries else Node(None, [])


# ---- repositories

FIELDS = {
    b"did": spelled(3, b"did:plc:abc"),
    b"rev": spelled(3, b"3jzfcijpj2z2a"),
    b"sig": spelled(2, bytes(range(64))),
    b"data": None,
    b"prev": b"\xf6",
    b"version": b"\x03",
}


def commit(root, **changed):
    """The block of a commit over the tree of this name, with fields changed, or left out if they are None."""
    all_fields = {**FIELDS, b"data": link(root), **{key.encode(): value for key, value in changed.items()}}
    kept = [(key, value) for key, value in all_fields.items() if value is not None]
    return fields(*sorted(kept, key=lambda pair: (len(pair[0]), pair[0])))


def file_of(block, nodes, *roots):
    """A file of a commit, and of the nodes of a tree."""
    blocks = dict.fromkeys([block, *(node.block() for node in nodes)])
    return b"".join([counted(header(*(roots or [named(block)]))), *map(section, blocks)])


def key_text(key):
    """As a line has it: bytes that are not graphic ASCII, and the percent sign itself, by a percent sign and two digits."""
    return "".join(chr(it) if 0x21 <= it <= 0x7E and it != 0x25 else f"%{it:02X}" for it in key)


def lines_of(records):
    return "".join(f"{key_text(key)} {text_of(value)}\n" for key, value in sorted(records.items()))


class Pool:
    """Keys of all layers up to a few, the high ones found by search."""

    def __init__(self, rng):
        self.layers = {}
        for number in range(200_000):
            key = f"{rng.choice(KINDS)}/3k{number:08x}".encode()
            self.layers.setdefault(layer(key), []).append(key)

    def take(self, rng):
        """Some records: of many layers, of one, or of a few that are far apart."""
        count = rng.choice((0, 1, 2, 3, 8, 30, 100, 300)) if rng.random() < 0.9 else 1000
        of = sorted(self.layers) if rng.random() < 0.5 else rng.sample(sorted(self.layers), min(3, len(self.layers)))
        keys = [rng.choice(self.layers[rng.choice(of)]) for _ in range(count)]
        if rng.random() < 0.1:  # keys of any bytes and lengths
            keys += [rng.randbytes(rng.choice((1, 2, 200, MOST_KEY))) for _ in range(5)]
        return {key: record(rng.randbytes(4)) for key in keys}


KINDS = ("app.bsky.feed.post", "app.bsky.feed.like", "app.bsky.graph.follow", "com.example.record")


def record(data):
    return named(spelled(2, data))
