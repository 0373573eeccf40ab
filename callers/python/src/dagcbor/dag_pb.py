"""Blocks of DAG-PB, which IPFS makes from files and directories, by their data model.

    loads(block)   the data of a block: a dict of `Links` and, if the node has some, `Data`
    dumps(node)    the one canonical block of such a dict
    links(block)   the CIDs of its links

The data model is that of the DAG-PB specification ("Logical format"). The library judges if bytes are a
block of DAG-PB, and if data is that of a node, and it is proved."""

from __future__ import annotations

from typing import TYPE_CHECKING, NotRequired, TypedDict

from . import _native

if TYPE_CHECKING:
    from ._native import CID, Buffer

__all__ = ["CODEC", "Link", "Node", "dumps", "links", "loads"]

CODEC = 0x70
"""The codec in the CID of a block of DAG-PB."""


class Link(TypedDict):
    """A link: the CID that it leads to, its name, and the size of all blocks below it."""

    Hash: CID
    Name: NotRequired[str]
    Tsize: NotRequired[int]


class Node(TypedDict):
    """A node: its data, which for a file or a directory of IPFS is a message of UnixFS, and its links."""

    Data: NotRequired[bytes]
    Links: list[Link]


def loads(block: Buffer, /) -> Node:
    """Returns the data of a block of DAG-PB.

    Links are in the order of the block. What is left out there is left out here: `Name`, `Tsize` and
    `Data`. In a refusal, `place` is the offset of the fault. A block in which a name is not UTF-8 is
    valid, but has no such data: it is refused as `NameNotText`.
    """
    node: Node = _native.loads(_native.from_node(block))
    return node


def dumps(node: Node, /) -> bytes:
    """Returns the one canonical block of a node.

    If data does not have this shape it is refused as `NotANode`, and if links are not sorted by the
    bytes of their names as `UnsortedLinks`: `sorted(links, key=lambda it: it["Name"].encode())`
    sorts links that have names.
    """
    return _native.to_node(_native.dumps(node))


def links(block: Buffer, /) -> list[CID]:
    """Returns the CIDs of a block's links, in its order, whatever the names of the links are."""
    return _native.node_links(block)
