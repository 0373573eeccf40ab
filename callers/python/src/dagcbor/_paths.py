"""Paths in blocks, and over links from block to block."""

from __future__ import annotations

from collections.abc import Mapping
from typing import TYPE_CHECKING, Any

from . import _native
from ._car import verify

if TYPE_CHECKING:
    from collections.abc import Callable, Sequence

    from ._native import CID, Buffer

IDENTITY, DAG_CBOR = 0, 0x71
NOT_READ, OTHER_BYTES = 9, -22


def _follow(block: Buffer, path: str | Sequence[str]) -> tuple[Any, bool, str | Sequence[str]]:
    """Returns the data, and if the path leads to it or goes on at it; and the path that is left."""
    left: str | Sequence[str]
    if isinstance(path, str):
        kind, item, left = _native.follow(block, path)
    else:
        item, left, segments = _native.to_bytes(block), [], list(path)
        for passed, segment in enumerate(segments):
            part = _native.part(item, segment)
            if part is None:
                left = segments[passed:]
                break
            item = part
        kind = _native.check(item)
    goes_on = not left or kind == "link"
    return _native.loads(item) if goes_on else None, goes_on, left


def find(block: Buffer, path: str | Sequence[str], /) -> Any:
    """Returns the data to which a path leads in a block, or raises a KeyError.

    The path is a text such as `a/0/b`, or a list of segments, each taken whole. A list also reaches
    keys that are empty or have slashes.
    """
    value, _, left = _follow(block, path)
    if left:
        raise KeyError(path)
    return value


class MissingBlock(LookupError):
    """A block on the way is not held, so it is not known what the path leads to. `cid` names the block."""

    def __init__(self, cid: CID) -> None:
        super().__init__(cid)
        self.cid = cid

    def __str__(self) -> str:
        return f"no block is held under {self.cid}"


def _block_of(get: Callable[[CID], Buffer | None], cid: CID) -> bytes:
    """Returns the verified block of the name. Nobody writes its bytes. A name by the identity hash holds it."""
    held = cid.digest if cid.hash_code == IDENTITY else get(cid)
    if held is None:
        raise MissingBlock(cid)
    block = _native.to_bytes(held)
    if _native.name(block) != cid:
        if not verify(cid, block):
            raise _native.refusal(OTHER_BYTES)
        if cid.codec != DAG_CBOR:
            raise _native.refusal(NOT_READ)
    return block


def resolve(
    get: Mapping[CID, Buffer] | Callable[[CID], Buffer | None], cid: CID, path: str | Sequence[str]
) -> Any:
    """Returns the data to which the path leads from the block of the CID, over links, as `ipfs dag get`.

    The path is a text or a list of segments, as for `find`. `get` is a mapping of blocks by their
    CIDs, or a call that gives the block of a CID, or None. Each block on the way is verified, so the
    answer holds for everyone who has blocks of these names. That is also so for a KeyError, which says
    that the path leads nowhere, with the name of the block in which it ends and the path that is left
    there. If a block is not held it raises MissingBlock, and if bytes are not the block of their
    name a DagCborError. A link at the end is the CID itself.
    """
    get = get.get if isinstance(get, Mapping) else get
    left = path
    while True:
        value, is_led, left = _follow(_block_of(get, cid), left)
        if not is_led:
            raise KeyError(cid, left)
        if not left:
            return value
        cid = value
