"""CAR files: what the check of one found, and the writing of one."""

from __future__ import annotations

from collections.abc import Mapping
from dataclasses import dataclass, field
from typing import TYPE_CHECKING

from . import _native
from ._files import put
from ._native import CID

if TYPE_CHECKING:
    from collections.abc import Iterable
    from mmap import mmap

    from ._files import Writable
    from ._native import Buffer, ForeignCID, Readable, Sha256, Verdict

OTHER_BYTES, NOT_VERIFIED = -22, -23


@dataclass(eq=False, slots=True)
class CarCheck:
    """What was found in a CAR file.

    `roots` are those of its header. `verdicts` has how often each verdict was given. `missing` has
    the roots and links that lead to no verified block of the file, each once, in the order of
    their bytes. A CID by the identity hash holds its block itself: it is never missing, and the links
    in that block are followed.
    """

    roots: list[CID] = field(repr=False)
    verdicts: dict[Verdict, int]
    missing: list[CID]
    _held: bytes = field(repr=False)

    @property
    def held(self) -> list[CID]:
        """The names of the verified blocks, each once. They are made anew each time."""
        return _native.unpack(self._held)

    @property
    def is_well(self) -> bool:
        """True if nothing is missing, and each verdict is `ok ..` or `not read`."""
        are_well = all(it.startswith("ok ") or it == "not read" for it in self.verdicts)
        return are_well and not self.missing


def check_car(source: Buffer | mmap | Readable, *, sha256: Sha256 | None = None) -> CarCheck:
    """Returns what is found in a CAR file, from bytes or a binary file.

    `sha256`, such as `hashlib.sha256`, computes digests in place of the library, and is trusted.
    """
    *found, error = _native.check_car(source, sha256)
    checked = CarCheck(*found)
    if error is None:
        return checked
    error.checked = checked
    raise error


def _cid_of(cid: CID | ForeignCID) -> CID:
    """Returns the CID, which may be one of another package, as in `dumps`."""
    if isinstance(cid, CID):
        return cid
    if isinstance(cid, (str, bytes, bytearray, memoryview)):
        raise TypeError("a CID is wanted")
    return CID(cid)


def _varint(number: int) -> bytes:
    groups = []
    while number >= 128:
        groups.append(number % 128 + 128)
        number //= 128
    return bytes([*groups, number])


def write_car(
    file: Writable,
    roots: Iterable[CID | ForeignCID],
    blocks: Mapping[CID, Buffer] | Iterable[tuple[CID | ForeignCID, Buffer]],
) -> None:
    """Writes a CAR file, of version 1, to a binary file.

    `blocks` is a dict of blocks by their CIDs, or pairs of a CID and a block, in the order that the
    file is to have. Bytes that are not those of their CID are refused before they are written.
    """
    roots = [_cid_of(it) for it in roots]
    header = _native.dumps({"roots": roots, "version": 1})
    put(file, _varint(len(header)) + header)
    for cid, block in blocks.items() if isinstance(blocks, Mapping) else blocks:
        cid, block = _cid_of(cid), _native.to_bytes(block)
        if _native.verdict(cid, block) == "other bytes":
            raise _native.refusal(OTHER_BYTES)
        put(file, _varint(len(bytes(cid)) + len(block)) + bytes(cid))
        put(file, block)


def verify(cid: CID | ForeignCID, block: Buffer) -> bool:
    """Returns true if the bytes are those that the CID names, by SHA-256 or the identity. For another
    hash function it raises DagCborError (`NotVerified`). `check` says if they are a block."""
    verdict = _native.verdict(_cid_of(cid), block)
    if verdict == "not verified":
        raise _native.refusal(NOT_VERIFIED)
    return verdict != "other bytes"

