"""Bytes that come from a binary file, and go to one."""

from __future__ import annotations

from io import RawIOBase
from typing import TYPE_CHECKING, Protocol

if TYPE_CHECKING:
    from collections.abc import Iterator

    from ._native import Readable

PIECE = 1 << 18


class Writable(Protocol):
    def write(self, piece: bytes, /) -> int | None: ...


def pieces_of(file: Readable) -> Iterator[bytes]:
    """Yields all that the file has, from its position on."""
    while piece := file.read(PIECE):
        yield piece
    if piece is None:
        raise BlockingIOError("read() has no bytes yet")


def read_all(file: Readable) -> bytes:
    """Reads all that the file has, from its position on."""
    return b"".join(pieces_of(file))


def put(file: Writable, piece: bytes) -> None:
    """Writes all of it: a raw file may take only a part."""
    while piece:
        count = file.write(piece)
        if count is None and isinstance(file, RawIOBase):
            raise BlockingIOError("write() took no bytes")
        piece = b"" if count is None else piece[count:]
