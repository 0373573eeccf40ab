"""Blocks as DAG-JSON, and back."""

from __future__ import annotations

from typing import TYPE_CHECKING

from . import _native, _native_memory

if TYPE_CHECKING:
    from ._native import Buffer

RESERVED_KEY = -50


def to_json(block: Buffer, /) -> str:
    """Returns the data of a block as DAG-JSON.

    It is one line without spaces, with keys in the order of their bytes. Bytes are
    `{"/":{"bytes":".."}}` and a CID is `{"/":".."}`. A block in which a map has the key `/` is refused
    (`ReservedKey`): it would look like one of these.
    """
    code, text, _ = _native_memory.to_json(_native.to_bytes(block))
    if code < 0:
        if code != RESERVED_KEY:
            _native.check(block)  # its refusal has the place
        raise _native.refusal(code)
    return text.decode()


def from_json(text: str | Buffer, /) -> bytes:
    """Returns the one block of the data that a text of DAG-JSON says. The text is a str or UTF-8.

    Spaces, escapes and the order of keys are free, as in JSON. `place` of an error is the offset in
    the UTF-8.
    """
    given = text.encode(errors="surrogatepass") if isinstance(text, str) else _native.to_bytes(text)
    code, block, place = _native_memory.from_json(given)
    if code < 0:
        raise _native.refusal(code, place)
    return block
