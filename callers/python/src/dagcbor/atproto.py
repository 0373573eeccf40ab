"""What a host of the AT Protocol streams, verified; and blocks as the JSON of the AT Protocol, and back.

    read_event(data)            the frame at the front of bytes, and the bytes after it
    read_events(source)         the frames of a file, one after the other
    verify_event(event, known)  a commit, verified by its frame alone
    to_json(block)              the data of a block as that JSON
    from_json(text)             the one block of such JSON

The JSON is JSON in which a link is `{"$link": ".."}` and bytes are `{"$bytes": ".."}` in base64, where
DAG-JSON has the key `/`. The rules are those of the AT Protocol's data model ("JSON
Representation"). The library judges if bytes are a block, and if a commit is verified, and it is
proved. This module's own lines are not."""

from __future__ import annotations

import base64
import binascii
import json
from typing import TYPE_CHECKING, Any

from ._events import (
    AccountEvent,
    Change,
    CommitEvent,
    Event,
    EventError,
    Frame,
    IdentityEvent,
    InfoEvent,
    Known,
    OtherEvent,
    RepoOp,
    StreamError,
    SyncEvent,
    Verified,
    read_event,
    read_events,
    verify_event,
)
from ._native import CID, dumps, loads, to_bytes

if TYPE_CHECKING:
    from ._native import Buffer

__all__ = [
    "AccountEvent",
    "Change",
    "CommitEvent",
    "Event",
    "EventError",
    "Frame",
    "IdentityEvent",
    "InfoEvent",
    "Known",
    "OtherEvent",
    "RepoOp",
    "StreamError",
    "SyncEvent",
    "Verified",
    "from_json",
    "read_event",
    "read_events",
    "to_json",
    "verify_event",
]

RESERVED = ("$link", "$bytes")


def to_json(block: Buffer, /) -> str:
    """Returns the data of a block as JSON of the AT Protocol: one line without spaces, keys in the
    order of the block.

    A block in which a map has the key `$link` or `$bytes` is refused with a ValueError: it would
    look like a link or like bytes.
    """
    return json.dumps(_told(loads(block)), separators=(",", ":"), ensure_ascii=False)


def from_json(text: str | Buffer, /) -> bytes:
    """Returns the one block of the data that JSON of the AT Protocol says.

    Base64 may have its padding or not. A ValueError tells what is not such JSON: a key that comes
    twice, `$link` or `$bytes` beside another key, or no text after one of these. Numbers with a
    fraction are refused as `dumps` refuses a float.
    """
    given = text if isinstance(text, str) else to_bytes(text).decode()
    try:
        value = json.loads(given, object_pairs_hook=_heard)
    except RecursionError:
        raise ValueError("lists and maps are nested too deep") from None
    return dumps(value)


def _told(value: Any) -> Any:
    """Returns the value with links and bytes as their maps."""
    if isinstance(value, CID):
        return {"$link": str(value)}
    if isinstance(value, bytes):
        return {"$bytes": base64.b64encode(value).rstrip(b"=").decode()}
    if isinstance(value, list):
        return [_told(it) for it in value]
    if not isinstance(value, dict):
        return value
    for key in RESERVED:
        if key in value:
            raise ValueError(f"a map has the key {key}")
    return {key: _told(it) for key, it in value.items()}


def _heard(pairs: list[tuple[str, Any]]) -> Any:
    """Returns the value that a map of these pairs says."""
    found = dict(pairs)
    if len(found) < len(pairs):
        raise ValueError("a key stands twice in a map")
    if not any(key in found for key in RESERVED):
        return found
    if len(found) > 1:
        raise ValueError("$link or $bytes stands beside another key")
    ((key, text),) = pairs
    if not isinstance(text, str):
        raise ValueError(f"{key} has no text")
    return CID(text) if key == "$link" else _bytes_of(text)


def _bytes_of(text: str) -> bytes:
    """Returns the bytes that the base64 says, with its padding or without."""
    digits = text.rstrip("=")
    padded = digits + "=" * (-len(digits) % 4)
    if text not in (digits, padded):
        raise ValueError("$bytes is no base64: its padding is another")
    try:
        found = base64.b64decode(padded, validate=True)
    except binascii.Error as error:
        raise ValueError(f"$bytes is no base64: {error}") from None
    if base64.b64encode(found).decode() != padded:
        raise ValueError("$bytes is no base64: bits are left over")
    return found
