"""Frames of a repository host's stream (AT Protocol), and the commits in them."""

from __future__ import annotations

from dataclasses import dataclass, field
from typing import TYPE_CHECKING, Any, NamedTuple, TypeAlias, cast

from ._errors import DagCborError
from ._native import CID, loads, refusal, to_bytes
from ._native_memory import event_frame
from ._native_memory import verify_event as verify_frame

if TYPE_CHECKING:
    from collections.abc import Callable, Iterator

    from ._native import Buffer, Readable

PIECE = 1 << 18
NO_END = -61


class EventError(DagCborError):
    """Bytes that are not a frame, or a commit that is not verified.

    `kind` names why, as the library does (docs/REPOSITORIES.md). For `MissingNode`, `OtherBytes` and
    `NoNode`, `node` is the CID of the tree's node that is at fault; else it is None.
    """

    def __init__(self, message: str, kind: str | None = None, node: CID | None = None) -> None:
        super().__init__(message, kind)
        self.node = node


class Known(NamedTuple):
    """What is known of a repository: the root of its tree, and its revision."""

    root: CID
    rev: str


class RepoOp(NamedTuple):
    """What the host says was done with the record of a path: `create`, `update` or `delete`."""

    action: str
    path: str
    cid: CID | None
    prev: CID | None


class Change(NamedTuple):
    """A key of a repository, the CID of its record before, and of the one after."""

    key: str
    old: CID | None
    new: CID | None


@dataclass(frozen=True)
class Frame:
    """A frame as it was read: nothing in it is verified."""

    frame: bytes = field(repr=False, kw_only=True)


@dataclass(frozen=True)
class CommitEvent(Frame):
    """A commit, as the host tells of it. `blocks` is a CAR file, for `read_car`."""

    seq: int
    repo: str
    rev: str
    since: str | None
    commit: CID
    ops: tuple[RepoOp, ...]
    blobs: tuple[CID, ...]
    prev_data: CID | None
    blocks: bytes = field(repr=False)
    too_big: bool
    rebase: bool
    time: str


@dataclass(frozen=True)
class SyncEvent(Frame):
    """A repository as it is, whatever came before. `blocks` has its commit."""

    seq: int
    did: str
    rev: str
    blocks: bytes = field(repr=False)
    time: str


@dataclass(frozen=True)
class IdentityEvent(Frame):
    """An account whose handle or key may have changed."""

    seq: int
    did: str
    handle: str | None
    time: str


@dataclass(frozen=True)
class AccountEvent(Frame):
    """Says if the host serves the repository of an account, and why not."""

    seq: int
    did: str
    active: bool
    status: str | None
    time: str


@dataclass(frozen=True)
class InfoEvent(Frame):
    """What the host tells about the stream."""

    name: str
    message: str | None


@dataclass(frozen=True)
class StreamError(Frame):
    """Why the host ends the stream. It is a frame like others, and not raised."""

    error: str
    message: str | None


@dataclass(frozen=True)
class OtherEvent(Frame):
    """A frame of another kind: its name, and the data of its body."""

    name: str
    body: Any


Event: TypeAlias = (
    CommitEvent | SyncEvent | IdentityEvent | AccountEvent | InfoEvent | StreamError | OtherEvent
)


CLASSES: tuple[Any, ...] = (CommitEvent, SyncEvent, IdentityEvent, AccountEvent, InfoEvent, StreamError)
NAMES = {"prev_data": "prevData", "too_big": "tooBig"}


@dataclass(frozen=True)
class Verified:
    """A commit that its own frame proves: its operations lead to it from the root before.

    `commit` is its CID, `data` the root of its tree and `before` that of the tree before. `changes`
    has the operations in their order. `sig` is the signature, which is not checked, and `signed` has
    the signed bytes.
    """

    did: str
    rev: str
    data: CID
    prev: CID | None
    before: CID
    commit: CID
    sig: bytes
    signed: bytes
    changes: tuple[Change, ...]

    @property
    def known(self) -> Known:
        """What is known after it, for the next commit of this repository."""
        return Known(self.data, self.rev)


def read_event(data: Buffer, /) -> tuple[Event, bytes]:
    """Returns the frame at the front of bytes, such as a message of a stream, and the bytes after it.

    If there is none an EventError tells why. Nothing of a commit is verified yet.
    """
    held = to_bytes(data)
    event, end = _event_at(held, 0)
    return event, held[end:]


def read_events(source: Buffer | Readable, /) -> Iterator[Event]:
    """Yields the frames in bytes or a binary file, one after the other.

    The first that is not a frame raises an EventError, and ends the iteration. For a file, the frame
    that is read and a piece of the file are in memory; if no frame ends in the rest, all of the rest.
    A file that does not block, and has no bytes yet, raises a BlockingIOError, which ends it too.
    """
    if hasattr(source, "read"):
        file = cast("Readable", source)
        return _events_of(b"", lambda most: _read(file, most))
    return _events_of(to_bytes(cast("Buffer", source)), lambda most: b"")


def verify_event(event: CommitEvent | Buffer, known: Known | None = None, /) -> Verified:
    """Verifies a commit by its frame alone: an event that was read, or the frame's bytes.

    It is verified against what is known of the repository: `verified.known` of its last commit, or
    `Known(repo.data, repo.rev)` of a whole repository that was read. If it is not verified an
    EventError tells why. The caller has to check that the account's key signed the commit.
    """
    frame = event.frame if isinstance(event, Frame) else to_bytes(event)
    root, rev = (bytes(known.root), known.rev.encode(errors="surrogatepass")) if known else (b"", b"")
    code, answer, _ = verify_frame(frame, root, rev)
    if code < 0:
        raise _error(code, answer)
    told = loads(answer)
    del told["commit"]["version"]
    return Verified(
        **told["commit"],
        before=told["before"],
        commit=told["cid"],
        signed=told["signed"],
        changes=tuple(Change(key.decode(), old, new) for key, old, new in told["changes"]),
    )


def _error(code: int, node: bytes = b"") -> EventError:
    told = refusal(code)
    return EventError(str(told), told.kind, CID(node) if node else None)


def _event_at(held: bytes, start: int) -> tuple[Event, int]:
    """Returns the frame that stands there, and where it ends."""
    code, body, end = event_frame(held, start)
    if code < 0:
        raise _error(code)
    return _event_of(code, held[start:body], held[body:end]), end


def _events_of(held: bytes, more: Callable[[int], bytes]) -> Iterator[Event]:
    """Yields the frames of what is held, and of what comes after it."""
    start = 0
    while True:
        try:
            event, start = _event_at(held, start)
        except EventError as error:
            piece = more(max(PIECE, len(held) - start)) if error.kind == "NoEnd" else b""
            if not piece and error.kind == "NoEnd" and start == len(held):
                return
            if not piece:
                raise
            held, start = held[start:] + piece, 0
        else:
            yield event


def _read(file: Readable, most: int) -> bytes:
    """Reads bytes that the file has at hand, at most this many; waits for one, and returns none at the end."""
    at_hand = getattr(file, "read1", None)
    piece: bytes | None = at_hand(most) if at_hand else file.read(most)
    if at_hand and not piece:
        piece = file.read(1)  # read1 returns the same at the end as where there are no bytes yet
    if piece is None:
        raise BlockingIOError("read() has no bytes yet")
    return piece


def _event_of(code: int, header: bytes, body: bytes) -> Event:
    """The frame of this kind, by the number of the library."""
    told, frame = loads(body), header + body
    if code == len(CLASSES):
        return OtherEvent(loads(header)["t"], told, frame=frame)
    of = CLASSES[code]
    if of is CommitEvent:
        ops = (RepoOp(it["action"], it["path"], it["cid"], it.get("prev")) for it in told["ops"])
        told |= {"ops": tuple(ops), "blobs": tuple(told["blobs"])}
    names = [it for it in of.__dataclass_fields__ if it != "frame"]
    return cast("Event", of(frame=frame, **{it: told.get(NAMES.get(it, it)) for it in names}))
