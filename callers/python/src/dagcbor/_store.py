"""A store of blocks in a file that lasts: the program `dagstore`, started and asked.

The store stays a process of its own, which answers requests on its standard input. So a fault here
cannot damage the file, and what the program's contracts say holds for it."""

from __future__ import annotations

import contextlib
import os
import re
import shutil
import subprocess
import tempfile
import threading
import weakref
from typing import IO, TYPE_CHECKING, NamedTuple, TypeVar, overload

from ._files import pieces_of
from ._native import CID, to_bytes

if TYPE_CHECKING:
    from collections.abc import Iterator

    from ._native import Buffer

T = TypeVar("T")
CODECS = ("dag-cbor", "raw")
NO_DEFAULT = object()
HERE = os.path.dirname(os.path.abspath(__file__))


class StoreError(Exception):
    """What `dagstore` says of a call that it refuses. It undoes everything that waited for a commit,
    if the class does not say otherwise."""


class StoreLocked(StoreError):
    """Another process, or another Store, has the file open."""


class StoreUnreadable(StoreError):
    """The file is not a store of blocks, or is of an earlier version, cannot be opened for reading and
    writing, or has an entry or a row that no store writes."""


class StoreFull(StoreError):
    """The disk is full."""


class StoreDiskError(StoreError):
    """The disk failed, or the file is damaged."""


class StoreMemoryError(StoreError, MemoryError):
    """The program is out of memory."""


class StoreEnded(StoreError):
    """The program ended, or the store is closed. What was answered before is in the file."""


class InvalidBlock(StoreError, ValueError):
    """Bytes that are not a block of their codec. Nothing is changed or undone."""


class InvalidCar(StoreError, ValueError):
    """Bytes that are not a CAR file, or a CAR file with a block that is not one."""


class DamagedBlock(StoreError):
    """The bytes that are stored under `cid` are not those that it names. Nothing is changed or undone."""

    def __init__(self, said: str, cid: CID | None = None) -> None:
        super().__init__(said)
        self.cid = cid


class Imported(NamedTuple):
    """What a CAR file had: the roots of its header, and the number of sections."""

    roots: list[CID]
    sections: int


# How the last line of a message begins: it tells why.
REFUSALS: tuple[tuple[str, type[StoreError]], ...] = (
    ("another process has the file open", StoreLocked),
    ("the file (is no store|is of an earlier version|cannot be opened)", StoreUnreadable),
    ("the (index of names has a wrong entry|table of roots has a wrong row)", StoreUnreadable),
    ("database or disk is full|the file takes no more", StoreFull),
    ("disk I/O error|database disk image is malformed|the transaction must be", StoreDiskError),
    ("out of memory", StoreMemoryError),
    ("the block (is (?!too long)|has other bytes)", InvalidBlock),
    ("the input is not a CAR file", InvalidCar),
)


def refusal_of(said: str) -> StoreError:
    """The error for a message of the program: its last line tells why, and the lines before it tell where."""
    lines = [it.removeprefix("dagstore: ") for it in said.splitlines()]
    text = ", ".join(lines)
    why = lines[-1] if lines else ""
    if why.startswith("what is stored under the name"):
        name = lines[0].partition(" ")[0] if len(lines) > 1 else ""
        return DamagedBlock(text, CID(name) if name else None)
    if why != "the input failed" and any(it.startswith("after ") for it in lines[:-1]):
        return InvalidCar(text)
    return next((kind(text) for start, kind in REFUSALS if re.match(start, why)), StoreError(text))


def program_of(given: str | os.PathLike[str] | None) -> str:
    """The program: the one given, the one of the environment, one beside this package, or one on PATH."""
    beside = os.path.join(HERE, "dagstore")
    named = os.fspath(given) if given is not None else os.environ.get("DAGSTORE")
    found = named or (beside if os.path.exists(beside) else shutil.which("dagstore"))
    if not found:
        raise FileNotFoundError("there is no program `dagstore`: name it, or set DAGSTORE, or put it on PATH")
    return found


def path_of(path: str | os.PathLike[str]) -> str:
    """Returns an absolute path that can stand in a line."""
    text = os.path.abspath(os.fspath(path))
    if "\n" in text:
        raise ValueError("a path with a line feed cannot be asked for")
    text.encode()  # a path that is not UTF-8 cannot be either
    return text


class Store:
    """Blocks under their CIDs, in a file that lasts.

    `Store(path)` opens the file, or makes it if there is none, and has it alone until `close`, or
    the end of `with`. `program` is the program `dagstore`; else it is that of the environment variable
    DAGSTORE, or one beside this package, or one on PATH.

    Each change is on the disk when its call returns; in a `batch` all of them are at its end. Threads
    may share a store: each call waits for the one before, and a batch of one thread for that of
    another.
    """

    def __init__(
        self, path: str | os.PathLike[str], program: str | os.PathLike[str] | None = None
    ) -> None:
        self._lock = threading.RLock()
        self._in_batch = self._is_busy = False
        self._failed: StoreError | None = None
        self._pid = os.getpid()
        self._process: subprocess.Popen[bytes] | None = None
        words = [program_of(program), os.path.abspath(os.fspath(path)), "serve"]
        pipe = subprocess.PIPE
        self._process = subprocess.Popen(
            words, stdin=pipe, stdout=pipe, stderr=pipe, process_group=0
        )
        STORES.add(self)
        self._ask("rollback")

    # ---- one exchange

    def _ended(self, process: subprocess.Popen[bytes]) -> StoreError:
        """Returns why the program does not answer any more."""
        self._process = None
        process.kill()
        said = process.communicate()[1].decode(errors="replace").strip()
        error = refusal_of(said)
        if type(error) is not StoreError:
            return error
        return StoreEnded(f"the program ended with status {process.returncode}: {said}".rstrip(": "))

    def _exchange(self, request: bytes, block: bytes) -> tuple[str, bytes]:
        """Sends a request, and reads the answer: its word, and its bytes."""
        process = self._process
        if process is None:
            raise StoreEnded("the store is closed")
        if os.getpid() != self._pid:
            raise StoreEnded("the store was opened by another process than this one")
        if self._is_busy:  # what asks is a signal handler, or a finalizer, of the thread that has the lock
            raise RuntimeError("the store is already at work")
        assert process.stdin and process.stdout
        self._is_busy = True
        try:
            process.stdin.write(request)
            process.stdin.write(block)
            process.stdin.flush()
            word, _, length = process.stdout.readline().decode().partition(" ")
            wanted = int(length or -1)
            body = process.stdout.read(wanted) if wanted >= 0 else b""
            if len(body) != wanted:
                raise EOFError
        except (OSError, EOFError, ValueError):
            raise self._ended(process) from None
        except BaseException:
            # It is not known what was answered, so nothing more is asked.
            self._ended(process)
            raise
        finally:
            self._is_busy = False
        return word, body

    def _ask(self, request: str, block: bytes = b"") -> bytes | None:
        """Returns the bytes of the answer, or None if there are none."""
        with self._lock:
            if self._failed:
                raise self._failed
            try:
                word, body = self._exchange(request.encode() + b"\n", block)
                if word == "ok":
                    return body
                if word == "none":
                    return None
                said = body.decode(errors="replace")
                raise refusal_of(said) if word == "refused" else StoreError(f"{word}: {said.strip()}")
            except StoreError as error:
                if self._in_batch and not isinstance(error, (InvalidBlock, DamagedBlock)):
                    self._failed = error
                raise

    def _change(self, request: str, block: bytes = b"") -> bytes | None:
        """Makes a change and commits it, or leaves that to the batch."""
        with self._lock:
            answer = self._ask(request, block)
            if not self._in_batch:
                self._ask("commit")
            return answer

    # ---- blocks

    @overload
    def get(self, cid: CID, /) -> bytes: ...
    @overload
    def get(self, cid: CID, default: T, /) -> bytes | T: ...
    def get(self, cid: CID, default: object = NO_DEFAULT, /) -> object:
        """Returns the block, with the bytes that the CID names; else the default, or it raises a KeyError."""
        block = self._ask(f"get {text_of(cid)}")
        if block is None and default is NO_DEFAULT:
            raise KeyError(cid)
        return default if block is None else block

    def __getitem__(self, cid: CID) -> bytes:
        return self.get(cid)

    def __contains__(self, cid: CID) -> bool:
        return self._ask(f"has {text_of(cid)}") is not None

    def __len__(self) -> int:
        """Returns how many names are listed. The time grows with their number."""
        return int(self._ask("count") or b"0")

    def __iter__(self) -> Iterator[CID]:
        """Yields the names, in the order of their bytes. It may miss one that is put or removed meanwhile."""
        name = self._ask("next")
        while name is not None:
            cid = CID(name.decode())
            yield cid
            name = self._ask(f"next {cid}")

    def put(self, data: Buffer, codec: str | int = "dag-cbor") -> CID:
        """Keeps the block, and returns its CID, of version 1 by SHA-256. The codec is `dag-cbor`,
        `raw` or a number. A block of DAG-CBOR or DAG-PB is judged, and may raise InvalidBlock."""
        block = to_bytes(data)
        with self._lock:
            word = "add" if self._in_batch else "put"
            name = self._ask(f"{word} {codec_of(codec)} {len(block)}", block)
        return CID((name or b"").decode())

    def remove(self, cid: CID) -> None:
        """Takes out what is listed under the CID; raises a KeyError if nothing is."""
        if self._change(f"remove {text_of(cid)}") is None:
            raise KeyError(cid)

    def __delitem__(self, cid: CID) -> None:
        self.remove(cid)

    # ---- roots

    @property
    def roots(self) -> list[CID]:
        """Returns the names that are kept as roots, in their order."""
        return [CID(it) for it in (self._ask("roots") or b"").decode().split()]

    def add_root(self, cid: CID) -> None:
        """Keeps the name as a root, after the others, if it is not one yet. A block need not be there."""
        self._change(f"add-root {text_of(cid)}")

    def remove_root(self, cid: CID) -> None:
        """Takes the name out of the roots; raises a KeyError if it is not one. The block stays."""
        if self._change(f"drop-root {text_of(cid)}") is None:
            raise KeyError(cid)

    # ---- many at once

    @contextlib.contextmanager
    def batch(self) -> Iterator[Store]:
        """Changes in `with store.batch():` are committed at its end, all of them or none. None are if
        it ends by an exception, or if a call in it failed. Other threads wait."""
        with self._lock:
            if self._in_batch:
                raise RuntimeError("a batch is open")
            self._in_batch = True
            try:
                yield self
                self._ask("commit")
            except BaseException:
                self._failed = None
                if self._process is not None:
                    with contextlib.suppress(StoreError):
                        self._ask("rollback")
                raise
            finally:
                self._in_batch, self._failed = False, None

    # ---- CAR files

    def import_car(self, source: str | os.PathLike[str] | Buffer | IO[bytes]) -> Imported:
        """Keeps the blocks and the roots of a CAR file, all of them or none. The source is a
        path, or bytes, or a binary file, which goes to a temporary file first."""
        if isinstance(source, (str, os.PathLike)):
            with open(source, "rb"):
                return self._import(path_of(source))
        with tempfile.NamedTemporaryFile(suffix=".car") as copy:
            if hasattr(source, "read"):
                copy.writelines(pieces_of(source))
            else:
                copy.write(to_bytes(source))
            copy.flush()
            return self._import(copy.name)

    def _import(self, path: str) -> Imported:
        with self._lock:
            if self._in_batch:
                raise RuntimeError("a CAR file is a batch of its own")
            *roots, count = (self._ask(f"import {path}") or b"").decode().splitlines()
        return Imported([CID(it.removeprefix("root ")) for it in roots], int(count.removeprefix("stored ")))

    def export_car(self, path: str | os.PathLike[str]) -> None:
        """Makes a file of all blocks (CAR, version 1), with the roots that are kept. It overwrites no
        file: if there is one it raises FileExistsError."""
        text = path_of(path)
        if os.path.lexists(text):
            raise FileExistsError(f"there is a file {text}")
        self._ask(f"export {text}")

    # ---- the end

    def close(self) -> None:
        """Ends the program. What is not committed is undone. A second call does nothing."""
        with self._lock:
            process, self._process = self._process, None
            if process is not None and os.getpid() == self._pid:
                process.communicate()

    def __enter__(self) -> Store:
        return self

    def __exit__(self, *_error: object) -> None:
        self.close()

    def __del__(self) -> None:
        with contextlib.suppress(Exception):
            self.close()


STORES: weakref.WeakSet[Store] = weakref.WeakSet()


def let_go() -> None:
    """In a forked process, lets go of its parent's stores. Else their programs would not end before it,
    and a lock would stay that of a thread which this process does not have."""
    with open(os.devnull, "wb") as nothing:
        for store in STORES:
            store._lock = threading.RLock()
            if store._process is not None and store._process.stdin and not store._process.stdin.closed:
                os.dup2(nothing.fileno(), store._process.stdin.fileno(), inheritable=False)


os.register_at_fork(after_in_child=let_go)


def text_of(cid: CID) -> str:
    if not isinstance(cid, CID):
        raise TypeError(f"a CID is wanted, and not {type(cid).__name__}")
    return str(cid)


def codec_of(codec: str | int) -> str:
    """Returns the word of a codec."""
    if isinstance(codec, str):
        if codec not in CODECS:
            raise ValueError("a codec is 'dag-cbor', 'raw' or a number")
        return CODECS[CODECS.index(codec)]  # a subclass may be written in another way
    if not 0 <= codec < 2**64:
        raise ValueError("a codec has 64 bits")
    return f"0x{codec:x}"
