"""Repositories of signed records (AT Protocol)."""

from __future__ import annotations

from dataclasses import dataclass
from mmap import mmap
from typing import TYPE_CHECKING, Any

from ._errors import DagCborError
from ._files import read_all
from ._native import CID, loads, to_bytes
from ._native_memory import commit, proof_of_record, repository

if TYPE_CHECKING:
    from ._native import Buffer, Readable


@dataclass(frozen=True)
class RepoCommit:
    """The commit of a repository, by itself.

    `cid` is its name. The rest is as a `Repository` has it.
    """

    cid: CID
    did: str
    rev: str
    data: CID
    prev: CID | None
    sig: bytes
    signed: bytes


@dataclass(frozen=True)
class Repository:
    """A commit, and the records of its tree.

    `data` is the tree's root, and `prev` the commit before, as a rule None. `sig` is the signature,
    which is not checked, and `signed` has the signed bytes. `records` has the CID of each record
    by its key, in the order of keys; a byte of a key that is not UTF-8 is a surrogate escape.
    """

    did: str
    rev: str
    data: CID
    prev: CID | None
    sig: bytes
    signed: bytes
    records: dict[str, CID]


def read_repo(source: Buffer | mmap | Readable) -> Repository:
    """Returns the repository that a CAR file is, from bytes or a binary file.

    The commit and the whole tree are verified; records need not be in the file. For any other file a
    DagCborError tells why, in the words of `dagcar records`. The file is in memory meanwhile.
    """
    told = loads(_made(repository(_all_of(source))))
    keys = ((key.decode(errors="surrogateescape"), cid) for key, cid in told.pop("records"))
    return Repository(**told, records=dict(keys))


def read_commit(source: Buffer | mmap | Readable) -> RepoCommit:
    """Returns the commit that the first root of a CAR file names, from bytes or a binary file.

    The commit is verified, and no other block need be in the file: the blocks of an event are enough,
    and so is a file that proves a record. For any other file a DagCborError tells why, in the words of
    `dagcar commit`. The file is in memory meanwhile.
    """
    return RepoCommit(**loads(_made(commit(_all_of(source)))))


def record_proof(source: Buffer | mmap | Readable, key: str | Buffer) -> bytes:
    """Makes a CAR file that proves which record the key has in a repository, or that it has none.

    It has the commit, the nodes on the way to the key, and the record, if there is one; the source
    need have no other blocks. A key that is a str stands for its UTF-8, with surrogate escapes as
    `read_repo` has them. If a block is missing, or has other bytes, a DagCborError tells so, in
    the words of `dagcar record-proof`. The source is in memory meanwhile.
    """
    named = key.encode(errors="surrogateescape") if isinstance(key, str) else to_bytes(key)
    return _made(proof_of_record(_all_of(source), named))


def _made(answer: tuple[int, bytes, int]) -> bytes:
    """Returns what is made, or raises the line that tells why nothing is."""
    code, made, _ = answer
    if code != 0:
        raise DagCborError(made.decode().rstrip("\n"))
    return made


def _all_of(source: Any) -> bytes:
    """Returns all its bytes: those of a file from its position on."""
    is_file = hasattr(source, "read") and not isinstance(source, mmap)
    return read_all(source) if is_file else to_bytes(source)
