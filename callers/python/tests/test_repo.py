"""Repositories of signed records: whole ones, each read beside a writer of trees that is written apart, and damaged ones."""

import dataclasses
import io
import mmap
import os
import random
import sys

import pytest
from dagcbor import CID, DagCborError, loads, read_repo

sys.path.append(os.path.join(os.path.dirname(os.path.realpath(__file__)), "../../../faults"))

from car_bytes import link, section
from repositories import DAMAGES, WORDS, over
from signed_trees import Pool, commit, file_of, record, spelled, tree_of

RECORDS = {f"app.bsky.feed.post/3k{n:04}".encode(): record(bytes([n])) for n in range(200)}
TREE = tree_of(RECORDS)
FILE = over(TREE)


def of(records, **changed):
    """A repository's file, and what is to be read."""
    tree = tree_of(records)
    wanted = {
        "did": "did:plc:abc",
        "rev": "3jzfcijpj2z2a",
        "data": CID(tree.name()),
        "prev": None,
        "sig": bytes(range(64)),
        "signed": commit(tree.name(), **{**changed, "sig": None}),
        "records": [(key.decode(errors="surrogateescape"), CID(records[key])) for key in sorted(records)],
    }
    return over(tree, **changed), wanted


def told(source):
    repo = read_repo(source)
    fields = {it.name: getattr(repo, it.name) for it in dataclasses.fields(repo)}
    return {**fields, "records": list(repo.records.items())}


def test_a_whole_repository():
    file, wanted = of(RECORDS)
    assert told(file) == wanted
    repo = read_repo(file)
    assert loads(repo.signed) == {"did": repo.did, "rev": repo.rev, "data": repo.data, "prev": None, "version": 3}
    with pytest.raises(dataclasses.FrozenInstanceError):
        repo.did = "did:plc:other"


def test_fields():
    before, did = record(b"before"), "did:web:é"
    file, wanted = of(RECORDS, prev=link(before), sig=spelled(2, b""), did=spelled(3, did.encode()))
    assert told(file) == {**wanted, "prev": CID(before), "sig": b"", "did": did}


def test_random_trees():
    rng = random.Random(20261127)
    pool = Pool(rng)
    for _ in range(100):
        file, wanted = of(pool.take(rng))
        assert told(file) == wanted
    for number, damage in enumerate(DAMAGES * 3):
        file, wanted = damage(rng, pool)
        with pytest.raises(DagCborError) as error:
            read_repo(file)
        assert WORDS.get(wanted, wanted) in str(error.value), (damage, number)
        assert "\n" not in str(error.value) and error.value.place is None


def test_an_answer_that_is_longer_than_the_file():
    """Long keys with long fronts alike: a tree has each front once, and the answer has it in each key."""
    records = {b"a" * 1000 + f"/{n:05}".encode(): record(b"1") for n in range(2000)}
    file, wanted = of(records)
    assert len(file) < 1_000_000 and told(file) == wanted


def test_keys_that_are_no_text():
    records = {b"\xff/a": record(b"1"), "é/ü".encode(): record(b"2"), b"\x80": record(b"3"), b"\0": record(b"4")}
    file, wanted = of(records)
    assert told(file) == wanted
    assert [key.encode(errors="surrogateescape") for key in read_repo(file).records] == sorted(records)


class Short:
    """Gives a byte, then two and so on."""

    def __init__(self, file):
        self.file, self.count = io.BytesIO(file), 0

    def read(self, most):
        self.count = min(self.count + 1, most)
        return self.file.read(self.count)


def test_sources(tmp_path):
    wanted = read_repo(FILE)
    (tmp_path / "repo.car").write_bytes(FILE)
    with open(tmp_path / "repo.car", "rb") as file:
        sources = [bytearray(FILE), memoryview(FILE), io.BytesIO(FILE), Short(FILE), file]
        sources.append(mmap.mmap(file.fileno(), 0, access=mmap.ACCESS_READ))
        for source in sources:
            assert read_repo(source) == wanted
    for other in ("text", 5, None, io.StringIO("text")):
        with pytest.raises(TypeError):
            read_repo(other)
    nothing_yet = type("Nothing", (), {"read": lambda self, most: None})()
    with pytest.raises(BlockingIOError):
        read_repo(nothing_yet)


def test_no_repository():
    block = commit(TREE.name())
    for file, said in [
        (b"", "refused Truncated"),
        (FILE[:-1], "refused Truncated"),
        (file_of(block, TREE.all(), TREE.name()), "is no commit: "),
        (over(TREE, version=b"\x02"), "is a commit of version 2"),
        (file_of(block, TREE.all()[1:]), f"missing {CID(TREE.name())} dag-cbor"),
    ]:
        with pytest.raises(DagCborError, match=said):
            read_repo(file)
    assert told(FILE + section(b"\xf6")) == of(RECORDS)[1]  # another block beside


@pytest.mark.parametrize("byte", range(0, len(FILE), 997))
def test_a_byte_that_is_another(byte):
    damaged = FILE[:byte] + bytes([FILE[byte] ^ 1]) + FILE[byte + 1:]
    with pytest.raises(DagCborError):
        read_repo(damaged)
