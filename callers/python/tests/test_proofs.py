"""Commits by themselves, and files that prove a record, each beside what a second reading of the specification makes."""

import dataclasses
import hashlib
import io
import os
import random
import sys

import pytest
from dagcbor import CID, DagCborError, RepoCommit, loads, read_car, read_commit, read_repo, record_proof

sys.path.append(os.path.join(os.path.dirname(os.path.realpath(__file__)), "../../../faults"))

from car_bytes import link, section
from repositories import way_to
from signed_trees import Pool, commit, file_of, named, record, spelled, tree_of

DATA = {f"app.bsky.feed.post/3k{n:04}".encode(): spelled(2, bytes([n])) for n in range(200)}
RECORDS = {key: named(data) for key, data in DATA.items()}
TREE = tree_of(RECORDS)
BLOCK = commit(TREE.name())
NODES = file_of(BLOCK, TREE.all())
FILE = NODES + b"".join(map(section, DATA.values()))
KEY = "app.bsky.feed.post/3k0007"
ABSENT = "app.bsky.feed.post/3k0007.5"


def wanted_of(block, root, **changed):
    return RepoCommit(**{
        "cid": CID(named(block)),
        "did": "did:plc:abc",
        "rev": "3jzfcijpj2z2a",
        "data": CID(root),
        "prev": None,
        "sig": bytes(range(64)),
        "signed": commit(root, sig=None),
        **changed,
    })


WANTED = wanted_of(BLOCK, TREE.name())


def proof_of(tree, key, data):
    """The file that proves the record: its bytes are wanted just so."""
    found = b"" if data is None else section(data)
    return file_of(commit(tree.name()), way_to(tree, key)) + found


# ---- commits


@pytest.mark.parametrize("file", [FILE, NODES, file_of(BLOCK, []), file_of(BLOCK, [], named(BLOCK), TREE.name())])
def test_a_commit(file):
    assert read_commit(file) == WANTED
    assert read_commit(io.BytesIO(file)) == read_commit(bytearray(file)) == WANTED


def test_of_a_repository():
    repo, own = read_repo(NODES), read_commit(NODES)
    fields = {it.name: getattr(own, it.name) for it in dataclasses.fields(own) if it.name != "cid"}
    assert fields == {name: getattr(repo, name) for name in fields}
    assert hashlib.sha256(BLOCK).digest() == bytes(own.cid)[-32:]
    assert loads(own.signed) == {"did": own.did, "rev": own.rev, "data": own.data, "prev": None, "version": 3}
    with pytest.raises(dataclasses.FrozenInstanceError):
        own.did = "did:plc:other"


def test_fields():
    before, did = record(b"before"), "did:web:é"
    changed = {"prev": link(before), "sig": spelled(2, b""), "did": spelled(3, did.encode())}
    block = commit(TREE.name(), **changed)
    signed = commit(TREE.name(), **{**changed, "sig": None})
    wanted = wanted_of(block, TREE.name(), prev=CID(before), sig=b"", did=did, signed=signed)
    assert read_commit(file_of(block, [])) == wanted


NO_COMMIT = [
    (b"", "refused Truncated"),
    (NODES[:-1], "refused Truncated"),
    (file_of(BLOCK, [], TREE.name()), f"missing {CID(TREE.name())} dag-cbor"),
    (file_of(BLOCK, TREE.all(), TREE.name()), f"{CID(TREE.name())} is no commit: "),
    (file_of(commit(TREE.name(), version=b"\x02"), []), "is a commit of version 2"),
    (file_of(commit(TREE.name(), rev=None), []), "is no commit: missing field"),
    (file_of(BLOCK, []).replace(b"did:plc:abc", b"did:plc:abd"), f"{CID(named(BLOCK))} other bytes"),
    (b"\x11\xa2\x65roots\x80\x67version\x01", "the file has no commit: it has no root"),
]


@pytest.mark.parametrize(("file", "said"), NO_COMMIT)
def test_no_commit(file, said):
    for call in (read_commit, lambda it: record_proof(it, KEY)):
        with pytest.raises(DagCborError) as error:
            call(file)
        assert said in str(error.value) and "\n" not in str(error.value)
        assert error.value.kind is None and error.value.place is None


# ---- proofs


@pytest.mark.parametrize("key", [KEY, ABSENT, KEY.encode(), bytearray(ABSENT.encode()), "", "\0", "é"])
def test_a_proof(key):
    raw = key.encode() if isinstance(key, str) else bytes(key)
    proof = record_proof(FILE, key)
    assert proof == proof_of(TREE, raw, DATA.get(raw))
    assert read_commit(proof) == WANTED
    assert record_proof(proof, key) == record_proof(io.BytesIO(FILE), key) == proof
    reader = read_car(proof)
    assert reader.roots == [CID(named(BLOCK))]
    blocks = {bytes(it.cid): it.block for it in reader}
    for name, block in blocks.items():
        assert name == b"\x01\x71\x12\x20" + hashlib.sha256(block).digest()
    assert (RECORDS.get(raw) in blocks) == (raw in RECORDS)


def test_random_trees():
    rng = random.Random(20261130)
    pool = Pool(rng)
    for _ in range(60):
        data = {key: spelled(2, rng.randbytes(4)) for key in pool.take(rng)}
        tree = tree_of({key: named(it) for key, it in data.items()})
        file = file_of(commit(tree.name()), tree.all()) + b"".join(map(section, data.values()))
        for key in rng.sample(sorted(data), min(5, len(data))) + [b"", b"app.bsky.feed.post/none", rng.randbytes(9)]:
            assert record_proof(file, key) == proof_of(tree, key, data.get(key))


def test_keys_that_are_no_text():
    data = {b"\xff/a": spelled(2, b"1"), b"%FF/a": spelled(2, b"2"), b"a b": spelled(2, b"3")}
    tree = tree_of({key: named(it) for key, it in data.items()})
    file = file_of(commit(tree.name()), tree.all()) + b"".join(map(section, data.values()))
    for key in read_repo(file).records:
        raw = key.encode(errors="surrogateescape")
        assert record_proof(file, key) == record_proof(file, raw) == proof_of(tree, raw, data[raw])


def test_blocks_that_are_lost():
    way, data = way_to(TREE, KEY.encode()), DATA[KEY.encode()]
    missing = [(file_of(BLOCK, [it for it in way if it is not lost]) + section(data), lost.name()) for lost in way]
    for file, lost in [*missing, (NODES, named(data))]:
        with pytest.raises(DagCborError, match=f"^missing {CID(lost)} dag-cbor$"):
            record_proof(file, KEY)
        assert read_commit(file) == WANTED
    other = section(data)[:-1] + bytes([data[-1] ^ 1])
    with pytest.raises(DagCborError, match=f"{CID(named(data))} other bytes"):
        record_proof(NODES + other, KEY)
    assert record_proof(NODES + other + section(data), KEY) == proof_of(TREE, KEY.encode(), data)
    with pytest.raises(DagCborError, match="^refused Truncated$"):
        record_proof(FILE[:-1], KEY)


def test_sources_of_other_kinds():
    for call in (read_commit, lambda it: record_proof(it, KEY)):
        for other in ("text", 5, None, io.StringIO("text")):
            with pytest.raises(TypeError):
                call(other)
    for other in (5, None, [KEY]):
        with pytest.raises(TypeError):
            record_proof(FILE, other)
