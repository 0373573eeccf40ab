"""Blocks of DAG-PB by their data model, against a reader and a writer apart (conformance/dagpb.py)."""

import random

import conformance
import pytest
from dagcbor import CID, DagCborError, dag_pb, loads

dagpb = conformance.dagpb
HASH = bytes.fromhex("0155000161")


def node_of(links, data):
    """The dict that `loads` has to give, or None."""
    model = dagpb.model(links, data)
    if model is None:
        return None
    return model | {"Links": [it | {"Hash": CID(bytes(it["Hash"]))} for it in model["Links"]]}


def hold(block):
    try:
        links, data = dagpb.read(block)
    except dagpb.Refused as refused:
        cause, place = refused.args
        with pytest.raises(DagCborError) as found:
            dag_pb.loads(block)
        assert (found.value.kind, found.value.place) == (dagpb.VARIANTS[cause], place)
        with pytest.raises(DagCborError) as found:
            dag_pb.links(block)
        assert (found.value.kind, found.value.place) == (dagpb.VARIANTS[cause], place)
        return
    assert dag_pb.links(block) == [CID(cid) for cid, _, _ in links]
    wanted = node_of(links, data)
    if wanted is None:
        with pytest.raises(DagCborError) as found:
            dag_pb.loads(block)
        assert (found.value.kind, found.value.place) == ("NameNotText", None)
        return
    node = dag_pb.loads(block)
    assert node == wanted
    node["Links"].sort(key=lambda it: it.get("Name", "").encode())
    assert dag_pb.dumps(node) == dagpb.spell(links, data)


def test_vectors():
    for vector in conformance.load(["dag-pb"]):
        hold(conformance.block_of(vector))


def test_random_nodes():
    draw = random.Random(1)
    for _ in range(3000):
        links = []
        for _ in range(draw.randrange(4)):
            name = draw.choice([None, b"", b"a", b"ab", "\u00e9".encode(), b"\xff"])
            links.append((HASH, name, draw.choice([None, 0, 1, 127, 128, 2**32, 2**64 - 1])))
        block = bytearray(dagpb.spell(links, draw.choice([None, b"", b"data", bytes(200)])))
        for _ in range(draw.choice([0, 0, 1, 2])):
            if block:
                block[draw.randrange(len(block))] = draw.randrange(256)
        hold(bytes(block))


def test_refused():
    for node, kind in [
        ({}, "NotANode"),
        ({"Links": [], "More": 1}, "NotANode"),
        ({"Links": [{}]}, "NotANode"),
        ({"Links": [{"Hash": CID(HASH), "Name": None}]}, "NotANode"),
        ({"Links": [{"Hash": CID(HASH), "Tsize": -1}]}, "NotANode"),
        ({"Links": [], "Data": "text"}, "NotANode"),
        ({"Links": [{"Hash": CID(HASH), "Name": "b"}, {"Hash": CID(HASH), "Name": "a"}]}, "UnsortedLinks"),
    ]:
        with pytest.raises(DagCborError) as found:
            dag_pb.dumps(node)
        assert (found.value.kind, found.value.place) == (kind, None)


def test_buffers():
    block = dag_pb.dumps({"Data": bytes(100000), "Links": [{"Hash": CID(HASH)}]})
    for it in (block, bytearray(block), memoryview(block)):
        assert dag_pb.loads(it)["Data"] == bytes(100000)
    with pytest.raises(TypeError):
        dag_pb.loads("text")
    with pytest.raises(DagCborError):
        loads(block)
    assert dag_pb.CODEC == 0x70
