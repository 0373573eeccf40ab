"""Where paths lead in a block: over the vectors of all codecs, and by hand."""

import pytest
from conformance import block_of, subjects
from dagcbor import CID, DagCborError, dumps, find, name

LINK = name(dumps(1))
DATA = {
    "a": [{"b": "hi", "": 7, "0": "zero"}, [1, [2, -3]], None, True, b"xy", LINK],
    "0": "key", "a/b": 1, "\u00e9": [False], "aa": {"x": {}}, "": "empty",
}


@pytest.mark.parametrize("subject", ["paths", "segments"])
def test_vectors(subject):
    vectors = subjects(subject)
    for it in vectors:
        block, path = block_of(it), it.get("path", it.get("segments"))
        given = [(block, path), (bytearray(block), path if subject == "paths" else tuple(path))]
        for them in given:
            if it["verdict"] == "ok":
                assert dumps(find(*them)) == block[slice(*it["span"])], it["id"]
            else:
                with pytest.raises(KeyError if it["cause"] == "no such item" else DagCborError):
                    find(*them)
    assert len(vectors) > 1000


def test_segments_are_taken_whole():
    assert find(dumps(DATA), ["a/b"]) == 1 and find(dumps(DATA), [""]) == "empty"
    assert find(dumps(DATA), ["a", "0", ""]) == 7 and find(dumps(DATA), ()) == DATA
    for segments in (["a/0"], ["a", ""], ["a", "5", ""], ["a", "0", "b", ""], ["0"] * 5000):
        with pytest.raises(KeyError) as none:
            find(dumps(DATA), segments)
        assert none.value.args == (segments,)


def test_what_is_no_block_is_refused():
    with pytest.raises(DagCborError) as refused:
        find(b"\x82\x01\x18\x17", "0")
    assert (refused.value.kind, refused.value.place) == ("NonMinimal", 3)
    for segments in ([], ["0"]):
        with pytest.raises(DagCborError) as refused:
            find(b"\x82\x01\x18\x17", segments)
        assert (refused.value.kind, refused.value.place) == ("NonMinimal", 3)


def test_a_link_is_an_item():
    assert find(dumps(DATA), "a/5") == LINK and isinstance(LINK, CID)


def test_other_arguments():
    with pytest.raises(TypeError):
        find(dumps(DATA), 0)
    with pytest.raises(TypeError):
        find(dumps(DATA))
    with pytest.raises(UnicodeEncodeError):
        find(dumps(DATA), "\ud800")
    with pytest.raises(UnicodeEncodeError):
        find(dumps(DATA), ["\ud800"])
    for segments in ([0], [b"a"], b"a", ["a", None]):
        with pytest.raises(TypeError):
            find(dumps(DATA), segments)
