"""Types with more than the prover takes, from large.ipldsch and others.ipldsch beside this file: each is written and read again, and what
holds itself is refused."""

import dataclasses

import large
import others
from dagcbor import DagCborError, loads

DEEP = [[5]]


def values(kind, **others):
    """A number for each field, except these."""
    numbers = {field.name: number for number, field in enumerate(dataclasses.fields(kind))}
    return kind(**numbers | others)


row, pairs, implied = values(large.Row, b6=DEEP), values(large.Pairs, e=DEEP), values(large.Implied)
assert loads(row.to_block()) == [*range(16), DEEP]
assert loads(pairs.to_block()) == [["a", 0], ["b", 1], ["c", 2], ["d", 3], ["e", DEEP]]
assert "a0" not in loads(implied.to_block()) and loads(implied.to_block())["b5"] == 15
told = large.ToldOneOf(values(large.OneOf))
assert loads(large.told_to_block(told)) == {"t": "x"} | {f"c{n}": n for n in range(8)}
for kind, value in ((large.Row, row), (large.Pairs, pairs), (large.Implied, implied)):
    assert kind.from_block(value.to_block()) == value
assert large.told_from_block(large.told_to_block(told)) == told


def refusal(write, value):
    try:
        raise AssertionError(write(value))
    except DagCborError as error:
        return error.kind, error.place


def deep(levels):
    tree = []
    for _ in range(levels - 1):
        tree = [tree]
    return tree


assert refusal(large.Row.to_block, values(large.Row, b6=[5])) == ("Mismatch", (16, 0))
name = others.Name(first="a", side=others.Side.Left, last=others.IdString("b"))
assert name.to_block() == b"\x68a/l/id:b"
for first, last in [("a/b", "b"), ("a", "b/")]:
    name = others.Name(first=first, side=others.Side.Left, last=others.IdString(last))
    assert refusal(others.Name.to_block, name) == ("Msg", ())
pair = others.IdPair(others.Pair(one="a.", two="b"))
assert refusal(others.id_to_block, pair) == ("Msg", ())
tree, branch, ann, wrapped = [], {}, others.Person(name="", friends=[]), others.WrappedWrapped(1)
tree.append(branch)
branch["a"] = tree
ann.boss = others.Person(name="", friends=[ann])
wrapped.value = wrapped
for write, value, place in [
    (others.tree_to_block, tree, (0, "a") * 63 + (0,)),
    (others.Person.to_block, ann, ("boss", "friends", 0) * 42 + ("boss",)),
    (others.wrapped_to_block, wrapped, ("data",) * 127),
    (others.tree_to_block, deep(129), (0,) * 127),
    (others.tree_to_block, deep(10_000), (0,) * 127),
]:
    assert refusal(write, value) == ("DepthOverflow", place)
assert others.tree_from_block(others.tree_to_block(deep(128))) == deep(128)
assert others.trees_to_block({"a": None, "b": [5]}) == b"\xa2\x61a\xf6\x61b\x81\x05"
for block in (b"\x81" * 128 + b"\x80", b"\x81" * 100_000 + b"\x80"):
    assert refusal(others.tree_from_block, block)[0] == "DepthOverflow"
