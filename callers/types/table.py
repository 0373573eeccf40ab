"""Tests the types made from schemas, in Python, on the lines of schemas/examples/verdicts.py, which come on the input."""

import importlib
import sys

from dagcbor import DagCborError


def ways(module, name):
    """What reads a block and what writes it: those of the class, or of the type's name if it has no class."""
    made = getattr(module, name)
    if hasattr(made, "from_block"):
        return made.from_block, made.to_block
    return tuple(getattr(module, f"{name.lower()}_{way}_block") for way in ("from", "to"))


def answer(read, write, block):
    """Returns the block as it is written again, or the kind of the error and the path that it names."""
    try:
        value = read(block)
        assert read(bytearray(block)) == value
        return write(value).hex()
    except DagCborError as error:
        path = "/".join(map(str, error.place)) or "-"
        assert str(error).startswith("" if path == "-" else f"{path}: "), error
        return f"{error.kind} {path}"


count = 0
for line in sys.stdin:
    schema, name, block, wanted = line.strip().split(" ", 3)
    found = answer(*ways(importlib.import_module(schema), name), bytes.fromhex(block))
    assert found == wanted, f"{schema} {name} {block}: {found} in place of {wanted}"
    count += 1
assert count > 50

# No item stands after one that is left out, and what is not a member is not written.
forms = importlib.import_module("forms")
gap = forms.Point(x=0, y=None, z=0, counts=forms.Counts(), tags=[], t=1)
for value, write, kind, place in [
    (gap, forms.Point.to_block, "Msg", (5,)),
    (forms.Images(images=[]), forms.embed_to_block, "Mismatch", ()),
    (forms.EmbedImages(forms.Images(images=[gap])), forms.embed_to_block, "Msg", ("images", 0, 5)),
    (forms.Units(yes=True, nothing=None, empty={}), forms.Units.to_block, "Mismatch", ("yes",)),
]:
    try:
        raise AssertionError(write(value))
    except DagCborError as error:
        assert (error.kind, error.place) == (kind, place), error
print(f"{count} blocks")
