"""Items one after the other, and blocks in files."""

from __future__ import annotations

from typing import TYPE_CHECKING

from ._files import put, read_all
from ._native import dumps, loads, loads_first, to_bytes

if TYPE_CHECKING:
    from collections.abc import Callable, Iterator
    from typing import Any

    from ._files import Writable
    from ._native import Buffer, Readable


def iter_loads(items: Buffer) -> Iterator[Any]:
    """Yields the data of each item of the bytes. The items stand one after the other."""
    items, place = to_bytes(items), 0
    while place < len(items):
        value, place = loads_first(items, place)
        yield value


def load(file: Readable, /) -> Any:
    """Returns the data of the block that a binary file has, from its position to its end."""
    return loads(read_all(file))


def dump(value: Any, file: Writable, /, *, default: Callable[[Any], Any] | None = None) -> None:
    """Writes the one block of the data to a binary file. If the data is refused nothing is written."""
    put(file, dumps(value, default=default))
