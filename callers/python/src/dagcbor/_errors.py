"""Why bytes are not a block or a CAR file, why data has no block, why a text is not that of a CID, or
not data."""

from __future__ import annotations

from typing import TYPE_CHECKING

if TYPE_CHECKING:
    from ._car import CarCheck


class DagCborError(ValueError):
    """Bytes that are not a block, data that has no block, or what is not a CID.

    `kind` names the reason, as the library does. `place` is None if it is not known. For bytes it
    is the offset of the byte with which the refusal comes, or the number of bytes, if they end too
    early. For data it is a tuple of the keys and indices that lead to what is refused.
    """

    def __init__(
        self,
        message: str,
        kind: str | None = None,
        place: int | tuple[str | int, ...] | None = None,
    ) -> None:
        super().__init__(message)
        self.kind = kind
        self.place = place

    def __str__(self) -> str:
        said = super().__str__()
        if isinstance(self.place, tuple) and self.place:
            return said + ", at " + "".join(f"[{it!r}]" for it in self.place)
        return f"{said}, at {self.place}" if isinstance(self.place, int) else said


class CarError(DagCborError):
    """Bytes that are not a CAR file.

    `kind` names the variant, as `dagcar check` does, and `place` is the offset in the file of the
    header or the section that is not one. For `check_car`, `checked` is what was found before it; else,
    or if the fault is in the header, it is None.
    """

    place: int
    checked: CarCheck | None = None
