"""What the calls share that pack all boxes, or what fits of them."""
from __future__ import annotations

import ctypes
from collections.abc import Hashable, Iterable
from typing import Any

from . import _library
from ._collection import HEURISTICS
from ._numbers import MOST, MOST_OF_64, Size
from ._stock import Offer
from ._types import Heuristic, Left, Placement

# The name, the group and the size of each box, and where it stands, as the library says it.
_Entry = tuple[Any, Hashable, Size]
Rows = Iterable[tuple[_Entry, tuple[Any, ...]]]

# The first number of the row of a box that is left: its bin in a call that packs once, its number in a session.
LEFT_BIN, LEFT_NUMBER = MOST, MOST_OF_64


def packed(calls: str, partial: bool, *given: object) -> Heuristic:
    """Has all boxes packed, or what fits of them, by one of the two calls whose names begin so. Answers the heuristic."""
    if partial:
        fitted = _library.RpFitted()
        _library.check(_library.call(f"{calls}fitting", *given, fitted))
        number: int = fitted.heuristic
        return HEURISTICS[number]
    chosen = ctypes.c_uint32()
    _library.check(_library.call(f"{calls}collection", *given, chosen))
    return HEURISTICS[chosen.value]


def parted(rows: Rows, left_first: int) -> tuple[Rows, tuple[Left, ...]]:
    """The rows of boxes that are placed, and the boxes that are left: those whose row begins with this number."""
    placed, left = [], []
    for entry, row in rows:
        if row[0] == left_first:
            left.append(Left(*entry[:2]))
        else:
            placed.append((entry, row))
    return placed, tuple(left)


def placements_of(rows: Rows, offer: Offer) -> tuple[Placement[Any, Any], ...]:
    """Where boxes stand that are not turned, of the index of the bin and the corner of each."""
    names, copies = offer.names, offer.copies
    return tuple(
        Placement(name, group, names[bin], x, y, z, *size, copies[bin]) for (name, group, size), (bin, x, y, z) in rows)
