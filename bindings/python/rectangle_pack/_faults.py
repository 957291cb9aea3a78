"""What may be wrong with a packing that somebody made."""
from __future__ import annotations

import enum
from collections.abc import Hashable
from dataclasses import dataclass
from typing import Any, Generic

from ._types import BinName, BoxName, Placement


class FaultKind(enum.Enum):
    """What is wrong, in the order in which it is looked for. The values are the numbers of the library."""

    unknown_bin = 1
    unknown_box = 2
    wrong_size = 3
    outside = 4
    placed_twice = 5
    shares_cell = 6
    group_in_two_bins = 7
    excluded_together = 8
    not_placed = 9


# What each kind says, of first and second, or of a box.
_TEXTS = {
    FaultKind.unknown_bin: "{first} stands in bin {first_bin}, which is not there",
    FaultKind.unknown_box: "{first} is no box that is to be placed: {first_place} in bin {first_bin}",
    FaultKind.wrong_size: "{first} stands in a size that is not its own: {first_place} in bin {first_bin}",
    FaultKind.outside: "{first} is not inside bin {first_bin}: {first_place}",
    FaultKind.placed_twice: "{first} is placed twice: {first_place} in bin {first_bin} and {second_place} in bin {second_bin}",
    FaultKind.shares_cell: "{first} and {second} share a cell of bin {first_bin}: {first_place} and {second_place}",
    FaultKind.group_in_two_bins: "{first} and {second} stand in two bins: {first_bin} and {second_bin}",
    FaultKind.excluded_together: "{first} and {second} stand in one bin: {first_bin}",
    FaultKind.not_placed: "{box} is not placed",
}


def _named(name: Hashable, group: Hashable) -> str:
    return repr(name) if group is None else f"{name!r} of group {group!r}"


def _told(which: str, it: Placement[Any, Any]) -> dict[str, str]:
    """What the texts say of a placement, by the words in them."""
    place = f"({it.x}, {it.y}, {it.z}) {it.width}x{it.height}x{it.depth}"
    bin = f"{it.bin!r} (copy {it.copy})" if it.copy else repr(it.bin)
    return {which: _named(it.name, it.group), f"{which}_bin": bin, f"{which}_place": place}


@dataclass(frozen=True)
class Fault(Generic[BoxName, BinName]):
    """The first fault of a packing: its kind; the placement that is wrong, or the two that are, the earlier one first; or the
    box that is not placed, and the group for which it is not. What does not apply is None. str() says it in one line."""

    kind: FaultKind
    first: Placement[BoxName, BinName] | None = None
    second: Placement[BoxName, BinName] | None = None
    box: Hashable = None
    group: Hashable = None

    def __str__(self) -> str:
        told = {"box": _named(self.box, self.group)}
        for which, it in (("first", self.first), ("second", self.second)):
            if it is not None:
                told.update(_told(which, it))
        return _TEXTS[self.kind].format(**told)
