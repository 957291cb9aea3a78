"""How boxes are packed onto pages: by a heuristic, or by a search, which may turn them."""
from __future__ import annotations

from collections.abc import Mapping, Sequence
from dataclasses import dataclass, replace
from typing import Any, get_args

from ... import AnyHeuristic, Bin, Box, Heuristic, NotEnoughBinSpace, Packing, Session, pack

__all__ = ["Boxes", "Packer"]

# Each by its index.
Boxes = Mapping[int, Box]


@dataclass(frozen=True)
class Packer:
    """Packs by a heuristic where it makes no tries; else it searches with so many, and turns boxes."""

    heuristic: AnyHeuristic
    tries: int = 0

    def fitting(self, bins: Sequence[Bin], boxes: Boxes) -> Packing[int, Any]:
        """What fits of the boxes."""
        if self.tries:
            return pack(bins, boxes, partial=True, tries=self.tries, turn="flat")
        return pack(bins, boxes, partial=True, heuristic=self.heuristic)

    def fitting_free(self, session: Session[int], boxes: Boxes) -> Packing[int, Any]:
        """What fits of the boxes in what is free."""
        if self.tries:
            return session.pack(boxes, partial=True, tries=self.tries, turn="flat")
        return session.pack(boxes, partial=True, heuristic=self.heuristic)

    def whole(self, bin: Bin, boxes: Boxes) -> Packing[int, Any] | None:
        """All boxes in one bin, where it takes them."""
        try:
            if self.tries:
                return pack([bin], boxes, tries=self.tries, turn="flat")
            return pack([bin], boxes, heuristic=self.heuristic)
        except NotEnoughBinSpace:
            return None

    @property
    def each(self) -> list[Packer]:
        """The packers of which this one takes the best."""
        if self.tries or self.heuristic != "best":
            return [self]
        return [replace(self, heuristic=heuristic) for heuristic in get_args(Heuristic)]
