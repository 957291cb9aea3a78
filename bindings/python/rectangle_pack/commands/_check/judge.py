"""Judges what a file tells, by the proved library."""
from __future__ import annotations

from collections.abc import Hashable
from dataclasses import dataclass
from decimal import Decimal
from pathlib import Path

from ... import Bin, Box, FaultKind, Placement, Turn, check
from .._common import Wrong
from .._scale import MOST, Scale
from .layout import Claim, Layout, Triple

__all__ = ["Found", "first_fault"]


@dataclass(frozen=True)
class Found:
    """The first fault of a layout: its kind, and the claim that is wrong, or the two that are."""

    layout: Layout
    kind: FaultKind
    first: Claim
    second: Claim


class _Cells:
    """The numbers of a layout in cells. Bins and boxes with cells are larger by the distance, at the ends of all axes."""

    def __init__(self, layout: Layout, path: Path) -> None:
        self._path, self._scale = path, Scale.of(layout.numbers())
        self._distance = self._scale.cells(layout.distance)

    def bin(self, size: Triple) -> Bin:
        return Bin(*(self._side(side, self._distance) for side in size))

    def box(self, size: Triple) -> tuple[int, int, int]:
        """What has no cells stays as it is."""
        width, height, depth = (self._side(side, self._distance if all(size) else 0) for side in size)
        return width, height, depth

    def _side(self, side: Decimal, more: int) -> int:
        cells = self._scale.cells(side) + more
        if cells > MOST:
            most, step = self._scale.text(max(MOST - more, 0)), self._scale.text(1)
            raise Wrong(f"has the side {side:f}; {most} is the greatest, where all is measured in steps of {step}", self._path)
        return cells

    def corner(self, corner: Triple) -> tuple[int, int, int]:
        """A corner that no bin has stays outside of all: it gets the greatest number."""
        x, y, z = (min(self._scale.cells(at), MOST) if at >= 0 else MOST for at in corner)
        return x, y, z


def _placement(claim: Claim, cells: _Cells) -> Placement[Hashable, Hashable]:
    """A claim as a placement. Each box is placed once, in the group that its first claim says."""
    return Placement(claim.box, None, claim.bin, *cells.corner(claim.corner), *cells.box(claim.size))


def first_fault(layout: Layout, path: Path) -> Found | None:
    """The first fault; None where the layout is a packing. A box is as the first claim of it says."""
    cells = _Cells(layout, path)
    bins = {key: cells.bin(bin.size) for key, bin in layout.bins.items()}
    boxes: dict[Hashable, Box] = {}
    turns: dict[Hashable, Turn] = {}
    for claim in layout.claims:
        if claim.box not in boxes:
            boxes[claim.box] = Box(*cells.box(claim.own_size), group=claim.group)
            turns[claim.box] = "flat" if claim.is_turned else "none"
    placements = [_placement(claim, cells) for claim in layout.claims]
    # A pair may name a group of which no box is told.
    groups: dict[Hashable, list[Hashable]] = {group: [] for pair in layout.excluded for group in pair}
    fault = check(bins, boxes, placements, groups=groups, exclude=layout.excluded, turn=turns)
    if fault is None:
        return None
    # All boxes are placed. So a fault is that of a placement, or of two.
    claims = {id(placement): claim for placement, claim in zip(placements, layout.claims)}
    return Found(layout, fault.kind, claims[id(fault.first)], claims[id(fault.second or fault.first)])
