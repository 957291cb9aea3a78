"""In which order the crates of a container are loaded.

Each crate comes in at the door, at the height and the place across at which it will stand, and goes straight in. Nothing is
lifted over what stands already, and nothing is pushed below it. So of two crates one goes first

- where it is behind the other, farther from the door, and they share some of width and height; and
- where it is below the other, and they share some of width and length.

Crates that straight cuts part from each other always have such an order, and those of each container here are such crates. A
cut across the width parts crates that are in no such pair, and one across the length or the height has all that goes first on
one side. Other crates may stand in each other's way in a ring."""
from __future__ import annotations

import heapq
from collections.abc import Iterator, Sequence
from graphlib import CycleError, TopologicalSorter
from itertools import islice
from typing import NamedTuple

from .._common import NoRoom
from .job import Standing

__all__ = ["NoOrder", "in_order"]


class NoOrder(NoRoom):
    """Crates stand in each other's way in a ring, so that none of them can be the first."""

    def __init__(self, ring: Sequence[Standing]) -> None:
        names = ", ".join(f"{crate.kind.name!r} at {crate.x} {crate.y} {crate.z}" for crate in ring)
        super().__init__(f"there is no order in which these crates can be loaded: {names}")


class _Box(NamedTuple):
    """From where to where a crate reaches along each axis."""

    left: int
    right: int
    bottom: int
    top: int
    back: int
    front: int


def _pairs(crates: Sequence[Standing]) -> Iterator[tuple[int, int]]:
    """The pairs of which the first is loaded before the second, among those that share some of the width."""
    boxes = [_Box(it.x, it.right, it.y, it.top, it.z, it.front) for it in crates]
    by_left = sorted(range(len(boxes)), key=lambda index: boxes[index].left)
    for rank, index in enumerate(by_left, start=1):
        _, right, bottom, top, back, front = boxes[index]
        for other in islice(by_left, rank, None):
            left, _, other_bottom, other_top, other_back, other_front = boxes[other]
            if right <= left:
                break
            if bottom < other_top and other_bottom < top:
                yield (index, other) if front <= other_back else (other, index)
            elif back < other_front and other_back < front:
                yield (index, other) if top <= other_bottom else (other, index)


def in_order(crates: Sequence[Standing]) -> list[Standing]:
    """The crates in an order in which they can be loaded: of those that can be next it is the one with the least z, of equal
    ones that with the least y, then x. Raises NoOrder."""
    sorter: TopologicalSorter[int] = TopologicalSorter({index: () for index in range(len(crates))})
    for first, second in _pairs(crates):
        sorter.add(second, first)
    try:
        sorter.prepare()
    except CycleError as ring:
        raise NoOrder([crates[index] for index in ring.args[1][:-1]]) from None
    ordered: list[Standing] = []
    ready: list[tuple[int, int, int, int]] = []
    while sorter.is_active():
        for index in sorter.get_ready():
            heapq.heappush(ready, (crates[index].z, crates[index].y, crates[index].x, index))
        *_, index = heapq.heappop(ready)
        sorter.done(index)
        ordered.append(crates[index])
    return ordered
