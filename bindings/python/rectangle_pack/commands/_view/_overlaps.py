"""Whether boxes share a cell."""
from __future__ import annotations

from collections.abc import Sequence

from .._scene import Item

__all__ = ["first_overlap"]


def first_overlap(items: Sequence[Item]) -> tuple[Item, Item] | None:
    """Two boxes of one bin that share a cell. A plane goes along the axis on which most boxes begin apart, and each box is held
    against those that the plane cuts."""
    along, *across = sorted(range(3), key=lambda axis: -len({it.at[axis] for it in items}))
    cut: list[tuple[int, int, int, int, int, Item]] = []
    for it in sorted((it for it in items if 0 not in it.size), key=lambda it: it.at[along]):
        (left, right), (low, high) = ((it.at[axis], it.at[axis] + it.size[axis]) for axis in across)
        start = it.at[along]
        cut = [other for other in cut if other[0] > start]
        for _, other_left, other_right, other_low, other_high, other in cut:
            if left < other_right and other_left < right and low < other_high and other_low < high:
                return other, it
        cut.append((start + it.size[along], left, right, low, high, it))
    return None
