"""The call that says how straight cuts part a bin into boxes, whoever put them there."""
from __future__ import annotations

import ctypes
from collections.abc import Iterable, Sequence
from itertools import islice
from typing import Any, Union

from . import _library
from ._cuts import CutStep, steps_of
from ._errors import PackError
from ._numbers import SIDES, check_rows, number
from ._types import Bin, Placement, Section

_Standing = Union[Section, Placement[Any, Any]]

# The status, and which kind of what is wrong names one box. The other kind names two.
_WRONG_BOXES, _OUTSIDE = 19, 6


class WrongBoxes(PackError, ValueError):
    """A box is outside the bin, or two share a cell. first is the index of the box that is outside, and second is None; or they are
    the indices of the two that share a cell, the earlier one first."""

    text = "These boxes do not stand in the bin"

    def __init__(self, first: int, second: int | None = None) -> None:
        super().__init__(first, second)
        self.first, self.second = first, second

    def __str__(self) -> str:
        if self.second is None:
            return f"{self.text}: boxes[{self.first}] is not inside it"
        return f"{self.text}: boxes[{self.first}] and boxes[{self.second}] share a cell"


def _rows_of(boxes: Iterable[_Standing]) -> list[Section]:
    """The corner and the size of each box."""
    rows = [Section(*(it.section if isinstance(it, Placement) else it)) for it in boxes]
    check_rows("box", range(len(rows)), Section._fields, rows)
    return rows


def _ask(size: Bin, rows: Sequence[Section], wrong: _library.RpWrong) -> tuple[int, list[CutStep]]:
    """The status, and the steps. A whole plan is made each time, so the first array has room for most plans: for each box there are
    seldom more than three free sections, so four leaves."""
    bin, boxes = _library.RpBin(*size[:3]), _library.listed(_library.RpSection, rows)
    count, status = ctypes.c_size_t(8 * (len(rows) + 1)), _library.SHORT_ARRAY
    while status == _library.SHORT_ARRAY:
        length = count.value
        room, first = _library.room_of(_library.RpCutStep, length)
        status = _library.call("straight_cuts", bin, boxes, len(rows), first, length, count, wrong)
    if status:
        return status, []
    return status, steps_of(islice(_library.row_of(_library.RpCutStep).iter_unpack(room), count.value))


def straight_cuts(bin: Bin, boxes: Iterable[_Standing]) -> list[CutStep] | None:
    """The cutting plan of a bin in which these boxes stand, whoever put them there: straight cuts, each across a whole part, that
    part the bin into the boxes and what is free beside them. None where no straight cuts leave the boxes whole.

    >>> from rectangle_pack import Bin, Section, straight_cuts
    >>> straight_cuts(Bin(10, 10), [Section(0, 0, 0, 4, 10, 1)])
    [Cut(axis='x', place=4), Leaf(), Leaf()]

    Boxes are sections, or placements, whose names, groups and bins do not count. Boxes without cells have no part in it, but
    are to be inside too.

    The steps are as those of Session.cut_plan. What is free is parted as Session.recut does it.

    Raises WrongBoxes, which is a ValueError, where a box is outside the bin, or two share a cell; OutOfMemory; and ValueError or
    TypeError where a size or a corner is not of numbers of 32 bits."""
    size, rows, wrong = Bin(*bin), _rows_of(boxes), _library.RpWrong()
    for field, side in zip(SIDES, size[:3]):
        number(side, f"bin: {field}")
    status, steps = _ask(size, rows, wrong)
    if status == _WRONG_BOXES:
        raise WrongBoxes(wrong.first, None if wrong.kind == _OUTSIDE else wrong.second)
    if status == _library.NO_PLAN:
        return None
    _library.check(status)
    return steps
