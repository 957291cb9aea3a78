"""Cutting plans: the straight cuts that part a bin, as a list of steps and as a tree."""
from __future__ import annotations

from collections.abc import Iterable, Sequence
from dataclasses import dataclass
from typing import Literal, NamedTuple, Union, get_args

from ._errors import UnknownAxis
from ._types import Section

Axis = Literal["x", "y", "z"]

# By their numbers. A leaf has none of these.
AXES: tuple[Axis, ...] = get_args(Axis)


def axis_number(axis: str) -> int:
    """The number of an axis. Raises UnknownAxis."""
    if axis not in AXES:
        raise UnknownAxis(axis)
    return AXES.index(axis)


class Cut(NamedTuple):
    """A straight cut across a whole part, at right angles to the axis, so many cells from the corner of the bin. The plan of
    the lower part follows, and then that of the upper part."""
    axis: Axis
    place: int


class Leaf(NamedTuple):
    """A part that is not cut: it is one free section or one box, or has no cells. It has no fields, so it counts as false."""


CutStep = Union[Cut, Leaf]


def steps_of(rows: Iterable[tuple[int, ...]]) -> list[CutStep]:
    """The steps of a plan, of the number of the axis and the place of each."""
    return [Cut(AXES[axis], place) if axis < len(AXES) else Leaf() for axis, place in rows]


# Trees are compared as objects, and print without their parts: a plan may be too deep for either.
@dataclass(frozen=True, eq=False, repr=False)
class CutNode:
    """A cut of a plan as a tree, with what it leaves: the part below its place, and the part from there on. Each of these is
    cut again, or it is a leaf: a Section, which is one free section or one box, or has no cells."""
    axis: Axis
    place: int
    lower: CutTree
    upper: CutTree

    def __repr__(self) -> str:
        return f"CutNode(axis={self.axis!r}, place={self.place})"


CutTree = Union[CutNode, Section]


def _halves(part: Section, cut: Cut) -> tuple[Section, Section]:
    """The part below a cut, and the part from it on."""
    x, y, z, width, height, depth = part
    if cut.axis == "x":
        below = cut.place - x
        return part._replace(width=below), part._replace(x=cut.place, width=width - below)
    if cut.axis == "y":
        below = cut.place - y
        return part._replace(height=below), part._replace(y=cut.place, height=height - below)
    below = cut.place - z
    return part._replace(depth=below), part._replace(z=cut.place, depth=depth - below)


def _parts_of(steps: Sequence[CutStep], whole: Section) -> list[Section]:
    """The part that each step is about."""
    parts, waiting = [], [whole]
    for step in steps:
        part = waiting.pop()
        parts.append(part)
        if isinstance(step, Cut):
            lower, upper = _halves(part, step)
            # The plan of the lower part comes first.
            waiting += [upper, lower]
    return parts


def tree_of(steps: Sequence[CutStep], whole: Section) -> CutTree:
    """The tree of a plan's steps, where this is cut. It is made from the leaves up, without recursion."""
    trees: list[CutTree] = []
    for step, part in zip(reversed(steps), reversed(_parts_of(steps, whole))):
        if isinstance(step, Cut):
            lower, upper = trees.pop(), trees.pop()
            trees.append(CutNode(step.axis, step.place, lower, upper))
        else:
            trees.append(part)
    return trees.pop()
