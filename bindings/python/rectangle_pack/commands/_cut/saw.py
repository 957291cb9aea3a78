"""The library's cutting plan of a sheet, as cuts of a saw whose blade has a width.

Why no panel is short. Let k be the kerf. A panel of the width w is packed as a box of the width w + k, and a sheet of the
usable width W as a bin of the width W + k. So a part of the bin of the width a stands for material of the width a - k: the
whole bin for W, a panel's box for w. Where a part of the width a is cut into two of the widths p and a - p, the blade's near
side goes p - k from the edge of the material, and its far side p from there. That leaves material of the width p - k before
the blade, and (a - k) - p = (a - p) - k behind it: what the two parts stand for. So it is with each cut, along y as along x.
Where a - p is k or less there is no material behind the blade, which takes all of it.

It does not count where the part begins. So strips that lie side by side may change places, each with all that is in it."""
from __future__ import annotations

from collections.abc import Iterator
from itertools import count, product
from string import ascii_uppercase
from typing import NamedTuple

from ... import Axis, Bin, CutNode, CutTree, Section, straight_cuts
from ..._cuts import tree_of
from .._sawing import Edge, FlatAxis
from .job import Job, Kind
from .packing import Filled, room
from .plan import Cut, Part, Rect, SheetPlan

__all__ = ["sawn"]


class _Slack(NamedTuple):
    """How much narrower and lower a part of the bin could be, if all that is free in it were taken out."""

    x: int
    y: int


class _Node(NamedTuple):
    """A part of the bin: across which axis it is cut, if it is, and into which parts. A part without panels has no slack, and
    is free as a whole."""

    section: Section
    slack: _Slack | None
    axis: Axis | None = None
    parts: tuple[_Node, ...] = ()

    def size(self, axis: str) -> int:
        return self.section.width if axis == "x" else self.section.height

    def is_loose(self, axis: str) -> bool:
        """Whether the size could be less."""
        return self.slack is not None and (self.slack.x if axis == "x" else self.slack.y) > 0


def _letters() -> Iterator[str]:
    """A, B, .. Z, AA, AB, .."""
    return ("".join(it) for length in count(1) for it in product(ascii_uppercase, repeat=length))


def _joined(axis: Axis, lower: _Node, upper: _Node) -> _Node:
    """The part that is cut into these two."""
    x, y, z, width, height, depth = lower.section
    both = [it.slack for it in (lower, upper) if it.slack]
    free = [it.section for it in (lower, upper) if it.slack is None]
    slack = None
    if axis == "x":
        whole = Section(x, y, z, width + upper.section.width, height, depth)
        if both:
            slack = _Slack(sum(it.x for it in both) + sum(it.width for it in free), min(it.y for it in both))
    else:
        whole = Section(x, y, z, width, height + upper.section.height, depth)
        if both:
            slack = _Slack(min(it.x for it in both), sum(it.y for it in both) + sum(it.height for it in free))
    return _Node(whole, slack, axis, (lower, upper))


def _plan_of(bin: Bin, filled: Filled) -> _Node:
    """The library's cutting plan of a bin in which panels stand. It may be deep: so there is no recursion."""
    steps, panels = straight_cuts(bin, [*filled.places, *filled.rests]), {*filled.places}
    assert steps is not None, "a packing of the library has a plan"
    waiting, order = [tree_of(steps, Section(0, 0, 0, bin.width, bin.height, 1))], list[CutTree]()
    while waiting:
        tree = waiting.pop()
        order.append(tree)
        if isinstance(tree, CutNode):
            waiting += [tree.upper, tree.lower]
    nodes: list[_Node] = []
    for tree in reversed(order):
        if isinstance(tree, CutNode):
            nodes.append(_joined(tree.axis, nodes.pop(), nodes.pop()))
        else:
            nodes.append(_Node(tree, _Slack(0, 0) if tree in panels else None))
    return nodes.pop()


def _trims(kind: Kind, kerf: int) -> Iterator[tuple[Edge, FlatAxis, int, Rect, Rect]]:
    """The cuts that trim a sheet: the edge, the axis, the near side of the blade, the strip that comes off, and what is left.
    A trim takes the blade's width in, so there is a strip only where it is wider than that."""
    trim, strip = kind.trim, kind.trim - kerf
    width, height = kind.usable
    right, top = trim + width, trim + height
    yield "left", "x", strip, Rect(0, 0, strip, kind.height), Rect(trim, 0, kind.width - trim, kind.height)
    yield "right", "x", right, Rect(right + kerf, 0, strip, kind.height), Rect(trim, 0, width, kind.height)
    yield "bottom", "y", strip, Rect(trim, 0, width, strip), Rect(trim, trim, width, kind.height - trim)
    yield "top", "y", top, Rect(trim, top + kerf, width, strip), Rect(trim, trim, width, height)


class _Saw:
    """Goes through the plan of one sheet."""

    def __init__(self, job: Job, filled: Filled, number: int) -> None:
        self.job, self.kind = job, filled.kind
        self.letters, self.names = _letters(), job.offcut_names(filled.kind, number)
        self.cuts: list[Cut] = []
        self.panels: list[Part] = []
        self.offcuts: list[Part] = []
        self.tree = _plan_of(room(self.kind, job.kerf), filled)
        self.laid = dict(zip(filled.places, filled.laid))

    def part(self, node: _Node, rect: Rect) -> Part:
        """The material that a part of the bin with panels stands for."""
        if node.parts:
            return Part("part", next(self.letters), rect)
        laid = self.laid[node.section]
        self.panels.append(Part("panel", laid.panel.name, rect, laid))
        return self.panels[-1]

    def rest(self, rect: Rect) -> Part | None:
        """What has no panel in it is not cut on."""
        if rect.width <= 0 or rect.height <= 0:
            return None
        if not self.job.is_worth_keeping(rect.width, rect.height):
            return Part("waste", "", rect)
        self.offcuts.append(Part("offcut", next(self.names), rect))
        return self.offcuts[-1]

    def edge(self, axis: FlatAxis, behind: Part | None) -> Edge:
        """The edge that a cut trims: what is behind the blade is nothing, or waste that is narrower than the blade."""
        if behind:
            start, end = behind.rect.stretch(axis)
            if behind.role != "waste" or end - start >= self.job.kerf:
                return ""
        return "right" if axis == "x" else "top"

    def trim(self, last: Part) -> None:
        """Trims the edges of the sheet, of which `last` is left then. Until then it bears its letter."""
        name = last.name if last.role == "part" else next(self.letters)
        part = Part("part", name, Rect(0, 0, self.kind.width, self.kind.height))
        for edge, axis, near, off, rect in _trims(self.kind, self.job.kerf):
            strip = Part("waste", "", off) if self.kind.trim > self.job.kerf else None
            rest = last if edge == "top" else Part("part", name, rect)
            parts = (strip, rest) if edge in ("left", "bottom") else (rest, strip)
            self.cuts.append(Cut(part, axis, near, near + self.job.kerf, *parts, edge))
            part = rest

    def cut_off(self, part: Part, node: _Node) -> list[tuple[_Node, Part]]:
        """Cuts the strips of a part off, one by one, and answers them."""
        kerf, axis = self.job.kerf, _flat(node)
        strips, has_rest = _strips(node)
        parts = []
        left: Part | None = part
        # Where there is no rest, the last strip is left over when the others are off.
        for index, strip in enumerate(strips if has_rest else strips[:-1], 1):
            assert left
            before, behind = left.rect.halves(axis, strip.size(axis) - kerf, kerf)
            lower = self.part(strip, before)
            if index == len(strips):
                upper = self.rest(behind)
            elif index == len(strips) - 1 and not has_rest:
                upper = self.part(strips[-1], behind)
            else:
                upper = Part("part", next(self.letters), behind)
            near = before.x + before.width if axis == "x" else before.y + before.height
            self.cuts.append(Cut(left, axis, near, near + kerf, lower, upper, self.edge(axis, upper)))
            parts.append((strip, lower))
            left = upper
        if not has_rest:
            assert left
            parts.append((strips[-1], left))
        return parts

    def go(self) -> None:
        """Makes all the cuts: those of one axis across a part, and then those of its strips, one after the other."""
        width, height = self.kind.usable
        whole = self.part(self.tree, Rect(self.kind.trim, self.kind.trim, width, height))
        if self.kind.trim:
            self.trim(whole)
        waiting = [(self.tree, whole)]
        while waiting:
            node, part = waiting.pop()
            if node.parts:
                waiting += reversed(self.cut_off(part, node))


def _flat(node: _Node) -> FlatAxis:
    return "x" if node.axis == "x" else "y"


def _strips(node: _Node) -> tuple[list[_Node], bool]:
    """The strips with panels that cuts across one axis leave, side by side, and whether there is more than these. The widest
    come first, so that equal ones follow each other; but those whose width does not count after those whose does. So a strip
    that is not measured, as it is what is left in the end, is one of these, where there is one."""
    axis, strips, has_rest, waiting = _flat(node), list[_Node](), False, [node]
    while waiting:
        it = waiting.pop()
        if it.slack is None:
            has_rest = True
        elif it.axis == node.axis:
            waiting += reversed(it.parts)
        else:
            strips.append(it)
    return sorted(strips, key=lambda it: (it.is_loose(axis), -it.size(axis))), has_rest


def sawn(job: Job, filled: Filled, number: int = 0) -> SheetPlan:
    """How a sheet is cut. The number is a part of the names of its offcuts."""
    saw = _Saw(job, filled, number)
    saw.go()
    return SheetPlan(number, filled, saw.cuts, saw.panels, saw.offcuts)
