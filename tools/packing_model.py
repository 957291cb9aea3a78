"""The rule of packings, written a second time: by the words of the docs and of the definitions, not by the code.

A group has a name of two numbers: (0, box) is the box alone, (group, 0) the group of this number. So names stand in the order of groups.
Boxes and bins have numbers too. Heuristics are those of the library, by their place in its list of all."""
from __future__ import annotations

from collections.abc import Iterable, Sequence
from dataclasses import dataclass, field
from typing import NamedTuple

# The greatest number of 128 bits: sums of rates and of cells stop there.
GREATEST = 2**128 - 1
HEURISTICS = range(8)
AXES = range(3)
# The orders of the axes of the six cuts, as they are listed.
ORDERS = (0, 1, 2), (1, 0, 2), (0, 2, 1), (2, 0, 1), (1, 2, 0), (2, 1, 0)

# Width, height and depth; or a corner.
Three = tuple[int, int, int]
Name = tuple[int, int]


class Box(NamedTuple):
    """A box of cells in a bin."""

    corner: Three
    size: Three


def volume(size: Three) -> int:
    return size[0] * size[1] * size[2]


def in_turn(first: int, second: int, third: int) -> int:
    return first * 2**64 + second * 2**32 + third


def rate(heuristic: int, size: Three) -> int:
    """What the heuristic rates the size by."""
    width, height, depth = size
    shortest, middle, longest = sorted(size)
    return (
        volume(size), in_turn(height, width, depth), in_turn(width, height, depth), in_turn(depth, width, height), sum(size),
        in_turn(longest, middle, shortest), in_turn(shortest, middle, longest), height * depth,
    )[heuristic]


def holds(section: Box, size: Three) -> bool:
    return all(size[axis] <= section.size[axis] for axis in AXES)


def piece(section: Box, size: Three, order: Sequence[int], axis: int) -> Box:
    """What a cut in this order cuts off beyond the box on the axis: on axes before it in the order as wide as the box, on those after it as
    the section."""
    corner, extent = list(section.corner), list(section.size)
    for before in order[: order.index(axis)]:
        extent[before] = size[before]
    corner[axis] += size[axis]
    extent[axis] -= size[axis]
    return Box((corner[0], corner[1], corner[2]), (extent[0], extent[1], extent[2]))


def cut(section: Box, size: Three, heuristic: int) -> list[Box]:
    """The pieces right, above and behind of the best of the six cuts: its smallest piece is smallest, and at a tie its second smallest. Of
    several that are as good it is the last."""
    cuts = [[piece(section, size, order, axis) for axis in AXES] for order in ORDERS]
    ranks = [sorted(rate(heuristic, it.size) for it in pieces)[:2] for pieces in cuts]
    return [pieces for pieces, two in zip(cuts, ranks) if two == min(ranks)][-1]


class Trial(NamedTuple):
    """A trial that is done: where the boxes went, and the sections that are left."""

    placed: list[Box]
    sections: list[Box]


def newest(sections: Sequence[Box], size: Three) -> int | None:
    """The place of the newest section that holds the size."""
    return next((index for index in reversed(range(len(sections))) if holds(sections[index], size)), None)


def trial(sections: Sequence[Box], sizes: Iterable[Three], heuristic: int) -> Trial | None:
    """Each box goes to the corner of the newest section that holds it. The pieces that are left of that become the newest sections, by
    falling rate, without those that have no cells. None where some box is held by no section."""
    left, placed = [*sections], []
    for size in sizes:
        index = newest(left, size)
        if index is None:
            return None
        section = left.pop(index)
        placed.append(Box(section.corner, size))
        pieces = sorted(cut(section, size, heuristic), key=lambda it: -rate(heuristic, it.size))
        left += [it for it in pieces if volume(it.size)]
    return Trial(placed, left)


@dataclass
class Collection:
    """The boxes of the next packing: their sizes, the boxes of each group, and the pairs of groups that are excluded."""

    sizes: list[Three] = field(default_factory=list)
    groups: dict[Name, list[int]] = field(default_factory=dict)
    excluded: set[frozenset[Name]] = field(default_factory=set)

    def push(self, box: int, group: int) -> None:
        """Names a box in a group, or alone where that is 0."""
        if group:
            self.groups.setdefault((group, 0), []).append(box)
        else:
            self.groups[0, box] = [box]

    def sizes_of(self, name: Name) -> list[Three]:
        return [self.sizes[box] for box in self.groups[name]]

    def cells(self, names: Iterable[Name]) -> int:
        return min(GREATEST, sum(volume(size) for name in names for size in self.sizes_of(name)))


@dataclass
class Bin:
    """A bin: its size, and its free sections, the newest last."""

    size: Three
    sections: list[Box]

    @classmethod
    def new(cls, size: Three) -> Bin:
        return cls(size, [Box((0, 0, 0), size)])


Bins = dict[int, Bin]


class Placement(NamedTuple):
    box: int
    bin: int
    at: Box


class Step(NamedTuple):
    group: Name
    bin: int
    heuristic: int


@dataclass
class Packing:
    """A packing on its way. It has bins of its own: those that it is given stay."""

    collection: Collection
    bins: Bins
    placements: list[Placement] = field(default_factory=list)
    # The bins of the groups that were placed.
    homes: dict[Name, int] = field(default_factory=dict)
    left: list[Name] = field(default_factory=list)

    def is_excluded(self, name: Name, bin: int) -> bool:
        """Whether a group that is excluded with this one went into the bin."""
        return any(home == bin and frozenset((name, other)) in self.collection.excluded for other, home in self.homes.items())

    def try_in(self, name: Name, bin: int, heuristic: int) -> bool:
        """Places the group in the bin, if that takes all of its boxes."""
        done = trial(self.bins[bin].sections, self.collection.sizes_of(name), heuristic)
        if done is None:
            return False
        self.bins = {**self.bins, bin: Bin(self.bins[bin].size, done.sections)}
        self.placements += [Placement(box, bin, at) for box, at in zip(self.collection.groups[name], done.placed)]
        self.homes[name] = bin
        return True

    def use(self) -> tuple[int, int, int]:
        """What the best of several has the least of: cells that are left, then bins that get cells, then cells in the last of these."""
        cells = (min(GREATEST, sum(volume(it.at.size) for it in self.placements if it.bin == bin)) for bin in sorted(self.bins))
        counts = [count for count in cells if count]
        return self.collection.cells(self.left), len(counts), counts[-1] if counts else 0


def what_fits(collection: Collection, bins: Bins, heuristic: int) -> Packing:
    """Groups go by falling sums of the rates of their boxes, then by name; each into the first bin that is not excluded for it and takes
    it. Bins stand by rising rates of their sizes, then by number. A group that finds none is left."""
    packing = Packing(collection, bins)
    keys = {name: min(GREATEST, sum(rate(heuristic, size) for size in collection.sizes_of(name))) for name in collection.groups}
    order = sorted(bins, key=lambda bin: (rate(heuristic, bins[bin].size), bin))
    for name in sorted(keys, key=lambda name: (-keys[name], name)):
        if not any(not packing.is_excluded(name, bin) and packing.try_in(name, bin, heuristic) for bin in order):
            packing.left.append(name)
    return packing


def best_fit(collection: Collection, bins: Bins, heuristics: Iterable[int]) -> tuple[int, Packing]:
    """The best of what fits by several heuristics, the first of those that are as good."""
    tried = [(heuristic, what_fits(collection, bins, heuristic)) for heuristic in heuristics]
    return min(tried, key=lambda it: it[1].use())


def best_of_all(collection: Collection, bins: Bins, heuristics: Iterable[int]) -> tuple[int, Packing] | None:
    """The best of the packings that place all groups, or None where there is none."""
    tried = [(heuristic, what_fits(collection, bins, heuristic)) for heuristic in heuristics]
    done = [it for it in tried if not it[1].left]
    return min(done, key=lambda it: it[1].use()) if done else None


UNKNOWN_GROUP, UNKNOWN_BIN, NAMED_TWICE, EXCLUDED, NO_ROOM = range(5)


class Refused(NamedTuple):
    """The first step that cannot be done, by its index, and why."""

    at: int
    fault: int


def fault(packing: Packing, step: Step) -> int | None:
    """Does the step, or says why it cannot be done."""
    if step.group not in packing.collection.groups:
        return UNKNOWN_GROUP
    if step.bin not in packing.bins:
        return UNKNOWN_BIN
    if step.group in packing.homes:
        return NAMED_TWICE
    if packing.is_excluded(step.group, step.bin):
        return EXCLUDED
    return None if packing.try_in(step.group, step.bin, step.heuristic) else NO_ROOM


def as_told(collection: Collection, bins: Bins, steps: Iterable[Step]) -> Packing | Refused:
    """Does one step after another: its group goes whole into its bin, by one trial with its heuristic."""
    packing = Packing(collection, bins)
    for index, step in enumerate(steps):
        why = fault(packing, step)
        if why is not None:
            return Refused(index, why)
    return packing
