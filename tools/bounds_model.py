"""How many bins boxes need: the bound as the definitions of rectangle_pack_bounds say it, written a second time, and the true number, found
by trying all.

A size has a width, a height and a depth. What may be turned is a set of axes, 0 for x."""
from __future__ import annotations

import itertools
import math
from collections.abc import Callable, Iterable, Iterator, Sequence
from dataclasses import dataclass, field
from typing import NamedTuple, Optional

from packing_model import AXES, GREATEST, Name, Three, volume


class Box(NamedTuple):
    """A box that may be turned about these axes."""

    size: Three
    turns: frozenset[int] = frozenset()

    def ways(self) -> set[Three]:
        """The sizes in which it may stand: about one axis the other two sides change places, about two or three axes all sides do."""
        if len(self.turns) > 1:
            return {(a, b, c) for a, b, c in itertools.permutations(self.size)}
        turned = list(self.size)
        for axis in self.turns:
            one, other = (it for it in AXES if it != axis)
            turned[one], turned[other] = turned[other], turned[one]
        return {self.size, (turned[0], turned[1], turned[2])}


class Rating(NamedTuple):
    """What a length counts along an axis, and the most that lengths that fit one after another count together."""

    of: Callable[[int], int]
    scale: int


def rounded(along: int, least: int) -> Rating:
    return Rating(lambda length: 0 if length < least else along if length > along - least else length, along)


def in_parts(along: int, parts: int) -> Rating:
    def of(length: int) -> int:
        whole, rest = divmod((parts + 1) * length, along)
        return along * whole if rest else parts * length

    return Rating(of, parts * along)


def in_pieces(along: int, piece: int) -> Rating:
    def of(length: int) -> int:
        if 2 * length == along:
            return along // piece
        return 2 * (length // piece if 2 * length < along else along // piece - (along - length) // piece)

    return Rating(of, 2 * (along // piece))


def tried(along: int, lengths: set[int], some_flat: bool) -> list[Rating]:
    """The ratings that are tried along an axis."""
    if all(length >= along for length in lengths):
        return [rounded(along, 0)]
    parts, at, pieces = ([1, 2, 3, 4], 39, 20) if some_flat else ([1, 2], 8, 5)
    halves = sorted(length for length in lengths if 0 < length and 2 * length <= along)
    cut = [in_parts(along, number) for number in parts]
    return [rounded(along, 0), *cut, *(rounded(along, it) for it in halves[-at:]), *(in_pieces(along, it) for it in halves[-pieces:])]


def fits(size: Three, bin: Three) -> bool:
    return all(size[axis] <= bin[axis] for axis in AXES)


def by_ratings(bin: Three, boxes: Sequence[Box]) -> int:
    """What the ratings show, in bins of one size."""
    lengths = [{way[axis] for box in boxes for way in box.ways()} for axis in AXES]
    some_flat = any(all(length >= bin[axis] for length in lengths[axis]) for axis in AXES)
    ratings = [tried(bin[axis], lengths[axis], some_flat) for axis in AXES]
    ways = [[way for way in box.ways() if fits(way, bin)] for box in boxes]
    best = 0
    for three in itertools.product(*ratings):
        scale = math.prod(rating.scale for rating in three)
        rates = (min((math.prod(r.of(side) for r, side in zip(three, way)) for way in some), default=0) for some in ways)
        if scale:
            best = max(best, -(-min(sum(rates), GREATEST) // scale))
    return min(best, len(boxes))


def by_volumes(bins: Sequence[Three], boxes: Iterable[Box]) -> int:
    """The fewest bins whose cells add up to those of the boxes; one more than there are where all do not suffice."""
    cells, room = min(sum(volume(box.size) for box in boxes), GREATEST), 0
    for count, more in enumerate(sorted(map(volume, bins), reverse=True)):
        if room >= cells:
            return count
        room = min(room + more, GREATEST)
    return len(bins) + (room < cells)


@dataclass
class Job:
    """Bins, boxes in groups, and pairs of groups that are excluded, each listed at the other."""

    bins: list[Three] = field(default_factory=list)
    boxes: list[Box] = field(default_factory=list)
    groups: dict[Name, list[int]] = field(default_factory=dict)
    partners: dict[Name, list[Name]] = field(default_factory=dict)

    def exclude(self, one: Name, other: Name) -> None:
        if other not in self.partners.get(one, []):
            self.partners.setdefault(one, []).append(other)
            self.partners.setdefault(other, []).append(one)

    def excluded(self, one: Name, other: Name) -> bool:
        return other in self.partners.get(one, [])

    def entries(self) -> list[tuple[Name, Box]]:
        return [(name, self.boxes[id]) for name in sorted(self.groups) for id in self.groups[name]]

    def apart(self) -> int:
        """How many groups exclude each other in pairs, as far as one look at the group with the most partners shows."""
        if not self.groups:
            return 0
        first = max(sorted(self.groups), key=lambda name: len(self.partners.get(name, [])))
        taken = [first]
        for name in self.partners.get(first, []):
            if name in self.groups and all(self.excluded(name, other) for other in taken):
                taken.append(name)
        return len(taken)


def least(job: Job) -> Optional[int]:
    """The bound: so many bins are needed; or none where no arrangement is possible."""
    boxes = [box for _, box in job.entries()]
    around = tuple(max((bin[axis] for bin in job.bins), default=0) for axis in AXES)
    if not all(any(fits(way, bin) for bin in job.bins for way in box.ways()) for box in boxes):
        return None
    most = max(by_ratings((around[0], around[1], around[2]), boxes), by_volumes(job.bins, boxes), job.apart())
    return most if most <= len(job.bins) else None


def places(box: Box, bin: Three) -> Iterator[frozenset[Three]]:
    """The cells that the box may take in the bin, in each way and at each corner."""
    for way in sorted(box.ways()):
        for corner in itertools.product(*(range(bin[axis] - way[axis] + 1) for axis in AXES)):
            across, up, back = (range(corner[axis], corner[axis] + way[axis]) for axis in AXES)
            yield frozenset((x, y, z) for x in across for y in up for z in back)


def fewest(job: Job) -> Optional[int]:
    """The fewest bins of any arrangement, by trying all of them; none where there is no arrangement."""
    best: Optional[int] = None
    entries = sorted(job.entries(), key=lambda it: -volume(it[1].size))
    taken: list[set[Three]] = [set() for _ in job.bins]
    inside: list[list[Name]] = [[] for _ in job.bins]

    def place(rest: Sequence[tuple[Name, Box]]) -> None:
        nonlocal best
        used = sum(map(bool, inside))
        if best is not None and used >= best:
            return
        if not rest:
            best = used
            return
        (name, box), *later = rest
        for bin, size in enumerate(job.bins):
            if any(job.excluded(name, other) for other in inside[bin]):
                continue
            for cells in places(box, size):
                if taken[bin].isdisjoint(cells):
                    taken[bin] |= cells
                    inside[bin].append(name)
                    place(later)
                    inside[bin].pop()
                    taken[bin] -= cells

    place(entries)
    return best
