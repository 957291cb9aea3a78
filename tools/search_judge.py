"""A judge of packings that are searched for, by the rule of packings and by the bound, each written a second time.

What is found no rule says. So it is judged: whether boxes stand inside their bins and apart, in sizes in which they may, groups whole and
apart where they are excluded; whether what is said of them is so; and whether no heuristic packs them better."""
from __future__ import annotations

import itertools
from collections import Counter
from collections.abc import Iterable, Iterator, Mapping, Sequence
from dataclasses import dataclass
from typing import NamedTuple, Optional

import bounds_model
from packing_model import AXES, HEURISTICS, Bins, Box, Collection, Name, Placement, Three, volume, what_fits

# Where an entry stands; None where it is left.
Row = Optional[Placement]


@dataclass(frozen=True)
class Case:
    """What is searched for, in bins as they are before, and what stands there. Turns and costs that are not there are none, and 1."""

    boxes: Collection
    bins: Bins
    standing: Sequence[Placement]
    excluded: Sequence[tuple[Name, Name]]
    turns: Mapping[int, frozenset[int]]
    costs: Mapping[int, int]
    may_leave: bool
    tries: int

    def ways(self, entry: int) -> set[Three]:
        """The sizes in which a box may stand."""
        return self.box(entry).ways()

    def box(self, entry: int) -> bounds_model.Box:
        return bounds_model.Box(self.boxes.sizes[entry], self.turns.get(entry, frozenset()))

    def left(self, rows: Sequence[Row]) -> list[Name]:
        """The groups of which a box is left."""
        return [name for name, entries in self.boxes.groups.items() if any(rows[entry] is None for entry in entries)]

    def needed(self) -> Optional[int]:
        """How many bins are needed; None where no packer places all."""
        entries = range(len(self.boxes.sizes))
        bins = [self.bins[bin].size for bin in sorted(self.bins)]
        job = bounds_model.Job(bins, [*map(self.box, entries)], self.boxes.groups)
        for one, other in self.excluded:
            job.exclude(one, other)
        return bounds_model.least(job)


class Said(NamedTuple):
    """What is said of a packing that was found. needed is None where no packer places all."""

    left: int
    used: int
    needed: Optional[int]
    is_optimal: bool
    tries: int


def do_share(one: Box, other: Box) -> bool:
    """Whether two boxes have a cell in common."""
    return all(
        max(one.corner[axis], other.corner[axis]) < min(one.corner[axis] + one.size[axis], other.corner[axis] + other.size[axis])
        for axis in AXES)


def is_inside(at: Box, bin: Three) -> bool:
    return all(at.corner[axis] + at.size[axis] <= bin[axis] for axis in AXES)


def alone(case: Case, placed: Iterable[Placement]) -> Iterator[str]:
    """What is wrong with one box."""
    for entry, bin, at in placed:
        if bin not in case.bins:
            yield f"box {entry} is in no bin"
        elif not is_inside(at, case.bins[bin].size):
            yield f"box {entry} is not inside its bin: {at}"
        if at.size not in case.ways(entry):
            yield f"box {entry} stands in another size: {at}"


def together(case: Case, placed: Sequence[Placement]) -> Iterator[str]:
    """What is wrong with two boxes that share a cell: of these, or one of them and one that stood before."""
    others = [it for it in case.standing if it.bin in {own.bin for own in placed}]
    for one, other in itertools.chain(itertools.combinations(placed, 2), itertools.product(placed, others)):
        if one.bin == other.bin and do_share(one.at, other.at):
            yield f"{one} and {other} share a cell"


def in_groups(case: Case, rows: Sequence[Row]) -> Iterator[str]:
    """What is wrong with a group, or with two."""
    homes = {name: {it.bin if it else None for it in (rows[entry] for entry in entries)} for name, entries in case.boxes.groups.items()}
    for name, bins in homes.items():
        if len(bins) > 1:
            yield f"the group {name} is not whole: {bins}"
    for one, other in case.excluded:
        if homes.get(one, set()) & homes.get(other, set()) - {None}:
            yield f"the groups {one} and {other} are in one bin"


def told(case: Case, rows: Sequence[Row], said: Said) -> Iterator[str]:
    """What is said of them, and is not so."""
    left, used, needed = rows.count(None), len({it.bin for it in rows if it}), case.needed()
    is_optimal = left == 0 and needed is not None and used <= needed
    right = Said(left, used, needed, is_optimal, said.tries)
    if said != right:
        yield f"{said} is said, {right} is so"
    if said.tries > case.tries:
        yield f"{said.tries} tries are made, {case.tries} were asked for"
    if left and not case.may_leave:
        yield "what may not be left is"


def outlay(case: Case, rows: Sequence[Row]) -> tuple[int, int, int, int]:
    """What packings are compared by: the cells that are left, what the bins cost that get cells, how many these are, and the cells in the
    last one."""
    cells: Counter[int] = Counter()
    for it in filter(None, rows):
        cells[it.bin] += volume(it.at.size)
    bins = sorted(bin for bin in cells if cells[bin])
    cost = sum(case.costs.get(bin, 1) for bin in bins)
    return case.boxes.cells(case.left(rows)), cost, len(bins), cells[bins[-1]] if bins else 0


def by_heuristic(case: Case, heuristic: int) -> list[Row]:
    """What fits by a heuristic."""
    placed = {it.box: it for it in what_fits(case.boxes, case.bins, heuristic).placements}
    return [placed.get(entry) for entry in range(len(case.boxes.sizes))]


def beside_heuristics(case: Case, rows: Optional[Sequence[Row]]) -> Iterator[str]:
    """Where a heuristic packs better; without rows, where it packs all."""
    for heuristic in HEURISTICS:
        other = by_heuristic(case, heuristic)
        if None in other and not (rows and case.may_leave):
            continue
        if rows is None:
            yield f"heuristic {heuristic} finds space"
        elif outlay(case, other) < outlay(case, rows):
            yield f"heuristic {heuristic} packs better: {outlay(case, other)} beside {outlay(case, rows)}"


def faults(case: Case, rows: Sequence[Row], said: Said) -> list[str]:
    """All that is wrong with a packing that was found."""
    placed = [it for it in rows if it]
    return [
        *alone(case, placed), *together(case, placed), *in_groups(case, rows), *told(case, rows, said), *beside_heuristics(case, rows)]


def is_better(case: Case, rows: Sequence[Row]) -> bool:
    """Whether it is better than what each heuristic packs, of those that pack all where nothing may be left."""
    others = [it for it in (by_heuristic(case, heuristic) for heuristic in HEURISTICS) if case.may_leave or None not in it]
    return all(outlay(case, rows) < outlay(case, other) for other in others)
