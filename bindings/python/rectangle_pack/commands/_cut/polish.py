"""Packs single sheets closer, so that more of them is left in large pieces."""
from __future__ import annotations

from collections.abc import Iterator, Sequence
from math import isqrt

from ... import Bin, Box, Turn, pack
from .job import Job
from .packing import Filled, box_of, dealer, filled, room, turn_of
from .saw import sawn
from .watch import Watch

__all__ = ["Polisher"]

# A search of one sheet has so many tries at most, and fewer where it has many panels; a size is halved so often.
TRIES, TRIED_PANELS, HALVINGS = 400, 20_000, 6


class _Corner:
    """The panels of a sheet, in a corner of it that becomes smaller."""

    def __init__(self, job: Job, sheet: Filled) -> None:
        self.job, self.found = job, sheet
        self.panels = [it.panel for it in sheet.laid]
        self.boxes = [box_of(panel, job.kerf) for panel in self.panels]
        self.turns: list[Turn] = [*map(turn_of, self.panels)]
        self.area = sum(box.width * box.height for box in self.boxes)
        self.sides = [*room(sheet.kind, job.kerf)[:2]]

    def takes(self, sides: Sequence[int], *rest: Box) -> bool:
        """Whether a search finds room for the panels in a corner with these sides, beside a rest. Then they stand there."""
        boxes, of_rest = [*self.boxes, *rest], list[Turn](["flat"] * len(rest))
        tries = max(min(TRIES, TRIED_PANELS // len(boxes)), 1)
        packing = pack([Bin(*sides)], boxes, partial=True, tries=tries, turn=[*self.turns, *of_rest])
        if packing.left:
            return False
        placed, rests = packing.placements[:len(self.boxes)], packing.placements[len(self.boxes):]
        found = filled(self.found.kind, self.panels, placed, dealer(self.panels))
        self.found = found._replace(rests=tuple(it.section for it in rests))
        self.sides = [max(it.section[axis] + it.section[3 + axis] for it in packing) for axis in (0, 1)]
        return True

    def shrink(self, axis: int) -> None:
        """Makes a side as short as a search finds room in it, if what comes off is worth keeping."""
        kerf, other, (longer, shorter) = self.job.kerf, self.sides[1 - axis], self.job.keep
        low, sides = -(-self.area // other) - 1, [*self.sides]
        off = shorter if other - kerf >= longer else longer if other - kerf >= shorter else self.sides[axis]
        sides[axis] -= max(off, 1) + kerf
        if sides[axis] <= low or not self.takes(sides):
            return
        for _ in range(HALVINGS):
            sides[axis] = (low + self.sides[axis]) // 2
            if sides[axis] > low and not self.takes(sides):
                low = sides[axis]

    def make_room(self) -> None:
        """Makes room for a rest that has the form of the smallest offcut worth keeping, as large as a search finds it."""
        kerf, keep, sides = self.job.kerf, self.job.keep, self.sides
        free = sides[0] * sides[1] - self.area
        # In thousandths of that offcut.
        low, high = 1000, isqrt(10**6 * free // (keep[0] * keep[1])) if keep[1] else 0
        size = low
        for _ in range(HALVINGS if low <= high else 0):
            if self.takes(sides, Box(keep[0] * size // 1000 + kerf, keep[1] * size // 1000 + kerf)):
                low = size
            elif size == low:
                return
            else:
                high = size
            size = (low + high) // 2


def _layouts(job: Job, sheet: Filled) -> Iterator[Filled]:
    """The sheet as it is, and with its panels nearer to a corner, or round a rest."""
    yield sheet
    whole = _Corner(job, sheet)
    whole.make_room()
    yield whole.found
    for axes in ((0, 1), (1, 0)):
        corner = _Corner(job, sheet)
        for axis in axes:
            corner.shrink(axis)
            yield corner.found
            corner.make_room()
            yield corner.found


class Polisher:
    """Packs sheets closer, those with equal contents once."""

    def __init__(self, job: Job, watch: Watch) -> None:
        self.job, self.watch = job, watch
        self.best: dict[object, tuple[tuple[int, int], Filled]] = {}

    def sawn(self, sheet: Filled) -> tuple[int, int]:
        """The waste and the number of cuts. Less is better."""
        plan = sawn(self.job, sheet)
        return plan.waste, len(plan.cuts)

    def polished(self, sheet: Filled) -> tuple[tuple[int, int], Filled]:
        """The best layout that is known of the sheet, with its waste and its cuts."""
        if sheet.content not in self.best:
            layouts = [sheet] if self.watch.is_over else {it[2:]: it for it in _layouts(self.job, sheet)}.values()
            self.best[sheet.content] = min(((self.sawn(it), it) for it in layouts), key=lambda it: it[0])
        score, best = self.best[sheet.content]
        return score, best.with_panels_of(sheet)
