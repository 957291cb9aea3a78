"""Panels and sheets as the library is told them. Each panel is a box that is larger by the kerf."""
from __future__ import annotations

from collections import deque
from collections.abc import Callable, Iterable, Sequence
from math import gcd
from typing import Any, NamedTuple

from ... import Bin, Box, Placement, Progress, Section, Turn, least_bins, pack
from ..._numbers import MOST_OF_64
from ..._types import Asked
from .job import Job, Kind, Laid, Panel

__all__ = ["Filled", "Packed", "Packer", "Rough", "box_of", "dealer", "filled", "room", "turn_of"]


class Filled(NamedTuple):
    """A sheet with the panels that are packed into it, and where these stand in its bin. A rest that is to stay whole has a
    place too."""

    kind: Kind
    laid: tuple[Laid, ...]
    places: tuple[Section, ...]
    rests: tuple[Section, ...] = ()

    @property
    def content(self) -> object:
        """Sheets with equal contents can be cut alike: they are of a kind, and their panels come from the same lines."""
        return id(self.kind), tuple(sorted(it.panel.key for it in self.laid))

    def with_panels_of(self, other: Filled) -> Filled:
        """This sheet with the panels of one that has an equal content."""
        deal = dealer(it.panel for it in other.laid)
        return self._replace(laid=tuple(Laid(deal(it.panel), it.is_turned) for it in self.laid))


class Rough(NamedTuple):
    """How good a packing is, before its sheets are sawn. Less is better, the first first."""

    # The area of the panels that found no room, with their kerfs.
    left: int
    cost: int
    sheets: int


class Packed(NamedTuple):
    """Sheets with panels, and the panels that found no room."""

    sheets: Sequence[Filled] = ()
    left: Sequence[Panel] = ()
    rough: Rough = Rough(0, 0, 0)
    # How many sheets are needed, whatever plan is made. None where panels are left, or no search was made.
    least: int | None = None


def room(kind: Kind, kerf: int) -> Bin:
    """What of a sheet is usable, and a kerf more each way: the last panel of a row is packed with a kerf that it does not
    need. saw.py says why this is exact."""
    width, height = kind.usable
    return Bin(width + kerf, height + kerf)


def box_of(panel: Panel, kerf: int) -> Box:
    """A panel with the kerf on its right and upper side."""
    return Box(panel.width + kerf, panel.height + kerf)


def turn_of(panel: Panel) -> Turn:
    return "flat" if panel.is_free else "none"


class Packer:
    """Has the panels of a job packed by the library's search."""

    def __init__(self, job: Job) -> None:
        self.job = job
        self.kinds = [kind for kind in job.kinds if kind.count != 0 and any(map(kind.holds, job.panels))]
        self.boxes = [box_of(panel, job.kerf) for panel in job.panels]
        self.turns = [turn_of(panel) for panel in job.panels]
        # Of packings that cost as much the one with fewer sheets is better. So each sheet costs a little more than it does: 2,
        # as a search for bins that cost 1 ends where there are few enough, however they are filled.
        self.unit = gcd(*(kind.cost for kind in self.kinds)) or 1
        dearest = max((kind.cost for kind in self.kinds), default=0) // self.unit
        self.factor = min(2 * len(self.boxes) + 1, (MOST_OF_64 - 2) // max(dearest, 1))

        # No more sheets of a kind are used than there are panels.
        most = len(self.boxes)
        self.most = [most if kind.count is None else min(kind.count, most) for kind in self.kinds]
        self.counts = [None if count == most else count for count in self.most]
        self.cells = sum(box.width * box.height for box in self.boxes)
        self.rooms = [bin.width * bin.height for bin in (room(kind, job.kerf) for kind in self.kinds)]

    def bins(self, counts: Sequence[int | None]) -> list[Bin]:
        """So many sheets of each kind as bins, with what they cost."""
        return [
            room(kind, self.job.kerf)._replace(count=count, cost=kind.cost // self.unit * self.factor + 2)
            for kind, count in zip(self.kinds, counts)]

    def room_in(self, counts: Sequence[int]) -> int:
        """The area of so many sheets of each kind, with the kerf as the panels have it."""
        return sum(count * cells for count, cells in zip(counts, self.rooms))

    def rough(self, told: Progress) -> Rough:
        """How good the best packing is of which a search tells."""
        return Rough(told.left_cells, (told.cost - 2 * told.bins) // self.factor * self.unit, told.bins)

    def packed(self, counts: Sequence[int | None], tries: int, seed: int, asked: Asked) -> Packed:
        """The best packing of a search, of so many sheets of each kind."""
        packing = pack(self.bins(counts), self.boxes, partial=True, tries=tries, seed=seed, turn=self.turns, progress=asked)
        by_sheet: dict[tuple[int, int], list[Placement[int, int]]] = {}
        for it in packing:
            by_sheet.setdefault((it.bin, it.copy), []).append(it)
        # Of equal panels those with the first names are on the first sheets.
        panels, deal = self.job.panels, dealer(self.job.panels)
        sheets = [filled(self.kinds[bin], panels, places, deal) for (bin, _), places in sorted(by_sheet.items())]
        cells = sum(self.boxes[it.name].width * self.boxes[it.name].height for it in packing.left)
        rough = Rough(cells, sum(it.kind.cost for it in sheets), len(sheets))
        return Packed(sheets, [deal(panels[it.name]) for it in packing.left], rough)

    def least(self) -> int | None:
        """How many sheets are needed, whatever plan is made. None where no plan has all panels."""
        return least_bins(self.bins(self.counts), self.boxes, turn=self.turns)


def dealer(panels: Iterable[Panel]) -> Callable[[Panel], Panel]:
    """Deals panels out: in place of a panel the next one that comes from the same line."""
    waiting: dict[int, deque[Panel]] = {}
    for it in panels:
        waiting.setdefault(it.key, deque()).append(it)
    return lambda panel: waiting[panel.key].popleft()


def filled(
    kind: Kind, panels: Sequence[Panel], places: Sequence[Placement[int, Any]], deal: Callable[[Panel], Panel],
) -> Filled:
    """A sheet in which these of the panels stand. Equal ones are dealt out from its left lower corner on."""
    placed = sorted(places, key=lambda it: it.section)
    return Filled(kind, tuple(Laid(deal(panels[it.name]), it.turned) for it in placed), tuple(it.section for it in placed))
