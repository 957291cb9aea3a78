"""Looks for the cheapest sheets that take all panels, by searches of the library, one after the other.

The first may use all sheets. Then some sheets of its packing are exchanged for others that cost less, or go, as long as a search
finds room for all panels. The last begin anew, for less waste and fewer cuts. After each the sheets are packed closer."""
from __future__ import annotations

import time
from collections import Counter
from collections.abc import Iterator, Sequence
from dataclasses import replace
from itertools import chain, product
from operator import le
from typing import NamedTuple

from .._common import NoRoom
from .job import Job, Panel
from .packing import Filled, Packed, Packer, Rough
from .polish import Polisher
from .watch import Stop, Watch

__all__ = ["Limits", "check_each_fits", "search_all"]

# So many tries are made where nothing is said of them.
TRIES = 100_000

# The first search makes so many at least: with fewer the library has not laid the panels in each way in which they may stand.
FEWEST = 192

# Up to so many sheets of a kind are exchanged at once, of so many kinds, in so many searches; and so many begin anew.
GONE, DEAREST, CHEAPER, ANEW = 3, 6, 20, 5


class Limits(NamedTuple):
    """How long is searched, and whether panels may be left."""

    tries: int | None
    seconds: float | None
    may_leave: bool

    @property
    def most(self) -> int:
        """So many tries are made, if there is time."""
        return max(self.tries or TRIES, FEWEST)


class _Score(NamedTuple):
    """What packings are compared by. Less is better, the first first."""

    rough: Rough
    waste: int
    cuts: int


class _Search:
    """The searches of a job. They keep the best packing."""

    def __init__(self, job: Job, watch: Watch) -> None:
        self.watch, self.packer, self.polisher = watch, Packer(job), Polisher(job, watch)
        self.best: tuple[_Score, Packed] | None = None
        kinds = self.packer.kinds
        self.dearest = sorted(range(len(kinds)), key=lambda it: -kinds[it].cost)[:DEAREST]

    def used(self) -> Sequence[int]:
        """How many sheets of each kind the best packing takes."""
        assert self.best
        used = Counter(id(it.kind) for it in self.best[1].sheets)
        return [used[id(kind)] for kind in self.packer.kinds]

    def taken(self) -> Sequence[int]:
        """So many; and all that cost nothing."""
        packer = self.packer
        return [used if kind.cost else most for used, kind, most in zip(self.used(), packer.kinds, packer.most)]

    def fewer(self) -> Iterator[Sequence[int | None]]:
        """All sheets, but of one kind one fewer than the best packing takes."""
        for index in self.dearest:
            if used := self.used()[index]:
                yield [used - 1 if it == index else count for it, count in enumerate(self.packer.counts)]

    def cheaper(self) -> Iterator[tuple[int, ...]]:
        """How many sheets of each kind there are, where some of a kind go and others come, so that all cost less than those of
        the best packing."""
        packer, counts = self.packer, self.taken()
        dearest = [index for index in self.dearest if packer.kinds[index].cost]
        for gone, come, number in product(dearest, dearest, range(1, GONE + 1)):
            if number <= counts[gone]:
                costs, after = number * packer.kinds[gone].cost, [*counts]
                after[gone] -= number
                if come != gone:
                    after[come] = min(after[come] + (costs - 1) // packer.kinds[come].cost, packer.most[come])
                yield tuple(after)

    def promising(self) -> Iterator[Sequence[int]]:
        """Such sheets, those with the largest area first, until the searches find nothing in them."""
        failed: list[tuple[int, ...]] = []
        for _ in range(CHEAPER):
            least = self.packer.cells
            found = [
                it for it in {*self.cheaper()} if self.packer.room_in(it) >= least
                and not any(all(map(le, it, other)) for other in failed)]
            if not found:
                return
            counts, before = max(found, key=lambda it: (self.packer.room_in(it), it)), self.best
            yield counts
            if before and self.best and self.best[0].rough >= before[0].rough:
                failed.append(counts)

    def round(self, tries: int) -> Iterator[tuple[Sequence[int | None], int]]:
        """How many sheets of each kind each search may use, and how many tries it has."""
        every, share = self.packer.counts, max(tries // (2 * (DEAREST + CHEAPER)), 1)
        left = tries - max(tries // 4, 1)
        yield every, max(tries - left, FEWEST)
        is_all = self.best is not None and not self.best[1].left
        for counts in chain(self.fewer() if len(every) > 1 else (), self.promising()) if is_all else ():
            if left < share:
                return
            yield counts, share
            left -= share
        for _ in range(ANEW if left >= ANEW else 0):
            yield self.taken() if is_all else every, left // ANEW

    def rounds(self, limits: Limits) -> Iterator[tuple[Sequence[int | None], int]]:
        """Those of one round; and of others, with more tries, as long as there is time."""
        tries = limits.tries or TRIES
        yield from self.round(tries)
        while limits.tries is None and limits.seconds is not None:
            tries *= 2
            yield from self.round(tries)

    def search(self, counts: Sequence[int | None], tries: int, seed: int) -> None:
        """One search."""
        packer, watch = self.packer, self.watch
        packed = packer.packed(counts, tries, seed, lambda told: watch.tried(told.tries, packer.rough(told)))
        watch.next()
        if self.best is None or packed.rough <= self.best[0].rough:
            polished = [self.polisher.polished(it) for it in packed.sheets]
            score = _Score(packed.rough, sum(waste for (waste, _), _ in polished), sum(cuts for (_, cuts), _ in polished))
            if self.best is None or score < self.best[0]:
                self.best = score, packed._replace(sheets=[sheet for _, sheet in polished])

    def run(self, limits: Limits) -> Packed:
        """All searches, one after the other."""
        for seed, (counts, tries) in enumerate(self.rounds(limits)):
            if self.best is None or not self.watch.is_over:
                self.search(counts, tries, seed)
            else:
                break
        assert self.best
        return self.best[1]


def check_each_fits(job: Job) -> None:
    """Raises NoRoom where a panel is larger than each of the sheets, or there is none."""
    kinds = [kind for kind in job.kinds if kind.count != 0]
    of = f"{job.of}: " if job.of else ""
    if not job.kinds:
        panel = job.panels[0]
        raise NoRoom(f"the panel {panel.name!r} of line {panel.line} is of {job.of}, and no sheet is")
    for panel in job.panels:
        if not any(kind.holds(panel) for kind in kinds):
            size = job.lengths.size(panel.width, panel.height)
            turned = any(kind.takes(panel.height, panel.width) for kind in kinds)
            why = "fits a sheet only when it is turned, and it keeps its direction" if turned else "fits no sheet"
            if any(replace(kind, trim=0).holds(panel) for kind in kinds):
                why = "fits no sheet once --trim is off its edges"
            raise NoRoom(f"{of}the panel {panel.name!r} of line {panel.line}, {size}, {why}")


def _used_up(job: Job, left: Sequence[Panel]) -> NoRoom:
    """Why there is no packing, where each panel fits some sheet."""
    largest = max(left, key=lambda panel: panel.area)
    size = job.lengths.size(largest.width, largest.height)
    of = f"{job.of}: " if job.of else ""
    count = f"{len(left)} of {len(job.panels)} panels"
    return NoRoom(f"{of}the stock is used up: there is no room for {count}, as {largest.name!r}, {size}")


def _found(job: Job, limits: Limits, watch: Watch) -> Packed:
    """The sheets of a job. Raises NoRoom where panels are left that may not be; but where the user ended the search there are
    no sheets then."""
    search = _Search(job, watch)
    try:
        packed = search.run(limits)
    finally:
        watch.end()
    if not packed.left:
        return packed._replace(least=search.packer.least())
    if limits.may_leave:
        return packed
    if watch.stop.is_pressed:
        return Packed()
    raise _used_up(job, packed.left)


def search_all(jobs: Sequence[Job], limits: Limits, stop: Stop) -> tuple[list[Packed], str]:
    """The sheets of one job after the other, until the user ends that; and a line that says so. Those that are not begun then
    have no sheets. Each job has a share of the time."""
    found, stopped = list[Packed](), ""
    begun = time.monotonic()
    for index, job in enumerate(jobs):
        if stop.is_pressed:
            found.append(Packed((), job.panels if limits.may_leave else ()))
            continue
        seconds = None
        if limits.seconds is not None:
            seconds = (begun + limits.seconds - time.monotonic()) / (len(jobs) - index)
        watch = Watch(job, limits.most if limits.tries or limits.seconds is None else None, seconds, stop)
        found.append(_found(job, limits, watch))
        if stop.is_pressed:
            stopped = f"stopped after {watch.count}: the plan is the best so far"
    without = ", ".join(job.of for job, it in zip(jobs, found) if not it.sheets)
    return found, stopped + (f"; no plan of {without}" if stopped and without else "")
