"""Which containers are taken, and what goes into each: the cheapest load that is found in so many tries. In each try crates are
stacked in another way, and the library's search places the stacks: first all of them, then those of some containers again."""
from __future__ import annotations

import random
import time
from collections import Counter
from collections.abc import Sequence
from dataclasses import dataclass
from decimal import Decimal
from functools import cached_property
from itertools import islice
from typing import TypeVar

from ... import Progress
from .._common import progress
from .bound import least_containers
from .job import Job
from .packing import Loaded, Lots, Price, loaded_of, price_of, shortened
from .stacks import Stack, stacks_of
from .ways import ORDERS, TURNINGS, WAYS, Way

__all__ = ["Load", "Search"]

_Item = TypeVar("_Item")

# So many tries are made, and fewer where there are many crates.
_TRIES, _LEAST_TRIES, _TRIED = 80, 12, 50_000

# So many tries has the library's search for all stacks, or as many as place so many stacks; and for those of some containers.
_OF_ALL, _PLACED, _OF_SOME = 600, 120_000, 300

# So often only one kind of container is offered.
_OF_ONE_KIND = 0.25

# In so many heights, and in each in so many ways, all crates are placed at most; and in one way where so many lines have so many
# crates, which take longer to stack.
_MOST_HEIGHTS, _MOST_WAYS, _MANY = 3, 2, 600_000


@dataclass(frozen=True)
class Load:
    """The containers that are loaded."""

    job: Job
    containers: tuple[Loaded, ...]

    @cached_property
    def left(self) -> tuple[int, ...]:
        """How many crates of each kind are left over."""
        inside = Counter(crate.kind.index for it in self.containers for placed in it.placed for crate in placed.stack.crates)
        return tuple(kind.count - inside[kind.index] for kind in self.job.kinds)

    @cached_property
    def price(self) -> Price:
        return price_of(it.container for it in self.containers)

    @cached_property
    def over(self) -> int:
        """The volume of what is left over."""
        return sum(kind.volume * count for kind, count in zip(self.job.kinds, self.left))

    @cached_property
    def rank(self) -> tuple[int, Price, float]:
        """What is less is better. Where some containers are fuller than others one is nearer to one less."""
        return self.over, self.price, -sum(it.part**2 for it in self.containers)

    @property
    def cost(self) -> Decimal:
        return self.price[0]


class Search:
    """A search for the cheapest load, of so many tries and so many seconds at most. best is the best load so far."""

    def __init__(self, job: Job, tries: int | None = None, seconds: float | None = None) -> None:
        crates = sum(kind.count for kind in job.kinds)
        self._job, self._tries = job, tries or max(min(_TRIES, _TRIED // crates), _LEAST_TRIES)
        self._end = None if seconds is None else time.monotonic() + seconds
        self._chance = random.Random(1)
        self.best = Load(job, ())
        self.least = least_containers(job)

    def run(self) -> None:
        """Makes the tries."""
        lots = [(it, it.count) for it in self._job.containers if it.count]
        heights = sorted({it.room.high for it, _ in lots}, reverse=True)[:_MOST_HEIGHTS]
        first = self._first(lots, heights)
        now = self.best
        for number in progress(range(self._tries), self._tries, "loading"):
            # One try is made, however few the seconds are.
            if number and self._is_over():
                break
            if number < len(first):
                stacks = first[number]
                loaded = self._loaded(stacks, lots, max(_OF_ALL, _PLACED // max(len(stacks), 1)))
                now = min(now, Load(self._job, tuple(loaded)), key=lambda it: it.rank)
            else:
                now = self._changed(now)
            self.best = min(self.best, now, key=lambda it: it.rank)

    def _is_over(self) -> bool:
        """Whether the time is up, or nothing is cheaper than the best load."""
        if self._end is not None and time.monotonic() > self._end:
            return True
        if self.least is None or any(self.best.left):
            return False
        containers = [it for it in self._job.containers if it.count]
        least = self.least * min(it.cost for it in containers), self.least, self.least * min(it.room.volume for it in containers)
        return self.best.price <= least

    def _asked(self, _: Progress) -> bool:
        return self._end is None or time.monotonic() < self._end

    def _first(self, lots: Lots, heights: Sequence[int]) -> list[list[Stack]]:
        """All crates in stacks, in the ways that take the least of the floors, for each of these heights."""
        is_long = len(self._job.kinds) * sum(self.best.left) > _MANY
        made = ((self._stacks(self.best.left, lots, way, heights[0]), way) for way in (WAYS[:2] if is_long else WAYS))
        best = sorted(made, key=lambda it: sum(stack.floor for stack in it[0]))[:1 if is_long else _MOST_WAYS]
        lower = (self._stacks(self.best.left, lots, way, high) for high in heights[1:] for _, way in best)
        return [*(stacks for stacks, _ in best), *lower]

    def _stacks(self, counts: Sequence[int], lots: Lots, way: Way, high: int) -> list[Stack]:
        return stacks_of(self._job, counts, way, [it for it, count in lots if count], high)

    def _loaded(self, stacks: Sequence[Stack], lots: Lots, tries: int) -> list[Loaded]:
        return loaded_of(self._job, stacks, lots, tries, self._chance.getrandbits(32), self._asked)[0]

    def _way(self) -> Way:
        """A way by chance. Most often crates are stacked one by one."""
        one_of, chance = self._one_of, self._chance.random
        side_by_side = chance() < 0.3
        return Way(
            one_of(list(TURNINGS)), one_of(list(ORDERS)), one_of(list(ORDERS)), side_by_side and chance() < 0.6,
            side_by_side and chance() < 0.6, one_of((0.0, 0.1, 0.3, 1.0)), self._chance.getrandbits(32))

    def _one_of(self, choices: Sequence[_Item]) -> _Item:
        return choices[int(self._chance.random() * len(choices))]

    def _some(self, load: Load) -> list[Loaded]:
        """Two to four containers, of which one is an emptier one."""
        containers = list(load.containers)
        self._chance.shuffle(containers)
        emptier = min(containers[:self._one_of((2, 4, len(containers)))], key=lambda it: it.part, default=None)
        others = (it for it in containers if it is not emptier)
        return [emptier, *islice(others, self._one_of((1, 1, 2, 3)))] if emptier else []

    def _offered(self, left: Sequence[int], counts: Sequence[int]) -> list[int]:
        """Of these crates all that stand somewhere, and of those that are left over some lines, or some customers where these are
        kept together: so what is large does not keep out what is small."""
        units = [kind.customer if self._job.together and kind.customer else kind.index for kind in self._job.kinds]
        over = dict.fromkeys(unit for unit, count in zip(units, left) if count)
        out = {unit for unit in over if self._chance.random() < 0.5}
        return [count - over_count if unit in out else count for unit, count, over_count in zip(units, counts, left)]

    def _changed(self, now: Load) -> Load:
        """The load with some containers loaded anew, where that is not worse."""
        some = self._some(now)
        kept = [it for it in now.containers if not any(it is other for other in some)]
        taken = Counter(it.container for it in kept)
        free = [(it, min(it.count - taken[it], len(some) + any(now.left))) for it in self._job.containers]
        lots = [(it, count) for it, count in free if count]
        if not any(now.left) and self._chance.random() < _OF_ONE_KIND:
            # So one that is large may stand in for several.
            lots = [self._one_of(lots)]
        counts = self._offered(now.left, Load(self._job, tuple(kept)).left)
        target = self._one_of([it.room.high for it, _ in lots])
        loaded = self._loaded(self._stacks(counts, lots, self._way(), target), lots, _OF_SOME)
        found = Load(self._job, (*kept, *loaded))
        # A little worse, so that the search can leave where it stands.
        is_good = (found.over, found.price) < (now.over, now.price) or found.rank <= (now.over, now.price, now.rank[2] + 0.01)
        return found if is_good else now

    def short(self) -> Load:
        """The best load, in which each container has its crates as near to the end wall as is found."""
        return Load(self._job, tuple(shortened(it, _OF_SOME) for it in self.best.containers))
