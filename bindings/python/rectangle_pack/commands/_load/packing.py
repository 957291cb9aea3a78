"""Stacks go into containers, as the library's search places them on the floors."""
from __future__ import annotations

from bisect import bisect_left, bisect_right
from collections.abc import Hashable, Iterable, Sequence
from dataclasses import dataclass
from decimal import Decimal
from functools import cached_property
from itertools import product
from typing import NamedTuple

from ... import Asked, Bin, Box, pack
from .job import Container, Job, Standing
from .stacks import Stack

__all__ = ["Loaded", "Lots", "Placed", "Price", "loaded_of", "price_of", "shortened"]

# So many containers of each kind.
Lots = Sequence[tuple[Container, int]]

# What is less is better: the cost, then how many containers there are, then their volume.
Price = tuple[Decimal, int, int]

# What the library counts with: a container costs so much more than a part of the greatest volume, and the dearest so much more.
_ONE, _DEAREST = 10**6, 10**15

# With more pairs of stacks that are kept apart fewer tries are made.
_FEW_PAIRS = 1000


class Placed(NamedTuple):
    """A stack and its corner, and whether it is turned about."""

    stack: Stack
    x: int
    z: int
    is_turned: bool

    @property
    def front(self) -> int:
        """Where it ends towards the door."""
        long: int = self.stack.wide if self.is_turned else self.stack.long
        return self.z + long


@dataclass(frozen=True)
class Loaded:
    """A container, and what stands in it."""

    container: Container
    placed: tuple[Placed, ...]

    @cached_property
    def crates(self) -> tuple[Standing, ...]:
        return tuple(crate for it in self.placed for crate in it.stack.at(it.x, it.z, it.is_turned))

    @cached_property
    def volume(self) -> int:
        return sum(it.stack.volume for it in self.placed)

    @cached_property
    def weight(self) -> int:
        return sum(it.stack.weight for it in self.placed)

    @cached_property
    def length(self) -> int:
        """How much of the length is in use, from the end wall."""
        return max((it.front for it in self.placed), default=0)

    @cached_property
    def part(self) -> float:
        """Which part of the volume or of the payload is in use, whichever is more."""
        by_weight = self.weight / self.container.payload if self.container.payload else 0.0
        return max(self.volume / self.container.room.volume, by_weight)


def price_of(containers: Iterable[Container]) -> Price:
    taken = list(containers)
    return sum((it.cost for it in taken), Decimal(0)), len(taken), sum(it.room.volume for it in taken)


class _Floors:
    """Stacks, and the floors of containers, as the library takes them. All have one height, so that no stack goes on another. Only
    where some stacks are too high for some containers there are more heights, of which no two together are one."""

    def __init__(self, job: Job, stacks: Sequence[Stack], lots: Lots) -> None:
        self.job, self.stacks = job, stacks
        self.lots = {it.index: (it, min(count, len(stacks))) for it, count in lots if count}
        rooms = sorted({it.room.high for it, _ in self.lots.values()})
        self._heights = sorted({rooms[bisect_left(rooms, it.high)] for it in stacks if it.high <= rooms[-1]})

    def bins(self) -> dict[int, Bin]:
        dearest = max(it.cost for it, _ in self.lots.values()) or 1
        greatest = max(it.room.volume for it, _ in self.lots.values())
        base = len(self._heights)
        return {
            index: Bin(
                it.room.wide, base + bisect_right(self._heights, it.room.high), it.room.long, count,
                int(it.cost / dearest * _DEAREST) + _ONE + it.room.volume * 1000 // greatest)
            for index, (it, count) in self.lots.items()}

    def boxes(self) -> list[Box]:
        base = len(self._heights) + 1
        return [
            Box(it.wide, base + bisect_left(self._heights, it.high), it.long, self._group(index, it))
            for index, it in enumerate(self.stacks)]

    def _group(self, index: int, stack: Stack) -> Hashable:
        """The stacks of a customer are a group where they are kept together; else each is one that some others are apart from."""
        if self.job.together:
            return next(iter(stack.customers), None)
        return index if any(it in self.job.apart for it in stack.customers) else None

    def exclude(self) -> list[tuple[Hashable, Hashable]]:
        """The pairs of groups that may not share a container."""
        groups: dict[str, dict[Hashable, None]] = {}
        for index, it in enumerate(self.stacks):
            for customer in it.customers.intersection(self.job.apart):
                groups.setdefault(customer, {})[self._group(index, it)] = None
        pairs = ((one, other) for one in groups for other in sorted(self.job.apart[one]) if one < other and other in groups)
        return [pair for one, other in pairs for pair in product(groups[one], groups[other])]


def _packed(floors: _Floors, tries: int, seed: int, asked: Asked | None) -> tuple[list[Loaded], list[Stack]]:
    """Stacks in containers, and those that are left, whatever they weigh."""
    exclude = floors.exclude()
    # A try takes as long as there are pairs, where there are many.
    tries = max(tries * _FEW_PAIRS // max(len(exclude), _FEW_PAIRS), 1)
    packing = pack(
        floors.bins(), floors.boxes(), exclude=exclude, partial=True, tries=tries, seed=seed, turn="upright", progress=asked)
    homes: dict[tuple[int, int], list[Placed]] = {}
    for it in packing:
        homes.setdefault((it.bin, it.copy), []).append(Placed(floors.stacks[it.name], it.x, it.z, it.turned))
    loaded = [Loaded(floors.lots[index][0], tuple(placed)) for (index, _), placed in homes.items()]
    return loaded, [floors.stacks[it.name] for it in packing.left]


def _lightened(job: Job, loaded: Loaded) -> tuple[Loaded, list[Stack]]:
    """A container with no more than it may carry, and what is taken out: the heaviest stays, of customers that are kept together
    all that is theirs."""
    payload = loaded.container.payload
    if payload is None or loaded.weight <= payload:
        return loaded, []
    units: dict[Hashable, list[Placed]] = {}
    for index, it in enumerate(loaded.placed):
        customer: Hashable = next(iter(it.stack.customers), index) if job.together else index
        units.setdefault(customer, []).append(it)
    kept, out, weight = list[Placed](), list[Stack](), 0
    for unit in sorted(units.values(), key=_weight, reverse=True):
        if weight + _weight(unit) <= payload:
            kept += unit
            weight += _weight(unit)
        else:
            out += (it.stack for it in unit)
    return Loaded(loaded.container, tuple(kept)), out


def _weight(placed: Sequence[Placed]) -> int:
    return sum(it.stack.weight for it in placed)


def loaded_of(
    job: Job, stacks: Sequence[Stack], lots: Lots, tries: int, seed: int, asked: Asked | None = None,
) -> tuple[list[Loaded], list[Stack]]:
    """The stacks in containers, and those that are left. What is over the payload of a container is taken out, and goes into
    further ones, until nothing is over."""
    done, left, free = list[Loaded](), list(stacks), dict(lots)
    while left and any(free.values()):
        packed, left = _packed(_Floors(job, left, list(free.items())), tries, seed, asked)
        out = list[Stack]()
        for it in packed:
            light, over = _lightened(job, it)
            out += over
            done += [light] if light.placed else []
            # One that carries nothing of all this is of no use.
            free[it.container] = free[it.container] - 1 if light.placed else 0
        left += out
        if not out:
            break
    return done, left


def shortened(loaded: Loaded, tries: int) -> Loaded:
    """The same stacks in as little of the length as is found, to a hundredth of the container's."""
    room, stacks = loaded.container.room, [it.stack for it in loaded.placed]
    short = max(sum(it.floor for it in stacks) // room.wide, 1) - 1
    while loaded.length - short > max(room.long // 100, 1):
        middle = (short + loaded.length) // 2
        boxes = [Box(it.wide, 1, it.long) for it in stacks]
        packing = pack([Bin(room.wide, 1, middle)], boxes, partial=True, tries=tries, turn="upright")
        if packing.left:
            short = middle
        else:
            loaded = Loaded(loaded.container, tuple(Placed(stacks[it.name], it.x, it.z, it.turned) for it in packing))
    return loaded
