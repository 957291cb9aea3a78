"""Stacks: crates on each other. Each crate stands with its whole bottom on the floor, or on equal crates side by side."""
from __future__ import annotations

import random
from collections.abc import Iterator, Sequence
from dataclasses import dataclass
from functools import cached_property
from typing import NamedTuple

from .job import Container, Job, Kind, Room, Standing, Turn
from .ways import ORDERS, TURNINGS, Way

__all__ = ["Stack", "stacks_of"]

# More than all crates weigh.
_NO_LIMIT = 10**60


@dataclass(frozen=True, eq=False)
class Stack:
    """Crates on each other, with their places from the corner of the stack on."""

    crates: Sequence[Standing]
    wide: int
    high: int
    long: int
    volume: int
    weight: int

    @property
    def floor(self) -> int:
        """How much of a floor it takes."""
        return self.wide * self.long

    @cached_property
    def customers(self) -> frozenset[str]:
        return frozenset(it.kind.customer for it in self.crates) - {""}

    def at(self, x: int, z: int, is_turned: bool) -> Iterator[Standing]:
        """The crates where the stack stands at this place, turned about or as it is."""
        for it in self.crates:
            if is_turned:
                wide, high, long, down = it.turn
                yield Standing(it.kind, x + it.z, it.y, z + it.x, Turn(long, high, wide, down))
            else:
                yield it._replace(x=x + it.x, z=z + it.z)


class _Area(NamedTuple):
    """A part of the floor or of a top: its corner, and the room above it."""

    x: int
    y: int
    z: int
    wide: int
    high: int
    long: int


class _Option(NamedTuple):
    """A kind with one of its faces down: the sides of this, the shorter one first, the height, and its rate."""

    short: int
    long: int
    high: int
    kind: Kind
    turn: Turn
    rate: float


class _Builder:
    """Makes stacks of crates, of each kind so many, for some of these containers."""

    def __init__(self, job: Job, left: Sequence[int], way: Way, containers: Sequence[Container]) -> None:
        self._apart, self._left, self._way = job.apart, list(left), way
        self._chance = random.Random(way.seed)
        self._rooms = [it.room for it in containers]
        self._payloads = sorted(_NO_LIMIT if it.payload is None else it.payload for it in containers)
        kinds = [kind for kind in job.kinds if left[kind.index] and kind.weight <= self._payloads[-1]]
        rated = sorted((self._option(*it, way.on) for it in self._turns(kinds)), key=lambda it: it.rate, reverse=True)
        # What bears others, and what bears nothing and so is the last of its stack.
        self._bearers = [it for it in rated if it.kind.is_stackable]
        self._lasts = [it for it in rated if not it.kind.is_stackable]
        self._leave_out()
        # Of the stack that is made: its crates, the tops that are free, how high it is, its volume, what it may still carry, and
        # the customer from whom others are apart.
        self._crates: list[Standing] = []
        self._areas: list[_Area] = []
        self._high, self._volume, self._carried, self._mine = 0, 0, 0, ""

    def _turns(self, kinds: Sequence[Kind]) -> Iterator[tuple[Kind, Turn]]:
        """The kinds with each face down that they may have, across or along the containers, where some container takes them so."""
        for kind in kinds:
            faces = {turn.down: turn for turn in kind.turns if any(map(turn.fits, self._rooms))}
            yield from ((kind, turn) for turn in faces.values())

    def _option(self, kind: Kind, turn: Turn, order: str) -> _Option:
        rate = ORDERS[order](turn) * (1 + self._way.noise * self._chance.random())
        return _Option(min(turn.wide, turn.long), max(turn.wide, turn.long), turn.high, kind, turn, rate)

    def _room(self, turn: Turn, target: int) -> Room | None:
        """Of the containers that take a crate the lowest that is as high as this, or else the highest."""
        rooms = [room for room in self._rooms if turn.fits(room)]
        enough = [room for room in rooms if room.high >= target]
        return min(enough, key=_high) if enough else max(rooms, key=_high) if rooms else None

    def _bases(self, target: int) -> list[tuple[_Option, Room]]:
        """What goes on the floor, each kind as it is turned there, with the room for its stack; what goes first first."""
        bases = []
        choices: dict[Kind, list[tuple[Turn, Room]]] = {}
        for kind in dict.fromkeys(it.kind for it in (*self._bearers, *self._lasts)):
            choices[kind] = [(turn, room) for turn in kind.turns if (room := self._room(turn, target))]
        for kind, turns in choices.items():
            turn, room = min(turns, key=lambda it: TURNINGS[self._way.turning](*it))
            bases.append((self._option(kind, turn, self._way.below), room))
        return sorted(bases, key=lambda it: (it[0].kind.is_stackable, it[0].rate), reverse=True)

    def stacks(self, target: int) -> Iterator[Stack]:
        """All crates in stacks, for containers as high as this where that can be."""
        for base, room in self._bases(target):
            while self._left[base.kind.index]:
                yield self._stack(base, room)
            if 8 * self._gone > len(self._bearers) + len(self._lasts):
                self._leave_out()

    def _leave_out(self) -> None:
        """Leaves out what is used up, and notes what no side is less than of all that is left."""
        self._bearers, self._lasts = (
            [it for it in options if self._left[it.kind.index]] for options in (self._bearers, self._lasts))
        self._gone = 0
        self._least = [min(sides) for sides in list(zip(*self._bearers, *self._lasts))[:3]]

    def _stack(self, base: _Option, room: Room) -> Stack:
        # No more than the container with the least payload carries that carries the lowest crate.
        most = next(it for it in self._payloads if it >= base.kind.weight)
        self._crates, self._areas, self._high, self._volume, self._carried, self._mine = [], [], 0, 0, most, ""
        turn = base.turn
        across = room.wide // turn.wide if self._way.across else 1
        along = room.long // turn.long if self._way.along else 1
        self._stand(base.kind, turn, _Area(0, 0, 0, across * turn.wide, room.high, along * turn.long), False)
        corner = self._crates[-1]
        while self._areas:
            area = self._areas.pop()
            option = self._best(area)
            if option:
                self._stand(option.kind, _laid(option.turn, area), area, True)
        return Stack(self._crates, corner.right, self._high, corner.front, self._volume, most - self._carried)

    def _best(self, area: _Area) -> _Option | None:
        """What goes on an area first: what bears others, as long as there is room on it for what bears nothing."""
        _, _, _, wide, high, long = area
        sides = (wide, long) if wide < long else (long, wide)
        last = self._first(self._lasts, sides, high)
        return self._first(self._bearers, sides, high - last.high if last else high) or last

    def _first(self, options: Sequence[_Option], sides: tuple[int, int], most: int) -> _Option | None:
        """The first of these that fits between such sides, and is no higher than this."""
        least, greatest = sides
        if least < self._least[0] or greatest < self._least[1] or most < self._least[2]:
            return None
        for it in options:
            short, long, high, kind, _, _ = it
            if long <= greatest and high <= most and short <= least and self._may(kind):
                return it
        return None

    def _may(self, kind: Kind) -> bool:
        """Whether a crate of this kind may go on the stack."""
        is_free = self._left[kind.index] > 0 and kind.weight <= self._carried
        return is_free and (self._mine in ("", kind.customer) or kind.customer not in self._apart)

    def _stand(self, kind: Kind, it: Turn, area: _Area, is_filled: bool) -> None:
        """Stands equal crates side by side on an area, as many as can be. Their top, and what is free beside them, are filled
        later: the top first."""
        count = self._left[kind.index]
        if kind.weight:
            count = min(count, self._carried // kind.weight)
        across = min(area.wide // it.wide, count)
        along = min(area.long // it.long, count // across)
        self._left[kind.index] -= across * along
        self._gone += not self._left[kind.index]
        self._high = max(self._high, area.y + it.high)
        self._volume += kind.volume * across * along
        self._carried -= kind.weight * across * along
        self._mine = kind.customer if kind.customer in self._apart else self._mine
        self._crates += [
            Standing(kind, area.x + it.wide * one, area.y, area.z + it.long * other, it)
            for other in range(along) for one in range(across)]
        wide, long = across * it.wide, along * it.long
        if is_filled:
            self._areas += _beside(area, wide, long)
        if kind.is_stackable:
            self._areas.append(_Area(area.x, area.y + it.high, area.z, wide, area.high - it.high, long))


def _high(room: Room) -> int:
    return room.high


def _laid(turn: Turn, area: _Area) -> Turn:
    """A crate across an area or along it, so that more of them fit side by side."""
    wide, high, long, down = turn
    is_better = (area.wide // long) * (area.long // wide) > (area.wide // wide) * (area.long // long)
    return Turn(long, high, wide, down) if is_better else turn


def _beside(area: _Area, wide: int, long: int) -> list[_Area]:
    """What is free of an area beside crates that take so much of it, in two parts, of which one is as large as it can be."""
    x, y, z, all_wide, high, all_long = area
    right, front = all_wide - wide, all_long - long
    is_long = right * all_long > front * all_wide
    return [
        _Area(x + wide, y, z, right, high, all_long if is_long else long),
        _Area(x, y, z + long, wide if is_long else all_wide, high, front)]


def stacks_of(job: Job, left: Sequence[int], way: Way, containers: Sequence[Container], target: int) -> list[Stack]:
    """So many crates of each kind in stacks, made in a way, as high as this where some of the containers are as high. Where
    customers are kept together a stack has crates of one."""
    parts = [left]
    if job.together:
        customers = dict.fromkeys(kind.customer for kind in job.kinds if left[kind.index])
        parts = [[count if kind.customer == it else 0 for kind, count in zip(job.kinds, left)] for it in customers]
    stacks = (stack for part in parts for stack in _Builder(job, part, way, containers).stacks(target))
    return sorted(stacks, key=lambda it: it.volume, reverse=True)
