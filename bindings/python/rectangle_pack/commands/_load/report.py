"""What is said of a load: step by step where each crate goes, and the sums."""
from __future__ import annotations

from collections import Counter
from collections.abc import Iterator, Sequence
from dataclasses import dataclass
from decimal import Decimal
from fractions import Fraction

from .job import Container, Job, Standing
from .order import in_order
from .packing import Loaded
from .search import Load

__all__ = ["LoadedContainer", "Report", "Step", "report_of"]


@dataclass(frozen=True)
class Step:
    """A crate that is loaded: which one of its kind it is, where it goes, and the steps of those on which it stands."""

    number: int
    piece: int
    crate: Standing
    on: tuple[int, ...]


@dataclass(frozen=True)
class LoadedContainer:
    """A container, under a name of its own, and what is loaded into it, in this order."""

    name: str
    container: Container
    steps: tuple[Step, ...]
    volume: int
    weight: int
    # How much of the length is in use, from the end wall.
    length: int

    @property
    def filled(self) -> Fraction:
        return Fraction(self.volume, self.container.room.volume)


@dataclass(frozen=True)
class Report:
    """All that is said of a load."""

    job: Job
    containers: tuple[LoadedContainer, ...]
    cost: Decimal
    # How many crates of each kind are left over.
    left: tuple[int, ...]
    # How many containers are needed for all crates, whatever plan is made; None where no plan takes all.
    least: int | None

    @property
    def is_proved(self) -> bool:
        """Whether no plan takes all crates in fewer containers."""
        return not any(self.left) and len(self.containers) == self.least

    @property
    def crates(self) -> int:
        return sum(len(it.steps) for it in self.containers)

    @property
    def filled(self) -> Fraction:
        """The part of the containers' volume that crates take."""
        return Fraction(sum(it.volume for it in self.containers), sum(it.container.room.volume for it in self.containers))


def _bearers(crates: Sequence[Standing]) -> Iterator[tuple[int, ...]]:
    """For each crate the numbers of those on which it stands, counted from 1. There are none where it stands on the floor."""
    tops: dict[int, list[tuple[int, Standing]]] = {}
    for number, crate in enumerate(crates, start=1):
        tops.setdefault(crate.top, []).append((number, crate))
    for crate in crates:
        yield tuple(
            number for number, it in tops.get(crate.y, ())
            if it.x < crate.right and crate.x < it.right and it.z < crate.front and crate.z < it.front)


def _steps(loaded: Loaded, pieces: Counter[int]) -> Iterator[Step]:
    crates = in_order(loaded.crates)
    for number, (crate, on) in enumerate(zip(crates, _bearers(crates)), start=1):
        pieces[crate.kind.index] += 1
        yield Step(number, pieces[crate.kind.index], crate, on)


def report_of(load: Load, least: int | None) -> Report:
    """What is said of a load. Of several equal containers each gets a number. Raises NoOrder."""
    used: Counter[int] = Counter()
    pieces: Counter[int] = Counter()
    containers = []
    for loaded in load.containers:
        it = loaded.container
        used[it.index] += 1
        name = it.name if it.count == 1 else f"{it.name} {used[it.index]}"
        steps = tuple(_steps(loaded, pieces))
        containers.append(LoadedContainer(name, it, steps, loaded.volume, loaded.weight, loaded.length))
    return Report(load.job, tuple(containers), load.cost, load.left, least)
