"""What is to be loaded, into what: crates and how they may be turned, containers, and customers that are kept apart.

x runs over the width of a container, from left to right as one looks from the end wall to the door; y runs up; z runs from the
end wall, where it is 0, to the door. So pictures with x to the right and z to the back show a container as it is. All sizes
here are whole numbers: those of the tables times a power of ten."""
from __future__ import annotations

from collections.abc import Iterable, Mapping
from dataclasses import dataclass
from decimal import Decimal
from functools import cached_property
from typing import NamedTuple

from .._scale import Scale

__all__ = ["FACES", "Container", "Job", "Kind", "Room", "Standing", "Turn", "turns_of"]

# The faces of a crate that may be down: the one it stands on as it is listed, a long side, and the end of its length.
FACES = ("bottom", "side", "end")


class Room(NamedTuple):
    """The inside of a container, or what is free above the top of crates: along x, y and z."""

    wide: int
    high: int
    long: int

    @property
    def volume(self) -> int:
        return self.wide * self.high * self.long


class Turn(NamedTuple):
    """A crate as it is turned: its sides along x, y and z, and the face that is down."""

    wide: int
    high: int
    long: int
    down: str

    def fits(self, room: Room) -> bool:
        return self.wide <= room.wide and self.high <= room.high and self.long <= room.long


def turns_of(length: int, width: int, height: int, faces: Iterable[str]) -> tuple[Turn, ...]:
    """The ways in which a crate may be turned. Of those with equal sides only the first is there."""
    sides = {"bottom": (height, length, width), "side": (width, length, height), "end": (length, width, height)}
    turns: dict[tuple[int, int, int], Turn] = {}
    for face in FACES:
        if face in faces:
            high, one, other = sides[face]
            for wide, long in ((other, one), (one, other)):
                turns.setdefault((wide, high, long), Turn(wide, high, long, face))
    return tuple(turns.values())


@dataclass(frozen=True)
class Kind:
    """A line of the packing list: so many equal crates."""

    index: int
    name: str
    customer: str
    count: int
    # Length, width and height, as the list has them.
    sizes: tuple[int, int, int]
    turns: tuple[Turn, ...]
    line: int
    # Whether others may stand on it.
    is_stackable: bool = True
    # That of one crate.
    weight: int = 0

    @cached_property
    def volume(self) -> int:
        """That of one crate."""
        length, width, height = self.sizes
        return length * width * height


@dataclass(frozen=True)
class Container:
    """A line of the list of containers: so many equal ones."""

    index: int
    name: str
    count: int
    room: Room
    cost: Decimal = Decimal(0)
    # What the crates in it may weigh, where there is a limit.
    payload: int | None = None

    def carries(self, weight: int) -> bool:
        return self.payload is None or weight <= self.payload


@dataclass(frozen=True)
class Job:
    """Crates, containers, and what is asked of a load: for each customer those that may not share a container with it, and
    whether each customer's crates go into one container."""

    kinds: tuple[Kind, ...]
    containers: tuple[Container, ...]
    apart: Mapping[str, frozenset[str]]
    together: bool = False
    # How sizes and weights are told, and whether costs and weights are.
    scale: Scale = Scale()
    weights: Scale = Scale()
    has_costs: bool = False
    has_weights: bool = False
    unit: str = ""
    weight_unit: str = ""

    def told(self, size: int) -> str:
        """A size as the tables have it."""
        return self.scale.text(size)

    def volume(self, size: int) -> str:
        """A volume with its unit: 729 cubic cm"""
        return f"{Scale(3 * self.scale.decimals).text(size)} cubic {self.unit or 'units'}"

    def weight(self, weight: int) -> str:
        """A weight with its unit: 400 kg"""
        return " ".join(filter(None, (self.weights.text(weight), self.weight_unit)))

    def sizes(self, kind: Kind) -> str:
        """Length, width and height of a crate: 120 x 80 x 105 cm"""
        return " ".join(filter(None, (" x ".join(map(self.told, kind.sizes)), self.unit)))


class Standing(NamedTuple):
    """A crate that stands in a container: its corner with the least x, y and z, and how it is turned."""

    kind: Kind
    x: int
    y: int
    z: int
    turn: Turn

    @property
    def right(self) -> int:
        return self.x + self.turn.wide

    @property
    def top(self) -> int:
        return self.y + self.turn.high

    @property
    def front(self) -> int:
        """Where it ends towards the door."""
        return self.z + self.turn.long
