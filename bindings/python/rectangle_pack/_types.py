"""What is packed, by which heuristic, and where it stands then."""
from __future__ import annotations

from collections.abc import Callable, Hashable, Iterable, Iterator, Mapping, Sequence
from dataclasses import dataclass
from functools import cached_property
from typing import Any, Generic, Literal, NamedTuple, Optional, TypeVar, Union

BoxName = TypeVar("BoxName", bound=Hashable)
BinName = TypeVar("BinName", bound=Hashable)

# For each group the names of its boxes. A group may have any name but None.
Groups = Union[Mapping[Any, Iterable[BoxName]], Sequence[Iterable[BoxName]]]

# Groups that may not share a bin.
Pairs = Iterable[tuple[Hashable, Hashable]]

# What boxes, bins and pieces of a bin are rated by.
Heuristic = Literal["volume", "height", "width", "depth", "side-sum", "longest-side", "shortest-side", "side-area"]

# Or the one of these with which the bins are used best.
AnyHeuristic = Union[Heuristic, Literal["best"]]

# Which sides of a box may change places: none, as sprites and panels lie flat width and height, as crates stand upright width
# and depth, or any.
Turn = Literal["none", "flat", "upright", "any"]


# How boxes may be turned: one word for all, or a word for each box by its name. A box that is not named stands as it is.
Turning = Union[Turn, Mapping[BoxName, Turn], Sequence[Turn]]


class Bin(NamedTuple):
    """A bin, by its size in cells. In two dimensions the depth is 1. count says how many equal bins there are under one name, None
    that there are as many as are needed; cost what it costs to use one of them, which counts where a packing is searched for."""
    width: int
    height: int
    depth: int = 1
    # In place of that of a tuple.
    count: int | None = 1  # type: ignore[assignment]
    cost: int = 1


class Box(NamedTuple):
    """A box, by its size in cells. Boxes of one packing and of one group go into one bin. Without a group it is alone."""
    width: int
    height: int
    depth: int = 1
    group: Hashable = None


class Section(NamedTuple):
    """A free section of a bin, or where a box stands: the corner with the least coordinates, and the size, in cells."""
    x: int
    y: int
    z: int
    width: int
    height: int
    depth: int


class Stats(NamedTuple):
    """What is free and what is placed in a bin: volumes in cells, and how many free sections and placements there are."""
    bin_volume: int
    free_volume: int
    placed_volume: int
    free_sections: int
    placements: int


class Progress(NamedTuple):
    """How far a search is: how many tries were made, and of the best packing so far how many bins have a box, what these cost
    together, and how many cells the boxes have that are left."""
    tries: int
    bins: int
    cost: int
    left_cells: int


# What is asked from time to time while a packing is searched for. Where it answers False the search ends.
Asked = Callable[[Progress], Optional[bool]]


class Step(NamedTuple):
    """A step of a packing as it is told: the name of a group, or of a box that is alone; the name of its bin; the heuristic by
    which free sections are cut up; and which of the bins of this name it is, where there are several."""
    group: Hashable
    bin: Hashable
    heuristic: Heuristic = "volume"
    copy: int = 0


# A step may be a plain tuple.
AnyStep = Union[Step, tuple[Hashable, Hashable], tuple[Hashable, Hashable, Heuristic]]


# Placements and packings fill their __dict__ themselves: the __init__ of a frozen dataclass takes more than twice the time.
@dataclass(frozen=True, init=False)
class Placement(Generic[BoxName, BinName]):
    """Where a box stands: its name; the group for which it stands there, or None; the name of its bin; its corner and its size as
    it stands, in cells; which of the bins of this name it is, 0, 1 and so on; and whether it is turned, so that its size is not
    its own."""
    name: BoxName
    group: Hashable
    bin: BinName
    x: int
    y: int
    z: int
    width: int
    height: int
    depth: int
    copy: int = 0
    turned: bool = False

    def __init__(
        self, name: BoxName, group: Hashable, bin: BinName, x: int, y: int, z: int, width: int, height: int, depth: int,
        copy: int = 0, turned: bool = False,
    ) -> None:
        fields = self.__dict__
        fields["name"], fields["group"], fields["bin"] = name, group, bin
        fields["x"], fields["y"], fields["z"] = x, y, z
        fields["width"], fields["height"], fields["depth"] = width, height, depth
        # Most have what the class has.
        if copy or turned:
            fields["copy"], fields["turned"] = copy, turned

    @property
    def section(self) -> Section:
        """The corner and the size."""
        return Section(self.x, self.y, self.z, self.width, self.height, self.depth)


@dataclass(frozen=True, init=False)
class Outstanding(Placement[BoxName, BinName]):
    """Where a box stands in a session, and the number by which it is released."""
    # What has no default may not follow what has one. Each gets a number.
    number: int = 0

    def __init__(
        self, name: BoxName, group: Hashable, bin: BinName, x: int, y: int, z: int, width: int, height: int, depth: int,
        number: int, copy: int = 0, turned: bool = False,
    ) -> None:
        fields = self.__dict__
        fields["name"], fields["group"], fields["bin"], fields["number"] = name, group, bin, number
        fields["x"], fields["y"], fields["z"] = x, y, z
        fields["width"], fields["height"], fields["depth"] = width, height, depth
        if copy or turned:
            fields["copy"], fields["turned"] = copy, turned


class Left(NamedTuple):
    """A box that no bin took with its group: its name, and the group for which it is left, or None where it is alone."""
    name: Any
    group: Hashable


Placed = TypeVar("Placed", bound=Placement[Any, Any])


def _not_known() -> int | None:
    raise ValueError("it is not known of which boxes and bins this packing is")


@dataclass(frozen=True, init=False)
class Packing(Generic[BoxName, Placed]):
    """A packing that is done: by which heuristic, and where the boxes stand. First there is one placement for each box, in the
    order in which the boxes were given. Then there is one for each further group that a box is in, in the order in which these
    were given. A loop over the packing goes over its placements. Where it was searched for or told the heuristic is None.

    left has the boxes that did not fit, in the same order. It is empty where partial was not asked for, and where all fit. A box
    that is left has no placement for that group; a box of several groups may be left for one and placed for another.

    packing[name] is the placement of the box of this name."""
    heuristic: Heuristic | None
    placements: tuple[Placed, ...]
    left: tuple[Left, ...] = ()

    def __init__(
        self, heuristic: Heuristic | None, placements: tuple[Placed, ...], left: tuple[Left, ...] = (),
        ask_least: Callable[..., int | None] = _not_known, *asked: Any,
    ) -> None:
        fields = self.__dict__
        fields["heuristic"], fields["placements"], fields["left"] = heuristic, placements, left
        fields["_least"] = ask_least, asked

    @cached_property
    def used(self) -> int:
        """How many bins have a box of the packing."""
        return len({(it.bin, it.copy) for it in self.placements})

    @cached_property
    def least(self) -> int | None:
        """How many of these bins are needed at least, as least_bins answers it. It is found when it is first asked for.

        Raises OutOfMemory, and ValueError where the packing was not made by the library."""
        ask_least, asked = self.__dict__["_least"]
        least: int | None = ask_least(*asked)
        return least

    @property
    def optimal(self) -> bool:
        """Whether it is proved that no packer places all boxes in fewer of these bins: nothing is left, and no more bins are used
        than are needed. False says nothing of whether there is a better one. Raises what least raises."""
        return not self.left and self.least is not None and self.used <= self.least

    def __iter__(self) -> Iterator[Placed]:
        return iter(self.placements)

    def __len__(self) -> int:
        return len(self.placements)

    def __getitem__(self, name: BoxName) -> Placed:
        """Raises KeyError where there is no such box or it is left, and LookupError where it has several placements."""
        # For one box it takes no index.
        if len(self.placements) == 1 and self.placements[0].name == name:
            return self.placements[0]
        placements = self._by_name[name]
        if len(placements) > 1:
            groups = ", ".join(repr(it.group) for it in placements)
            raise LookupError(f"box {name!r} has a placement for each of its groups: {groups}")
        return placements[0]

    @cached_property
    def _by_name(self) -> dict[BoxName, list[Placed]]:
        by_name: dict[BoxName, list[Placed]] = {}
        for it in self.placements:
            by_name.setdefault(it.name, []).append(it)
        return by_name
