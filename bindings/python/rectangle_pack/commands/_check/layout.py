"""What files tell: where boxes stand on pages, in sheets or in containers. Numbers are as the files have them."""
from __future__ import annotations

import dataclasses
from collections.abc import Callable, Hashable, Iterable, Iterator, Mapping, Sequence
from decimal import Decimal
from typing import NamedTuple

from .._common import Wrong
from .._scale import MOST, MOST_DECIMALS, decimals_of
from .texts import quoted

__all__ = ["NONE", "ONE", "Bin", "Bins", "Claim", "Layout", "Told", "Triple", "told", "why_not", "without_aliases"]

# Along x, y and z.
Triple = tuple[Decimal, Decimal, Decimal]

NONE, ONE = Decimal(0), Decimal(1)


class Bin(NamedTuple):
    """A page, a sheet, a container: what it is called, and its size."""

    name: str
    size: Triple


@dataclasses.dataclass(frozen=True)
class Claim:
    """Where a box stands, as a file tells it. Claims with one value of box are of one box."""

    name: str
    box: Hashable
    bin: Hashable
    corner: Triple
    # As the box is. Where it is turned, width and height change places.
    own_size: Triple
    is_turned: bool = False
    group: Hashable = None

    @property
    def size(self) -> Triple:
        """The size in which it stands."""
        width, height, depth = self.own_size
        return (height, width, depth) if self.is_turned else self.own_size


@dataclasses.dataclass(frozen=True)
class Layout:
    """What has to be a packing. Boxes of one group are in one bin, and those of two groups that are excluded share none. Boxes
    with cells are so far apart along some axis."""

    bins: Mapping[Hashable, Bin]
    claims: Sequence[Claim]
    distance: Decimal = NONE
    excluded: Sequence[tuple[Hashable, Hashable]] = ()

    def numbers(self) -> Iterator[Decimal]:
        """All numbers."""
        yield self.distance
        for bin in self.bins.values():
            yield from bin.size
        for claim in self.claims:
            yield from (*claim.corner, *claim.own_size)


@dataclasses.dataclass(frozen=True)
class Told:
    """What a file tells: what a bin is called in it; layouts, each of which has to be a packing; and how many boxes and bins
    there are."""

    kind: str
    layouts: Sequence[Layout]
    boxes: int
    bins: int

    @classmethod
    def of(cls, kind: str, layout: Layout) -> Told:
        """One layout. A box that it tells of twice counts once."""
        return cls(kind, [layout], len({it.box for it in layout.claims}), len(layout.bins))


class Bins(dict[Hashable, Bin]):
    """Bins by their names."""

    def put(self, name: str, size: Triple, wrong: Callable[[str], Wrong]) -> None:
        """Puts a bin in. Where it is told of again it has the size that it had."""
        bin = self.setdefault(name, Bin(name, size))
        if bin.size != size:
            sizes = [told(it, it[2] == ONE) for it in (size, bin.size)]
            raise wrong(f"says that {quoted(name)} has the size {sizes[0]}, and it had {sizes[1]} before")


def told(numbers: Triple, flat: bool, between: str = "x") -> str:
    """A size as it is written, as 612.4x300; or a corner. What is flat has two numbers."""
    return between.join(f"{number.normalize():f}" for number in numbers[:2 if flat else 3])


def why_not(number: Decimal, least: int = 0) -> str:
    """Why a number is refused; else nothing."""
    if number < least:
        return f"must be at least {least}"
    if number > MOST:
        return f"must be at most {MOST}"
    return f"must have at most {MOST_DECIMALS} decimals" if decimals_of(number) > MOST_DECIMALS else ""


def without_aliases(claims: Iterable[Claim]) -> list[Claim]:
    """The claims of an atlas, where names that have one place are those of one box. Of a name with two places both stay."""
    boxes: dict[Hashable, Hashable] = {}
    places: dict[Hashable, Hashable] = {}
    kept = []
    for it in claims:
        place = it.bin, it.corner, it.own_size, it.is_turned
        box = boxes.setdefault(it.box, places.get(place, it.box))
        if places.get(place) != box:
            places[place] = box
            kept.append(dataclasses.replace(it, box=box))
    return kept
