"""How large a page may be, and what stands round a sprite on it."""
from __future__ import annotations

from dataclasses import dataclass
from itertools import product

from ... import AnyHeuristic, Bin, Box
from .packer import Packer

__all__ = ["PageRules", "Size", "is_power_of_two", "rounded_up", "shown"]

# A width and a height.
Size = tuple[int, int]

# So many tries a search makes for a packing in which sprites may be turned. The first 192 are one third each with all sprites as
# they are, all lying and all standing. With fewer, a sprite that fits a page in one of these ways alone might be left.
TRIES = 200


def shown(size: Size) -> str:
    return f"{size[0]}x{size[1]}"


def is_power_of_two(number: int) -> bool:
    return number > 0 and number & (number - 1) == 0


def rounded_up(number: int, by: int) -> int:
    """The least multiple that is not below the number."""
    return -(-number // by) * by


def _power_below(number: int) -> int:
    """The greatest power of two that is not above the number."""
    return 1 << number.bit_length() - 1


def _power_above(number: int) -> int:
    """The least power of two that is not below the number."""
    return 1 << max(number - 1, 0).bit_length()


@dataclass(frozen=True)
class PageRules:
    """The greatest size of a page, and in pixels: the padding between sprites, the border of a page, and how often the
    outermost pixels of a sprite are repeated round it; which sides a page may have; and of what each length on a page is a
    multiple: sides of sprites, and these margins.

    The box of a sprite has the repeated pixels on all sides, and the padding at the right and below. The bin of a page has
    no border. It has the padding once more, as none is needed at its right and lower edge."""

    limit: Size
    powers_of_two: bool = False
    padding: int = 0
    border: int = 0
    extrude: int = 0
    square: bool = False
    # No greater than a side of the limit. With powers of two it is one.
    multiple_of: int = 1
    grid: int = 1
    # Whether sprites may be turned by a quarter.
    turn: bool = False

    def _side_below(self, side: int) -> int:
        """The greatest side of a page that is not above this one."""
        return _power_below(side) if self.powers_of_two else side - side % self.multiple_of

    def _side_above(self, side: int) -> int:
        """The least side of a page that is not below this one."""
        return rounded_up(_power_above(side) if self.powers_of_two else side, self.multiple_of)

    @property
    def _sides(self) -> Size:
        """The limit of each side."""
        width, height = self.limit
        return (min(self.limit),) * 2 if self.square else (width, height)

    @property
    def most(self) -> Size:
        """The largest page."""
        width, height = self._sides
        return self._side_below(width), self._side_below(height)

    @property
    def why_most(self) -> str:
        """Why the largest page is below the limit, in brackets; nothing where it is not."""
        kind = "power of two" if self.powers_of_two else f"multiple of {self.multiple_of}"
        reasons = ["pages are squares"] if self._sides != self.limit else []
        for most, side in dict.fromkeys(zip(self.most, self._sides)):
            if most < side:
                reasons.append(f"{most} is the greatest {kind} up to {side}")
        return f" ({', and '.join(reasons)})" if reasons else ""

    @property
    def most_for_one(self) -> Size:
        """The largest sprite that a page takes. It may be below 1."""
        round_it = 2 * (self.border + self.extrude)
        return self.most[0] - round_it, self.most[1] - round_it

    def takes(self, sprite: Size) -> bool:
        """Whether a page takes a sprite."""
        width, height = self.most_for_one
        ways = (sprite, sprite[::-1]) if self.turn else (sprite,)
        return any(it[0] <= width and it[1] <= height for it in ways)

    def packer(self, heuristic: AnyHeuristic) -> Packer:
        """How boxes are packed. Where they may be turned that is searched for, by all heuristics."""
        return Packer(heuristic, TRIES if self.turn else 0)

    @property
    def has_few_sizes(self) -> bool:
        """Whether all sizes can be tried."""
        return self.powers_of_two or self.square

    def sizes(self) -> list[Size]:
        """All sizes that a page may have, where these are few."""
        width, height = self.most
        if self.powers_of_two:
            sides = [2**power for power in range(max(self.most).bit_length()) if 2**power >= self.multiple_of]
        else:
            sides = list(range(self.multiple_of, width + 1, self.multiple_of))
        pairs = zip(sides, sides) if self.square else product(sides, sides)
        return [size for size in pairs if size[0] <= width and size[1] <= height]

    def box(self, sprite: Size, group: str = "") -> Box:
        more = 2 * self.extrude + self.padding
        return Box(sprite[0] + more, sprite[1] + more, group=group or None)

    @property
    def more(self) -> int:
        """How many pixels a page has more than its bin along each side. It may be below 0."""
        return 2 * self.border - self.padding

    def bin(self, page: Size) -> Bin:
        return Bin(page[0] - self.more, page[1] - self.more)

    def page(self, cells: Size) -> Size:
        """The least page whose bin has so many cells along its sides."""
        width, height = (self._side_above(side + self.more) for side in cells)
        return (max(width, height),) * 2 if self.square else (width, height)

    def pixel(self, corner: Size) -> Size:
        """Where on a page the first pixel of the sprite is whose box has this corner in the bin."""
        more = self.border + self.extrude
        return corner[0] + more, corner[1] + more
