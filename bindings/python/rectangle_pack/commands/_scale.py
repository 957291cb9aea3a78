"""Exact numbers: sizes and costs with decimals become whole cells, and text again."""
from __future__ import annotations

from collections.abc import Iterable
from dataclasses import dataclass
from decimal import Decimal

__all__ = ["MOST", "MOST_DECIMALS", "Scale", "decimals_of"]

# The library's sizes have 32 bits.
MOST = 2**32 - 1
MOST_DECIMALS = 9


def _digits(number: Decimal) -> tuple[str, int]:
    """The digits of a number, and how many of them stand behind the point, without zeros at its end."""
    _, digits, exponent = number.as_tuple()
    text = "".join(map(str, digits)).lstrip("0")
    kept = text.rstrip("0")
    return kept or "0", -(int(exponent) + len(text) - len(kept)) if kept else 0


def decimals_of(number: Decimal) -> int:
    """How many decimals a number needs."""
    return max(_digits(number)[1], 0)


@dataclass(frozen=True)
class Scale:
    """Into how many cells a unit is parted: ten to the power of the decimals."""

    decimals: int = 0

    @classmethod
    def of(cls, numbers: Iterable[Decimal]) -> Scale:
        """The coarsest scale in which all of these numbers are whole."""
        return cls(max(map(decimals_of, numbers), default=0))

    def cells(self, number: Decimal) -> int:
        """The number in cells. It is not negative, and has no more decimals than the scale. No digit is rounded."""
        digits, behind = _digits(number)
        return int(digits + "0" * (self.decimals - behind))

    def text(self, cells: int) -> str:
        """As it is written: 612.4"""
        whole, rest = divmod(cells, 10**self.decimals)
        decimals = f"{rest:0{self.decimals}d}".rstrip("0") if rest else ""
        return f"{whole}.{decimals}" if decimals else str(whole)

    def number(self, cells: int) -> int | float:
        """For JSON. A double prints the decimal that it was made from, where this has up to 15 digits: a size has 10."""
        text = self.text(cells)
        return float(text) if "." in text else int(text)

    def size(self, width: int, height: int) -> str:
        """As it is written: 612.4 x 300"""
        return f"{self.text(width)} x {self.text(height)}"

    @property
    def squared(self) -> Scale:
        """The scale of areas."""
        return Scale(2 * self.decimals)
