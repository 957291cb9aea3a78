"""Units of length: millimetres, and inches with their fractions. Numbers are exact: a 64th of an inch is 0.015625."""
from __future__ import annotations

import math
import re
from dataclasses import dataclass
from decimal import Decimal, InvalidOperation

from .._scale import Scale

__all__ = ["INCHES", "MM", "UNITS", "Lengths", "Unit"]

# The finest part of an inch that is written as a fraction.
FINEST = 64

# 24 3/4, 24-3/4, 3/4
_FRACTION = re.compile(r"(-?)(?:([0-9]+)(?: +| *- *))?([0-9]+) */ *([0-9]+)", re.ASCII)


@dataclass(frozen=True)
class Unit:
    """In what lengths are read and written."""

    name: str
    # As it is called in a sentence.
    plural: str
    # How many mm it has.
    mm: Decimal
    # What a number has to be, for who wrote another.
    is_wanted: str
    # The smallest offcut worth keeping, where no option says it; and a length, for an example.
    keep: str
    example: str
    # In what long lengths are told, and how many units it has.
    far: tuple[str, int]
    has_fractions: bool = False

    def number(self, text: str) -> Decimal | None:
        """The number that a text says. A comma may be the mark of decimals."""
        text = text.strip()
        if self.has_fractions:
            text = text.rstrip('"').rstrip()
            if it := _FRACTION.fullmatch(text):
                return _fraction(it[1], int(it[2] or 0), int(it[3]), int(it[4]))
        try:
            number = Decimal(text.replace(",", ".") if text.count(",") == 1 and "." not in text else text)
        except InvalidOperation:
            return None
        return number if number.is_finite() else None


def _fraction(sign: str, whole: int, part: int, parts: int) -> Decimal | None:
    """A whole number and a fraction, where it is one of halves, quarters, and so on to the finest."""
    if not 0 < parts <= FINEST or FINEST % parts:
        return None
    number = whole + Decimal(part) / parts
    return -number if sign else number


MM = Unit("mm", "mm", Decimal(1), "a number", "200x200", "600", ("m", 1000))
INCHES = Unit("in", "inches", Decimal("25.4"), "a number of inches, as 24 3/4 or 24.75", "8x8", "24", ("in", 1), True)

UNITS = {unit.name: unit for unit in (MM, INCHES)}


@dataclass(frozen=True)
class Lengths(Scale):
    """Lengths in cells, as they are written in a unit."""

    unit: Unit = MM

    def text(self, cells: int) -> str:
        """As it is written: 612.4, or 24 3/4. What is no fraction of an inch has decimals."""
        parts, rest = divmod(cells * FINEST, 10**self.decimals)
        if rest or not self.unit.has_fractions:
            return super().text(cells)
        whole, part = divmod(parts, FINEST)
        shared = math.gcd(part, FINEST)
        fraction = f"{part // shared}/{FINEST // shared}" if part else ""
        return " ".join(filter(None, (str(whole) if whole or not part else "", fraction)))

    def number(self, cells: int) -> int | float:
        return Scale(self.decimals).number(cells)

    def mm(self, cells: int) -> Decimal:
        return Decimal(cells).scaleb(-self.decimals) * self.unit.mm

    def far(self, cells: int) -> str:
        """A long length with one decimal, rounded half up: 42.0 m"""
        name, units = self.unit.far
        whole = units * 10**self.decimals
        tenths = (20 * cells + whole) // (2 * whole)
        return f"{tenths // 10}.{tenths % 10} {name}"
