"""The scales at which pages are written, and what has to divide what, so that each length is whole at each scale."""
from __future__ import annotations

import argparse
import math
import re
from collections.abc import Sequence
from dataclasses import dataclass
from fractions import Fraction

__all__ = ["AS_IT_IS", "PageScale", "grid_of", "page_multiple", "read_scales"]


@dataclass(frozen=True)
class PageScale:
    """How large pages are written: this part of what they are at scale 1. The suffix ends the names of their files."""

    text: str
    suffix: str

    @property
    def part(self) -> Fraction:
        return Fraction(self.text)

    @property
    def number(self) -> int | float:
        """The scale for JSON."""
        return 1 if self.part == 1 else float(self.part)

    def of(self, length: int) -> int:
        """A length at this scale, which is whole."""
        scaled = length * self.part
        assert scaled.denominator == 1, (length, self.text)
        return scaled.numerator


# Where no scale is named, files have no suffix.
AS_IT_IS = PageScale("1", "")


def read_scales(text: str) -> list[PageScale]:
    """Reads `1,0.5`. Each scale has one form, as its suffix is a part of names."""
    scales = []
    for word in text.split(","):
        if not re.fullmatch(r"1|0\.[0-9]{0,3}[1-9]", word):
            raise argparse.ArgumentTypeError(f"{word!r} is no scale: name 1, or a decimal such as 0.5 or 0.25")
        scales.append(PageScale(word, f"@{word}x"))
    return list(dict.fromkeys(scales))


def grid_of(scales: Sequence[PageScale]) -> int:
    """The least number whose multiples are whole at each scale."""
    return math.lcm(*(scale.part.denominator for scale in scales))


def page_multiple(multiple_of: int, scales: Sequence[PageScale]) -> int:
    """The least number whose multiples are multiples of the given one at each scale."""
    return math.lcm(*((multiple_of / scale.part).numerator for scale in scales))
