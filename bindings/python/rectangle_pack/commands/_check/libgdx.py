"""The .atlas of libGDX and of Spine, in its older form (xy and size) and in its newer one (bounds)."""
from __future__ import annotations

import re
from collections.abc import Sequence
from decimal import Decimal
from pathlib import Path

from .._common import Wrong
from .._scale import MOST
from .layout import NONE, ONE, Bins, Claim, Layout, Told, Triple, why_not, without_aliases
from .texts import printable, quoted

__all__ = ["libgdx"]

# How many numbers stand behind these words.
COUNTS = {"size": 2, "xy": 2, "bounds": 4}


class _Part:
    """A page or a region: its name, the line of that, and what is said of it."""

    def __init__(self, path: Path, line: int, name: str) -> None:
        self.path, self.line, self.name = path, line, name
        self.numbers: dict[str, Sequence[Decimal]] = {}
        self.is_turned = False
        self.index = "-1"

    def take(self, line: int, key: str, value: str) -> None:
        """Takes an entry. What is said of pixels is passed over."""
        if key in COUNTS:
            self.numbers[key] = self._numbers(line, key, value)
        elif key == "rotate":
            self.is_turned = self._is_turned(line, value)
        elif key == "index":
            self.index = value

    def _numbers(self, line: int, key: str, value: str) -> Sequence[Decimal]:
        words = [word.strip() for word in value.split(",")]
        if len(words) != COUNTS[key] or not all(re.fullmatch("-?[0-9]{1,20}", word) for word in words):
            raise Wrong(f"{key} is {printable(value)!r}, and must be {COUNTS[key]} whole numbers", self.path, line)
        numbers = [Decimal(word) for word in words]
        for place, number in enumerate(numbers):
            # A corner may be outside of its page, and a size is a size.
            is_corner = key == "xy" or key == "bounds" and place < 2
            why = why_not(number, -MOST if is_corner else 0)
            if why:
                raise Wrong(f"{key} has {number}, which {why}", self.path, line)
        return numbers

    def _is_turned(self, line: int, value: str) -> bool:
        """Whether a region is turned by a quarter, or by three."""
        degrees = {"true": "90", "false": "0"}.get(value, value)
        if degrees not in ("0", "90", "180", "270"):
            raise Wrong(f"rotate is {printable(value)!r}, and must be true, false, 0, 90, 180 or 270", self.path, line)
        return degrees in ("90", "270")

    def page_size(self, fallback: Triple | None) -> Triple:
        if "size" in self.numbers:
            width, height = self.numbers["size"]
            return width, height, ONE
        if fallback is None:
            raise self.wrong(f"{quoted(self.name)} has no size: say --size WxH")
        return fallback

    def claim(self, page: str) -> Claim:
        """Where a region stands. Its size is as it was before it was turned."""
        if "bounds" not in self.numbers and not {"xy", "size"} <= set(self.numbers):
            raise self.wrong(f"{quoted(self.name)} has neither bounds nor xy and size")
        x, y, width, height = self.numbers.get("bounds") or (*self.numbers["xy"], *self.numbers["size"])
        name = self.name if self.index == "-1" else f"{self.name} {self.index}"
        return Claim(name, (self.name, self.index), page, (x, y, NONE), (width, height, ONE), self.is_turned)

    def wrong(self, why: str) -> Wrong:
        return Wrong(why, self.path, self.line)


def _parts(path: Path, text: str) -> list[list[_Part]]:
    """For each page its own part, and then those of its regions. An empty line ends a page."""
    pages: list[list[_Part]] = []
    is_open = False
    for number, line in enumerate(re.split("\r\n|\r|\n", text), 1):
        key, colon, value = (word.strip() for word in line.partition(":"))
        if not line.strip():
            is_open = False
        elif colon and is_open:
            pages[-1][-1].take(number, key, value)
        elif colon and pages:
            raise Wrong(f"{quoted(key)} stands behind an empty line, and so in no page", path, number)
        elif not colon and is_open:
            pages[-1].append(_Part(path, number, key))
        elif not colon:
            pages.append([_Part(path, number, key)])
            is_open = True
    return pages


def libgdx(path: Path, text: str, fallback: Triple | None) -> Told:
    """The pages of an .atlas. Regions of one name with different indices are different boxes."""
    bins, claims = Bins(), list[Claim]()
    for page, *regions in _parts(path, text):
        bins.put(page.name, page.page_size(fallback), page.wrong)
        claims += [region.claim(page.name) for region in regions]
    if not bins:
        raise Wrong("has no page", path)
    return Told.of("page", Layout(bins, without_aliases(claims)))
