"""What a page is drawn of, in millimetres of paper from its left upper corner; and how wide text is."""
from __future__ import annotations

import functools
import unicodedata
from collections.abc import Iterator, Sequence
from dataclasses import dataclass
from typing import NamedTuple, Union

__all__ = ["Area", "Disc", "Lines", "Oblong", "Page", "Shape", "Stroke", "Text", "shortened", "text_width"]

LINE_HEIGHT = 1.25

_NARROW, _WIDE = set(" '.,:;|!ijlIJ/\\ft()[]-r"), set("mwMW@%#+<=>^~OQGD&")


class Area(NamedTuple):
    """A rectangle of paper."""

    x: float
    y: float
    width: float
    height: float

    @property
    def middle(self) -> tuple[float, float]:
        return self.x + self.width / 2, self.y + self.height / 2

    def meets(self, other: Area) -> bool:
        """Whether the two overlap."""
        return (self.x < other.x + other.width and other.x < self.x + self.width
                and self.y < other.y + other.height and other.y < self.y + self.height)

    def has(self, other: Area) -> bool:
        """Whether the other one is inside."""
        return (self.x <= other.x and other.x + other.width <= self.x + self.width
                and self.y <= other.y and other.y + other.height <= self.y + self.height)


@dataclass(frozen=True)
class Oblong:
    """A rectangle, filled where a colour is named. Its title is shown where the pointer rests on it."""

    area: Area
    fill: str
    line: str = ""
    line_width: float = 0.2
    is_dashed: bool = False
    title: str = ""


class Stroke(NamedTuple):
    """From one place to another."""

    x: float
    y: float
    to_x: float
    to_y: float


@dataclass(frozen=True)
class Lines:
    """Straight lines of one colour."""

    strokes: Sequence[Stroke]
    colour: str
    width: float


@dataclass(frozen=True)
class Disc:
    x: float
    y: float
    radius: float
    fill: str
    line: str


@dataclass(frozen=True)
class Text:
    """A line of text in the middle of a place, or from it to the right. Where it is upright it is read from below."""

    x: float
    y: float
    text: str
    size: float
    colour: str
    is_centred: bool = True
    is_bold: bool = False
    is_upright: bool = False

    @property
    def area(self) -> Area:
        """What it covers, at most."""
        width, height = text_width(self.text, self.size, self.is_bold), self.size * LINE_HEIGHT
        if self.is_upright:
            width, height = height, width
        left = self.x - width / 2 if self.is_centred else self.x
        return Area(left, self.y - height / 2, width, height)


Shape = Union[Oblong, Lines, Disc, Text]


@dataclass(frozen=True)
class Page:
    """A page of paper, of which no more is used than down to an end. The title and the description are for who cannot see."""

    width: float
    height: float
    end: float
    title: str
    description: str
    shapes: Sequence[Shape]


def _letter_width(letter: str) -> float:
    """The width of a letter, as a part of the font's size: no less than in the usual fonts without serifs."""
    if letter in _NARROW:
        return 0.42
    if letter in _WIDE:
        return 1.0
    if unicodedata.combining(letter):
        return 0.0
    return 1.05 if unicodedata.east_asian_width(letter) in "WF" else 0.68


@functools.lru_cache(10_000)
def _units(text: str) -> float:
    return sum(map(_letter_width, text))


def text_width(text: str, size: float, is_bold: bool = False) -> float:
    """How wide a line of text is at most, in mm."""
    return _units(text) * size * (1.12 if is_bold else 1.0)


def _shorter(text: str, tail: str) -> Iterator[str]:
    yield text + tail
    for length in range(len(text) - 1, 0, -1):
        yield f"{text[:length].rstrip()}…{tail}"


def shortened(text: str, width: float, size: float, tail: str = "", is_bold: bool = False) -> str:
    """The text, cut short before its tail where it would be too wide. Nothing, where less than three letters are left."""
    for it in _shorter(text, tail):
        if text_width(it, size, is_bold) <= width:
            return it if len(it) - len(tail) >= min(4, len(text)) else ""
    return ""
