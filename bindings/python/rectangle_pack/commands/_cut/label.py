"""What is written on a panel or an offcut: name and measures, as large as there is room for. Where there is no room for both,
the name stays, as the legend and the text have the measures."""
from __future__ import annotations

from dataclasses import dataclass
from itertools import product
from typing import Literal, get_args

from .page import LINE_HEIGHT, Area, Text, shortened, text_width

__all__ = ["Words", "label"]

# In mm of paper. What is smaller could not be read.
NAME_SIZES, MEASURE_SIZES, KEY_SIZES = (3.6, 3.0, 2.5, 2.1), (2.8, 2.4), (3.0, 2.5, 2.1)

# The whole name, without the number of the panel, or cut short.
Form = Literal["whole", "plain", "short"]

# Where the measures are, if they are there.
Way = Literal["two lines", "one line", "alone"]

# What stays free between the text and an edge.
EDGE = 0.6


@dataclass(frozen=True)
class Words:
    """What is to be written. The tail is the end of the name which is not cut off: where it is the number of a panel, as #3, it
    may be left out. The key stands for it where there is no room for more."""

    name: str
    tail: str
    width: str
    height: str
    key: str
    colour: str

    @property
    def size(self) -> str:
        return f"{self.width} x {self.height}"


def _at_edges(words: Words, area: Area) -> list[Text]:
    """The name in the middle, and each measure at its edge."""
    across, along = area.middle
    for size in MEASURE_SIZES:
        line = size * LINE_HEIGHT
        width = Text(across, area.y + EDGE + line / 2, words.width, size, words.colour)
        height = Text(area.x + EDGE + line / 2, along, words.height, size, words.colour, is_upright=True)
        inner = Area(area.x + line + 2 * EDGE, area.y + line + 2 * EDGE,
                     area.width - 2 * line - 4 * EDGE, area.height - 2 * line - 4 * EDGE)
        if width.area.width > inner.width or height.area.height > inner.height:
            continue
        for name_size in NAME_SIZES[:3]:
            is_whole = text_width(words.name + words.tail, name_size, True) <= inner.width
            if is_whole and name_size * LINE_HEIGHT <= inner.height:
                name = Text(across, along, words.name + words.tail, name_size, words.colour, is_bold=True)
                return [name, width, height]
    return []


def _along(words: Words, area: Area, form: Form, way: Way, size: float, is_upright: bool) -> list[Text]:
    """The name, where it has room: with the measures below it, or in its line, or without them. For measures in
    its line it is not cut short."""
    long, high = (area.height, area.width) if is_upright else (area.width, area.height)
    long, line, is_two = long - 2 * EDGE, size * LINE_HEIGHT, way == "two lines"
    measures = f"  {words.size}" if way == "one line" else ""
    name = "" if measures and form == "short" else _name(words, long - text_width(measures, size), size, form)
    if not name or (2 * (line + EDGE) if is_two else line) > high or is_two and text_width(words.size, size) > long:
        return []
    across, along = area.middle
    if not is_two:
        return [Text(across, along, name + measures, size, words.colour, is_bold=not measures, is_upright=is_upright)]
    x, y = (line / 2, 0.0) if is_upright else (0.0, line / 2)
    return [Text(across - x, along - y, name, size, words.colour, is_bold=True, is_upright=is_upright),
            Text(across + x, along + y, words.size, size, words.colour, is_upright=is_upright)]


def _name(words: Words, long: float, size: float, form: Form) -> str:
    """The name in this form, where it has room: at least half of it, where it is cut short."""
    whole = words.name + words.tail
    if form == "short":
        name = shortened(words.name, long, size, words.tail, True)
        return name if 2 * len(name) >= len(whole) else ""
    name = whole if form == "whole" else words.name if words.tail.startswith(" #") else ""
    return name if text_width(name, size, True) <= long else ""


def _key(words: Words, area: Area) -> list[Text]:
    for size in KEY_SIZES:
        text = Text(*area.middle, words.key, size, words.colour, is_bold=True)
        if area.has(text.area):
            return [text]
    return []


# From what says the most to what says the least.
FORMS: tuple[Form, ...] = get_args(Form)
WAYS: tuple[Way, ...] = get_args(Way)


def label(words: Words, area: Area) -> list[Text]:
    """What is written on this area: nothing, where there is no room for the key."""
    # Along the longer side where that is what makes it fit.
    found = (_along(words, area, *it) for it in product(FORMS, WAYS, NAME_SIZES[1:], (False, True)))
    return _at_edges(words, area) or next(filter(None, found), []) or _key(words, area)
