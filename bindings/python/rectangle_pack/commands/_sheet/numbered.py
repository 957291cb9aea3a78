"""Names that end in numbers: the frames of an animation for PixiJS, and the indices of a region for libGDX."""
from __future__ import annotations

import re
from collections.abc import Sequence
from dataclasses import dataclass
from typing import NamedTuple

from .._common import Wrong
from .files import Source
from .sheets import Sheet

__all__ = ["Animation", "Naming", "Numbered", "animations_of", "numbered", "refuse_equal_indices"]

# The number has nine digits at most: libGDX reads it into 32 bits.
_NUMBERED = re.compile(r"(.*[^0-9])([0-9]{1,9})(\.png)?", re.IGNORECASE | re.DOTALL)


@dataclass(frozen=True)
class Naming:
    """What is made of names that end in numbers: animations for PixiJS, and indices for libGDX."""

    animations: bool = True
    indices: bool = False


class Numbered(NamedTuple):
    """What stands before the number, and the number."""

    name: str
    number: int


@dataclass(frozen=True)
class Animation:
    """Names of sprites in the order of their numbers, and the indices of the pages on which they are."""

    name: str
    frames: Sequence[str]
    pages: Sequence[int]


def numbered(name: str) -> Numbered | None:
    """A name that ends in a number, without what parts the two: `walk` of `walk-1`, `walk_01`, `walk1` and `walk/1`. None
    where there is no number, or nothing before it."""
    found = _NUMBERED.fullmatch(name)
    if found is None:
        return None
    before = re.sub(r"[-_. ]$", "", found[1]).rstrip(" /")
    return Numbered(before, int(found[2])) if before else None


def animations_of(sheets: Sequence[Sheet]) -> list[Animation]:
    """The animations by their names."""
    found: dict[str, list[tuple[int, str, int]]] = {}
    for page, sheet in enumerate(sheets):
        for frame in sheet.frames:
            it = numbered(frame.sprite.name)
            if it is not None:
                found.setdefault(it.name, []).append((it.number, frame.sprite.name, page))
    return [
        Animation(name, [sprite for _, sprite, _ in sorted(found[name])], sorted({page for *_, page in found[name]}))
        for name in sorted(found)]


def refuse_equal_indices(sources: Sequence[Source]) -> None:
    """Refuses two sprites that would have one name and one index."""
    known: dict[Numbered, Source] = {}
    for source in sources:
        it = numbered(source.name)
        if it is not None:
            other = known.setdefault(it, source)
            if other is not source:
                raise Wrong(
                    f"has the name {it.name!r} and the index {it.number} for libgdx, as {other.path} has", source.path)
