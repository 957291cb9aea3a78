"""Sprites: what is left of each picture, and which of them are stored once."""
from __future__ import annotations

from collections.abc import Sequence
from dataclasses import dataclass
from pathlib import Path
from typing import Any

from .._common import NoRoom, Wrong, progress
from .files import Source
from .pictures import digest, kept_part, read_picture
from .rules import PageRules, Size, rounded_up, shown

__all__ = ["Sprite", "Stored", "read_sprites"]


@dataclass(frozen=True)
class Sprite:
    """A sprite: its name, its file and its folder; how large it is there, and which part of that is kept."""

    name: str
    path: Path
    folder: str
    whole: Size
    corner: Size
    size: Size

    @property
    def is_trimmed(self) -> bool:
        return self.size != self.whole


@dataclass(frozen=True)
class Stored:
    """What stands once on a page: its pixels, the group that it is kept with, and the sprites that are shown by it."""

    picture: Any
    group: str
    sprites: Sequence[Sprite]

    @property
    def size(self) -> Size:
        return self.sprites[0].size


def _group(folder: str, group_by: str) -> str:
    """The group of what lies in a folder. It is empty where a sprite is alone."""
    return {"": "", "folder": folder, "top": folder.split("/", 1)[0]}[group_by]


def _refuse_too_large(sprite: Sprite, rules: PageRules) -> None:
    """Refuses a sprite that no page takes."""
    if not rules.takes(sprite.size):
        width, height = rules.most_for_one
        size = shown(sprite.size) + (" after trimming" if sprite.is_trimmed else "")
        most = shown((max(width, 0), max(height, 0)))
        raise NoRoom(f"{sprite.path}: is {size}, and a page of {shown(rules.most)} takes {most} at most{rules.why_most}")


def _refuse_uneven(uneven: Sequence[Sprite], grid: int) -> None:
    """Refuses sprites whose sides are not whole at each scale."""
    if uneven:
        first, *others = uneven
        more = f" ({len(others)} more {'file is' if len(others) == 1 else 'files are'} refused)" if others else ""
        raise Wrong(f"is {shown(first.whole)}, and by this --scale each side has to be a multiple of {grid}{more}", first.path)


def _kept_part(picture: Any, grid: int) -> tuple[int, int, int, int]:
    """What is kept where transparent borders are trimmed: with edges that are whole at each scale."""
    left, top, right, bottom = kept_part(picture)
    return left - left % grid, top - top % grid, rounded_up(right, grid), rounded_up(bottom, grid)


def read_sprites(sources: Sequence[Source], rules: PageRules, trim: bool, alias: bool, group_by: str) -> list[Stored]:
    """What is to be stored. With alias, sprites of one group that have equal pixels are stored once. Refuses a sprite that no
    page takes, and those that are not whole at each scale."""
    stored: dict[object, tuple[Any, str, list[Sprite]]] = {}
    uneven = []
    for source in progress(sources, len(sources), "reading"):
        picture, group = read_picture(source.path), _group(source.folder, group_by)
        left, top, right, bottom = _kept_part(picture, rules.grid) if trim else (0, 0, *picture.size)
        kept = picture.crop((left, top, right, bottom))
        sprite = Sprite(source.name, source.path, source.folder, picture.size, (left, top), kept.size)
        if any(side % rules.grid for side in sprite.whole):
            uneven.append(sprite)
        _refuse_too_large(sprite, rules)
        key = (group, digest(kept)) if alias else source.name
        stored.setdefault(key, (kept, group, []))[2].append(sprite)
    _refuse_uneven(uneven, rules.grid)
    return [Stored(*it) for it in stored.values()]
