"""What is said of the pages: a few lines, JSON for programs, and a page to look at."""
from __future__ import annotations

import base64
from collections.abc import Sequence
from pathlib import Path
from typing import Any

from .._common import print_json
from .._filled import filled_text
from .._scene import Item, Room, Scene, Step
from .numbered import Animation
from .rules import shown
from .sheets import Frame, Sheet

__all__ = ["print_lines", "print_sheets", "scene_of"]


def _count(number: int, one: str, many: str) -> str:
    return f"{number} {one if number == 1 else many}"


def _filled(sheets: Sequence[Sheet]) -> str:
    """The part of the pixels that sprites have."""
    return filled_text(sum(it.taken for it in sheets), sum(it.pixels for it in sheets))


def _line(sheet: Sheet) -> str:
    """What there is to say of a page."""
    parts = [shown(sheet.size), _count(len(sheet.frames), "sprite", "sprites")]
    if len(sheet.stored) < len(sheet.frames):
        parts.append(f"{len(sheet.stored)} stored")
    return ", ".join([*parts, f"{_filled([sheet])} filled"])


def print_lines(sheets: Sequence[Sheet], animations: Sequence[Animation], files: Sequence[Path]) -> None:
    """Prints a line for each page and for each index, and for each animation that is left out."""
    pages = {sheet.image: _line(sheet) for sheet in sheets}
    for file in files:
        print(f"{file}: {pages[file.name]}" if file.name in pages else file)
    for it in animations:
        if len(it.pages) > 1:
            print(f"no animation {it.name!r}: its frames are on {len(it.pages)} pages, and PixiJS takes them from one")


def _sprite(frame: Frame, number: int) -> dict[str, Any]:
    sprite = frame.sprite
    return {
        "name": sprite.name, "file": str(sprite.path), "page": number,
        "x": frame.corner[0], "y": frame.corner[1], "width": frame.size[0], "height": frame.size[1],
        "rotated": frame.is_turned,
        "source": {"x": sprite.corner[0], "y": sprite.corner[1], "width": sprite.whole[0], "height": sprite.whole[1]},
        "stored_as": frame.stored_as.name,
    }


def _animation(it: Animation) -> dict[str, Any]:
    return {"name": it.name, "frames": list(it.frames), "page": it.pages[0] if len(it.pages) == 1 else None}


def print_sheets(sheets: Sequence[Sheet], animations: Sequence[Animation], files: Sequence[Path]) -> None:
    """Prints what was decided, for programs."""
    print_json({
        "pages": [{
            "image": sheet.image, "width": sheet.size[0], "height": sheet.size[1], "heuristic": sheet.heuristic,
            "stored": len(sheet.stored), "filled": 10_000 * sheet.taken // sheet.pixels / 10_000, "scale": sheet.scale.number,
        } for sheet in sheets],
        "sprites": [_sprite(frame, number) for number, sheet in enumerate(sheets) for frame in sheet.frames],
        "animations": [_animation(it) for it in animations],
        "files": [str(file) for file in files],
    })


def _items(sheet: Sheet, first: int) -> list[Item]:
    """What is stored on a page."""
    items = []
    for number, placed in enumerate(sheet.stored, first):
        sprite, *others = placed.stored.sprites
        notes = [str(sprite.path), *(["turned"] if placed.is_turned else [])]
        notes += [f"also: {', '.join(it.name for it in others)}"] if others else []
        items.append(Item(
            number, sprite.name, sheet.image, (*placed.corner, 0), (*placed.size, 1), sprite.folder, "; ".join(notes)))
    return items


def scene_of(title: str, sheets: Sequence[Sheet], images: Sequence[bytes]) -> Scene:
    """The pages with their pictures, and a step for each."""
    rooms = [
        Room(sheet.image, (*sheet.size, 1), "data:image/png;base64," + base64.b64encode(image).decode())
        for sheet, image in zip(sheets, images)]
    steps, first = [], 0
    for sheet in sheets:
        steps.append(Step(f"{sheet.image}: {_line(sheet)}", _items(sheet, first)))
        first += len(sheet.stored)
    facts = [
        ("sprites", str(sum(len(sheet.frames) for sheet in sheets))), ("pages", str(len(sheets))),
        ("pixels", str(sum(sheet.pixels for sheet in sheets))), ("filled", _filled(sheets)),
    ]
    return Scene(title, rooms, steps, unit="pixels", facts=facts)
