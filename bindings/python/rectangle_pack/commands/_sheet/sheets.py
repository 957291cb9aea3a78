"""Pages with the sprites on them, as the index has them."""
from __future__ import annotations

from collections.abc import Sequence
from dataclasses import dataclass, replace
from pathlib import Path

from ... import AnyHeuristic, Box
from .._common import NoRoom
from .pictures import resized
from .rules import PageRules, Size
from .scales import AS_IT_IS, PageScale
from .share import shared_out
from .shrink import Smallest, shrunk
from .sprites import Sprite, Stored

__all__ = ["Frame", "Placed", "Sheet", "at_scale", "sheets_of"]


def _on_page(size: Size, is_turned: bool) -> Size:
    """How a sprite of this size stands on its page."""
    return (size[1], size[0]) if is_turned else size


@dataclass(frozen=True)
class Frame:
    """A sprite on a page: where its first pixel is, whether it is turned by a quarter there, and the sprite that was stored for
    it, which is most often itself."""

    sprite: Sprite
    corner: Size
    is_turned: bool
    stored_as: Sprite

    @property
    def size(self) -> Size:
        """The size on the page."""
        return _on_page(self.sprite.size, self.is_turned)


@dataclass(frozen=True)
class Placed:
    """What is stored on a page: where its first pixel is, and whether it is turned by a quarter there."""

    stored: Stored
    corner: Size
    is_turned: bool

    @property
    def size(self) -> Size:
        """The size on the page."""
        return _on_page(self.stored.size, self.is_turned)


@dataclass(frozen=True)
class Sheet:
    """A page: the name of its file, its size, what it was packed by, None where that was searched for, what is stored on it, its
    sprites by their names, and the scale at which all this is."""

    image: str
    size: Size
    heuristic: str | None
    stored: Sequence[Placed]
    frames: Sequence[Frame]
    scale: PageScale = AS_IT_IS

    @property
    def pixels(self) -> int:
        return self.size[0] * self.size[1]

    @property
    def taken(self) -> int:
        """How many pixels its sprites have, without what is repeated round them."""
        return sum(it.size[0] * it.size[1] for it in self.stored)


def _image(name: str, number: int, count: int) -> str:
    return f"{name}.png" if count == 1 else f"{name}-{number}.png"


def _sheet(found: Smallest, stored: Sequence[Stored], rules: PageRules, image: str) -> Sheet:
    turned = found.page.turned
    placed = [
        Placed(stored[index], rules.pixel(corner), index in turned) for index, corner in sorted(found.page.corners.items())]
    frames = [
        Frame(sprite, it.corner, it.is_turned, it.stored.sprites[0]) for it in placed for sprite in it.stored.sprites]
    return Sheet(image, found.size, found.page.heuristic, placed, sorted(frames, key=lambda frame: frame.sprite.name))


def _use(pages: Sequence[Smallest]) -> tuple[int, int]:
    """How many pages, and how many pixels."""
    return len(pages), sum(it.size[0] * it.size[1] for it in pages)


def _smallest(boxes: Sequence[Box], rules: PageRules, heuristic: AnyHeuristic) -> list[Smallest]:
    """The fewest pages, and of these the smallest. Boxes that may be turned are also packed as they stand, where they fit so."""
    pages, bin = shrunk(shared_out(boxes, rules, heuristic), boxes, rules, heuristic), rules.bin(rules.most)
    if not rules.turn or any(it.width > bin.width or it.height > bin.height for it in boxes):
        return pages
    try:
        return min(pages, _smallest(boxes, replace(rules, turn=False), heuristic), key=_use)
    except NoRoom:
        return pages


def sheets_of(name: str, stored: Sequence[Stored], rules: PageRules, heuristic: AnyHeuristic) -> list[Sheet]:
    """The pages, whose files are called by this name."""
    boxes = [rules.box(it.size, it.group) for it in stored]
    pages = _smallest(boxes, rules, heuristic)
    return [_sheet(found, stored, rules, _image(name, number, len(pages))) for number, found in enumerate(pages)]


def _scaled(sprite: Sprite, scale: PageScale) -> Sprite:
    whole, corner, size = ((scale.of(x), scale.of(y)) for x, y in (sprite.whole, sprite.corner, sprite.size))
    return replace(sprite, whole=whole, corner=corner, size=size)


def at_scale(sheet: Sheet, scale: PageScale) -> Sheet:
    """A page that was packed at scale 1, at another scale: each of its lengths is this part of what it was."""
    def corner_of(corner: Size) -> Size:
        return scale.of(corner[0]), scale.of(corner[1])

    stored = []
    for it in sheet.stored:
        sprites = [_scaled(sprite, scale) for sprite in it.stored.sprites]
        small = replace(it.stored, picture=resized(it.stored.picture, sprites[0].size), sprites=sprites)
        stored.append(replace(it, stored=small, corner=corner_of(it.corner)))
    frames = [
        replace(it, sprite=_scaled(it.sprite, scale), corner=corner_of(it.corner), stored_as=_scaled(it.stored_as, scale))
        for it in sheet.frames]
    image = f"{Path(sheet.image).stem}{scale.suffix}.png"
    return Sheet(image, corner_of(sheet.size), sheet.heuristic, stored, frames, scale)
