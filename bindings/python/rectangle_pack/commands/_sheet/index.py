"""What says where each sprite is: the JSON of TexturePacker, as PixiJS and Phaser 3 load it, and the .atlas of libGDX."""
from __future__ import annotations

from collections.abc import Callable, Mapping, Sequence
from pathlib import Path
from typing import Any

from .._common import Wrong
from .._json import lines_of
from .numbered import Animation, Naming, animations_of, numbered
from .rules import Size
from .sheets import Frame, Sheet

__all__ = ["CLOCKWISE", "FORMATS", "refuse_name"]


def _size(size: Size) -> dict[str, int]:
    return {"w": size[0], "h": size[1]}


def _part(corner: Size, size: Size) -> dict[str, int]:
    return {"x": corner[0], "y": corner[1], **_size(size)}


def _frame(frame: Frame) -> dict[str, Any]:
    """Where a sprite is on its page, and where that stands in the whole sprite as it was before it was trimmed. Of one that is
    turned all sizes are as they were before."""
    sprite = frame.sprite
    return {
        "frame": _part(frame.corner, sprite.size),
        "rotated": frame.is_turned,
        "trimmed": sprite.is_trimmed,
        "spriteSourceSize": _part(sprite.corner, sprite.size),
        "sourceSize": _size(sprite.whole),
    }


def _animations(found: Sequence[Animation], page: int) -> dict[str, Any]:
    """The animations of a page. PixiJS looks for their frames on that page alone, so each is whole there, or left out."""
    whole = {it.name: list(it.frames) for it in found if it.pages == [page]}
    return {"animations": whole} if whole else {}


def _json_hash(name: str, sheets: Sequence[Sheet], naming: Naming) -> dict[str, str]:
    """A file for each page. Each names those of the other pages, which PixiJS loads with it."""
    files = [Path(sheet.image).stem + ".json" for sheet in sheets]
    found = animations_of(sheets) if naming.animations else []
    texts = {}
    for page, (file, sheet) in enumerate(zip(files, sheets)):
        meta: dict[str, object] = {
            "app": "rectangle_pack", "version": "1.0", "image": sheet.image, "format": "RGBA8888",
            "size": _size(sheet.size), "scale": sheet.scale.text,
        }
        others = [other for other in files if other != file]
        if others:
            meta["related_multi_packs"] = others
        frames = {it.sprite.name: _frame(it) for it in sheet.frames}
        texts[file] = lines_of({"frames": frames, **_animations(found, page), "meta": meta}, 2) + "\n"
    return texts


def _phaser_multi(name: str, sheets: Sequence[Sheet], naming: Naming) -> dict[str, str]:
    """One file for all pages."""
    textures = [{
        "image": sheet.image, "format": "RGBA8888", "size": _size(sheet.size),
        "scale": sheet.scale.number,
        "frames": [{"filename": it.sprite.name, **_frame(it)} for it in sheet.frames],
    } for sheet in sheets]
    index = {"textures": textures, "meta": {"app": "rectangle_pack", "version": "3.0"}}
    return {f"{name}.phaser.json": lines_of(index, 4) + "\n"}


def _region(frame: Frame, naming: Naming) -> list[str]:
    """A sprite in an .atlas. What was trimmed is counted from the lower edge there. Of one that is turned all sizes are as they
    were before."""
    sprite = frame.sprite
    name, index = (naming.indices and numbered(sprite.name)) or (sprite.name, -1)
    below = sprite.whole[1] - sprite.size[1] - sprite.corner[1]
    return [
        name,
        f"  rotate: {'true' if frame.is_turned else 'false'}",
        "  xy: {}, {}".format(*frame.corner),
        "  size: {}, {}".format(*sprite.size),
        "  orig: {}, {}".format(*sprite.whole),
        f"  offset: {sprite.corner[0]}, {below}",
        f"  index: {index}",
    ]


def _libgdx(name: str, sheets: Sequence[Sheet], naming: Naming) -> dict[str, str]:
    """One file for all pages, in the older form, which all versions of libGDX load."""
    pages = []
    for sheet in sheets:
        head = [sheet.image, "size: {},{}".format(*sheet.size), "format: RGBA8888", "filter: Nearest,Nearest", "repeat: none"]
        pages.append("".join(f"{line}\n" for line in [*head, *(line for it in sheet.frames for line in _region(it, naming))]))
    return {f"{name}.atlas": "\n".join(pages)}


# Each is given the name of all files, the pages, and what is made of names that end in numbers; and answers what files there
# are and what is in them.
FORMATS: Mapping[str, Callable[[str, Sequence[Sheet], Naming], dict[str, str]]] = {
    "json-hash": _json_hash, "phaser-multi": _phaser_multi, "libgdx": _libgdx,
}

# Whether what is turned on a page was turned clockwise, for the readers of each format. They turn it back.
CLOCKWISE: Mapping[str, bool] = {"json-hash": True, "phaser-multi": True, "libgdx": False}


def refuse_name(name: str, path: Path, formats: Sequence[str]) -> None:
    """Refuses a name that a format cannot have. libGDX takes a line with a colon for a value, and blanks round a name away."""
    if "libgdx" in formats and (":" in name or name != name.strip() or len(name.splitlines()) != 1):
        raise Wrong(f"libgdx cannot have the name {name!r}: it has a colon, a line break or blanks around it", path)
    if "phaser-multi" in formats and name == "__BASE":
        raise Wrong(f"phaser-multi cannot have the name {name!r}: Phaser calls the whole page so", path)
