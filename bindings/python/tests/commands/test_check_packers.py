"""The command check on atlases that packers of others make, in each format: as they are, and with one number changed."""
from __future__ import annotations

import random
import unittest
from collections import Counter
from collections.abc import Sequence
from pathlib import Path

from .check_cases import CheckCase, frame
from .packers import Size, Sprite, max_rects, stb, why_no_stb

PAGE = (256, 256)
SPRITES = 300
CHANGES = 15


def taken(it: Sprite) -> Size:
    """What a sprite takes of its page."""
    return it.size[::-1] if it.is_turned else it.size


def image(page: int) -> str:
    return f"atlas-{page}.png"


def told(it: Sprite) -> str:
    return "({}, {}) {}x{}".format(*it.corner, *taken(it))


def do_share(one: Sprite, other: Sprite) -> bool:
    """Whether two sprites share a cell: the corner of their common part is below its end, along both axes."""
    sides = zip(one.corner, taken(one), other.corner, taken(other))
    return one.page == other.page and all(max(at, there) < min(at + side, there + size) for at, side, there, size in sides)


def fault_of(sprites: Sequence[Sprite]) -> str:
    """What is wrong with the first sprite that is outside or shares a cell with one before it; else nothing."""
    for number, it in enumerate(sprites):
        if any(at + side > most for at, side, most in zip(it.corner, taken(it), PAGE)):
            return f'"{it.name}" is not inside page "{image(it.page)}" of 256x256: {told(it)}'
        for other in sprites[:number]:
            if do_share(other, it):
                return f'"{other.name}" and "{it.name}" share a cell of page "{image(it.page)}": {told(other)} and {told(it)}'
    return ""


def changed(r: random.Random, sprites: Sequence[Sprite]) -> list[Sprite]:
    """The sprites, with one number of one of them changed."""
    place, axis, new = r.randrange(len(sprites)), r.randrange(2), r.randint(0, 255)
    it = sprites[place]
    corner, size = list(it.corner), list(it.size)
    part = r.choice((corner, size))
    part[axis] = new if new != part[axis] else new + 1
    other = it._replace(corner=(corner[0], corner[1]), size=(size[0], size[1]))
    return [*sprites[:place], other, *sprites[place + 1:]]


class PackerCase(CheckCase):
    def texture_packer(self, sprites: Sequence[Sprite]) -> Path:
        """A file for each page. They name each other."""
        files = [f"atlas-{page}.json" for page in range(sprites[-1].page + 1)]
        for page, file in enumerate(files):
            frames = {
                it.name: frame(*it.corner, *it.size, rotated=it.is_turned) for it in sprites if it.page == page}
            self.file(file, {"frames": frames, "meta": {
                "image": image(page), "size": {"w": PAGE[0], "h": PAGE[1]},
                "related_multi_packs": [other for other in files if other != file]}})
        return self.folder / files[0]

    def libgdx(self, sprites: Sequence[Sprite]) -> Path:
        lines = []
        for page in range(sprites[-1].page + 1):
            lines += [image(page), "size:{},{}".format(*PAGE)]
            for it in sprites:
                if it.page == page:
                    lines += [it.name, "bounds:{},{},{},{}".format(*it.corner, *it.size), *["rotate:90"] * it.is_turned]
            lines.append("")
        return self.file("atlas.atlas", "\n".join(lines))

    def table(self, sprites: Sequence[Sprite]) -> Path:
        rows = ["{},{},{},{},{},{}".format(it.name, image(it.page), *it.corner, *taken(it)) for it in sprites]
        return self.file("atlas.csv", "\n".join(["name,page,x,y,width,height", *rows, ""]))

    def judge(self, sprites: list[Sprite]) -> None:
        """An atlas of several pages, in each format."""
        self.assertEqual(len(sprites), SPRITES)
        sprites.sort(key=lambda it: it.page)
        pages, r, faults = sprites[-1].page + 1, random.Random(3), Counter[str]()
        self.assertGreater(pages, 1)
        self.assertEqual(fault_of(sprites), "")
        formats = (self.texture_packer, self.libgdx, self.table)
        for format in formats:
            self.assert_sound(format(sprites), f"{SPRITES} boxes on {pages} pages", "--size", "256x256")
        while faults["share"] + faults["outside"] < CHANGES:
            others = changed(r, sprites)
            text = fault_of(others)
            for format in formats if text else ():
                self.assert_fault(format(others), text, "--size", "256x256")
            faults["share" if "share" in text else "outside" if text else "none"] += 1
        self.assertGreater(min(faults["share"], faults["outside"]), 1)


class Packers(PackerCase):
    def sizes(self) -> list[Size]:
        r = random.Random(2)
        return [(r.randint(4, 48), r.randint(4, 48)) for _ in range(SPRITES)]

    def test_max_rects(self) -> None:
        sprites = max_rects(PAGE, self.sizes())
        self.assertGreater(sum(it.is_turned for it in sprites), SPRITES // 5)
        self.judge(sprites)

    @unittest.skipIf(why_no_stb(), why_no_stb())
    def test_stb_rect_pack(self) -> None:
        self.judge(stb(self.folder, PAGE, self.sizes()))


if __name__ == "__main__":
    unittest.main()
