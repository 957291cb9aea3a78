"""Packers of others, whose atlases the command check judges: stb_rect_pack, and MaxRects as this file has it."""
from __future__ import annotations

import shutil
import subprocess
from collections.abc import Sequence
from pathlib import Path
from typing import NamedTuple

__all__ = ["Size", "Sprite", "max_rects", "stb", "why_no_stb"]

# A width and a height.
Size = tuple[int, int]

HEADER = Path("/usr/include/stb/stb_rect_pack.h")

# Reads the sides of a page and of sprites, and prints for each sprite its page and its corner.
PROGRAM = """
#define STB_RECT_PACK_IMPLEMENTATION
#include <stb/stb_rect_pack.h>
#include <stdio.h>
#include <stdlib.h>

int main(void)
{
    int width, height, count = 0, left, page = 0;
    static stbrp_rect rects[10000], rest[10000];
    static stbrp_node nodes[10000];
    if (scanf("%d %d", &width, &height) != 2)
        return 1;
    for (int w, h; count < 10000 && scanf("%d %d", &w, &h) == 2; count++)
        rects[count] = (stbrp_rect){.id = count, .w = w, .h = h};
    for (left = count; left > 0; page++) {
        stbrp_context context;
        stbrp_init_target(&context, width, height, nodes, width);
        stbrp_pack_rects(&context, rects, left);
        int waiting = 0;
        for (int i = 0; i < left; i++)
            if (rects[i].was_packed)
                printf("%d %d %d %d\\n", rects[i].id, page, rects[i].x, rects[i].y);
            else
                rest[waiting++] = rects[i];
        if (waiting == left)
            return 2;
        left = waiting;
        for (int i = 0; i < left; i++)
            rects[i] = rest[i];
    }
    return 0;
}
"""


class Sprite(NamedTuple):
    """A sprite on a page. Its size is as it was before it was turned."""

    name: str
    page: int
    corner: Size
    size: Size
    is_turned: bool = False


def why_no_stb() -> str:
    """What stb_rect_pack needs and this machine lacks; else nothing."""
    if shutil.which("cc") is None:
        return "stb_rect_pack needs a C compiler"
    return "" if HEADER.is_file() else "stb_rect_pack is not there: Debian has it in libstb-dev"


def stb(folder: Path, page: Size, sizes: Sequence[Size]) -> list[Sprite]:
    """Sprites as stb_rect_pack places them, page after page, each given what those before it left."""
    source, program = folder / "pack.c", folder / "pack"
    source.write_text(PROGRAM)
    subprocess.run(["cc", "-std=c99", "-O1", str(source), "-o", str(program)], check=True)
    text = "\n".join(f"{width} {height}" for width, height in (page, *sizes))
    done = subprocess.run([str(program)], input=text, capture_output=True, text=True, check=True)
    rows = sorted(tuple(map(int, line.split())) for line in done.stdout.splitlines())
    return [Sprite(f"sprite-{number}", number_of_page, (x, y), sizes[number]) for number, number_of_page, x, y in rows]


class _Area(NamedTuple):
    """An area of a page that is free. It may overlap others."""

    x: int
    y: int
    width: int
    height: int

    def holds(self, other: _Area) -> bool:
        return self.x <= other.x and self.y <= other.y and (
            other.x + other.width <= self.x + self.width and other.y + other.height <= self.y + self.height)

    def without(self, taken: _Area) -> list[_Area]:
        """The largest areas in it beside one that is taken."""
        right, top, end, above = self.x + self.width, self.y + self.height, taken.x + taken.width, taken.y + taken.height
        if taken.x >= right or end <= self.x or taken.y >= top or above <= self.y:
            return [self]
        parts = [
            _Area(self.x, self.y, taken.x - self.x, self.height), _Area(end, self.y, right - end, self.height),
            _Area(self.x, self.y, self.width, taken.y - self.y), _Area(self.x, above, self.width, top - above)]
        return [part for part in parts if part.width > 0 and part.height > 0]


def _best_short_side(free: Sequence[_Area], size: Size) -> tuple[int, _Area, bool] | None:
    """The area that a sprite leaves least of on a side, and whether it is turned there."""
    width, height = size
    fits = [
        (min(area.width - wide, area.height - high), _Area(area.x, area.y, wide, high), is_turned)
        for area in free for wide, high, is_turned in ((width, height, False), (height, width, True))
        if wide <= area.width and high <= area.height]
    return min(fits, default=None)


def _place(pages: list[list[_Area]], page: Size, size: Size) -> tuple[int, _Area, bool]:
    """Places a sprite on the first page that has room, which may be a new one."""
    for number in range(len(pages) + 1):
        if number == len(pages):
            pages.append([_Area(0, 0, *page)])
        found = _best_short_side(pages[number], size)
        if found is not None:
            _, place, is_turned = found
            parts = {part for area in pages[number] for part in area.without(place)}
            pages[number] = [part for part in parts if not any(other != part and other.holds(part) for other in parts)]
            return number, place, is_turned
    raise AssertionError("a new page takes each sprite")


def max_rects(page: Size, sizes: Sequence[Size]) -> list[Sprite]:
    """Sprites as MaxRects places them by the best short side, the largest first. It turns them."""
    pages: list[list[_Area]] = []
    order = sorted(range(len(sizes)), key=lambda number: (-sizes[number][0] * sizes[number][1], number))
    sprites = []
    for number in order:
        on, place, is_turned = _place(pages, page, sizes[number])
        sprites.append(Sprite(f"sprite-{number}", on, (place.x, place.y), sizes[number], is_turned))
    return sprites
