#!/usr/bin/env python3
"""Draws the sprites of a small game as PNG files: python3 bindings/python/examples/commands/sheet.py FOLDER

    python3 -m rectangle_pack sheet FOLDER --trim --alias --extrude 1"""
from __future__ import annotations

import math
import struct
import sys
import zlib
from collections.abc import Callable, Iterator
from pathlib import Path

Colour = tuple[int, int, int]

# How far a point is from the edge of a shape, in pixels: below 0 inside of it.
Shape = Callable[[float, float], float]

# What lies above covers what lies below, the last being on top.
Layers = list[tuple[Shape, Colour]]

RED, GOLD, DARK, GREEN, BLUE = (222, 72, 72), (244, 196, 66), (52, 48, 64), (96, 176, 84), (76, 140, 214)
SKIN, CLOTH, WHITE, GREY, BROWN = (240, 196, 160), (86, 98, 180), (250, 250, 250), (150, 152, 162), (142, 98, 66)


def disc(x: float, y: float, radius: float, narrow: float = 1) -> Shape:
    """A disc, or an ellipse that is as high and narrower."""
    return lambda px, py: (math.sqrt(((px - x) / narrow) ** 2 + (py - y) ** 2) - radius) * narrow


def block(left: float, top: float, width: float, height: float, round_by: float = 0) -> Shape:
    """A rectangle with round corners."""
    def distance(px: float, py: float) -> float:
        dx = abs(px - left - width / 2) - width / 2 + round_by
        dy = abs(py - top - height / 2) - height / 2 + round_by
        return math.sqrt(max(dx, 0) ** 2 + max(dy, 0) ** 2) + min(max(dx, dy), 0) - round_by

    return distance


def limb(x: float, y: float, to_x: float, to_y: float, radius: float) -> Shape:
    """A stroke with round ends."""
    across, down = to_x - x, to_y - y

    def distance(px: float, py: float) -> float:
        along = ((px - x) * across + (py - y) * down) / (across**2 + down**2)
        along = min(max(along, 0), 1)
        return math.sqrt((px - x - along * across) ** 2 + (py - y - along * down) ** 2) - radius

    return distance


def diamond(x: float, y: float, width: float, height: float) -> Shape:
    return lambda px, py: (abs(px - x) / width + abs(py - y) / height - 1) * min(width, height) / 1.5


def pixel(layers: Layers, x: int, y: int) -> bytes:
    """A pixel: its edges are soft, as alpha says how much of it is covered."""
    red = green = blue = alpha = 0.0
    for shape, colour in layers:
        cover = min(max(0.5 - shape(x + 0.5, y + 0.5), 0), 1)
        rest = alpha * (1 - cover)
        alpha = cover + rest
        if alpha:
            red, green, blue = ((new * cover + old * rest) / alpha for new, old in zip(colour, (red, green, blue)))
    return bytes(round(value) for value in (red, green, blue, alpha * 255))


def png(width: int, height: int, pixels: bytes) -> bytes:
    """A PNG file of pixels of four bytes each: red, green, blue and alpha."""
    def chunk(name: bytes, data: bytes) -> bytes:
        return struct.pack(">I", len(data)) + name + data + struct.pack(">I", zlib.crc32(name + data))

    rows = b"".join(b"\0" + pixels[4 * width * y:4 * width * (y + 1)] for y in range(height))
    head = struct.pack(">IIBBBBB", width, height, 8, 6, 0, 0, 0)
    return b"\x89PNG\r\n\x1a\n" + chunk(b"IHDR", head) + chunk(b"IDAT", zlib.compress(rows, 9)) + chunk(b"IEND", b"")


def hero(step: int, up: int = 0) -> Layers:
    """A hero with one leg so far ahead of the other."""
    return [
        (limb(24, 40 - up, 24 - step, 58 - up, 4), DARK), (limb(24, 40 - up, 24 + step, 58 - up, 4), DARK),
        (limb(24, 26 - up, 24 - step, 40 - up, 3), SKIN), (block(16, 22 - up, 16, 22, 6), CLOTH),
        (limb(24, 26 - up, 24 + step, 40 - up, 3), SKIN), (disc(24, 14 - up, 9), SKIN), (block(15, 4 - up, 18, 7, 3), RED),
        (disc(28, 14 - up, 1.5), DARK),
    ]


def tile(ground: Colour, spots: Colour) -> Layers:
    """A tile that is full, with a few spots."""
    layers: Layers = [(block(-1, -1, 34, 34), ground)]
    return layers + [(disc(5 + 9 * (spot % 3) + 2 * (spot % 2), 6 + 10 * (spot // 3), 2), spots) for spot in range(9)]


def cloud() -> Layers:
    return [(shape, (206, 222, 240)) for shape in (disc(34, 36, 16), disc(58, 28, 20), disc(82, 38, 14), block(20, 36, 76, 16, 8))]


def sprites() -> Iterator[tuple[str, int, int, Layers]]:
    """The name of each sprite, its size and its shapes."""
    # Of a walk that comes and goes some pictures are equal.
    for number, step in enumerate((0, 5, 8, 5, 0, -5, -8, -5)):
        yield f"hero/walk-{number}", 48, 64, hero(step)
    yield "hero/jump", 48, 64, hero(11, 3)
    for number, narrow in enumerate((1, 0.7, 0.25, 0.7)):
        yield f"items/coin-{number}", 32, 32, [(disc(16, 16, 12, narrow), GOLD), (disc(16, 16, 7, narrow), BROWN)]
    for name, colour in (("red", RED), ("green", GREEN), ("blue", BLUE)):
        yield f"items/gem-{name}", 32, 32, [(diamond(16, 16, 10, 14), colour), (diamond(13, 12, 3, 5), WHITE)]
    yield "items/key", 48, 24, [
        (disc(12, 12, 9), GOLD), (disc(12, 12, 4), DARK), (limb(20, 12, 42, 12, 2), GOLD), (block(36, 12, 4, 8), GOLD)]
    for name, ground, spots in (
        ("grass", GREEN, (72, 150, 66)), ("earth", BROWN, (112, 74, 48)), ("stone", GREY, (118, 120, 132)),
        ("water", BLUE, (110, 170, 230)), ("sand", (232, 212, 150), GOLD), ("lava", RED, GOLD),
    ):
        yield f"tiles/{name}", 32, 32, tile(ground, spots)
    for name, colour in (("button", BLUE), ("button-down", DARK)):
        yield f"ui/{name}", 96, 32, [(block(0, 0, 96, 32, 8), colour), (block(6, 5, 84, 6, 3), WHITE)]
    yield "ui/bar", 128, 16, [(block(0, 0, 128, 16, 8), DARK), (block(3, 3, 84, 10, 5), RED)]
    yield "ui/panel", 112, 72, [(block(0, 0, 112, 72, 10), BROWN), (block(5, 5, 102, 62, 7), (236, 220, 190))]
    yield "cloud", 120, 64, cloud()
    yield "sun", 96, 96, [(disc(48, 48, 40), GOLD), (disc(48, 48, 32), (255, 226, 120))]


def write(folder: Path) -> None:
    """Writes the files."""
    for name, width, height, layers in sprites():
        path = folder / f"{name}.png"
        path.parent.mkdir(parents=True, exist_ok=True)
        path.write_bytes(png(width, height, b"".join(pixel(layers, x, y) for y in range(height) for x in range(width))))


if __name__ == "__main__":
    if len(sys.argv) != 2:
        sys.exit("Which folder? python3 bindings/python/examples/commands/sheet.py FOLDER")
    write(Path(sys.argv[1]))
