"""PNG files of known pixels, for the tests of the command sheet."""
from __future__ import annotations

import random
import struct
import zlib
from collections.abc import Iterable
from dataclasses import dataclass

__all__ = ["CLEAR", "Picture", "drawn", "framed", "full", "noise", "png"]

CLEAR = (0, 0, 0, 0)


def png(width: int, height: int, depth: int, colour: int, rows: Iterable[bytes], **chunks: bytes) -> bytes:
    """A PNG file of rows as they stand in it, with other chunks before these."""
    def chunk(name: bytes, data: bytes) -> bytes:
        return struct.pack(">I", len(data)) + name + data + struct.pack(">I", zlib.crc32(name + data))

    return b"".join([
        b"\x89PNG\r\n\x1a\n", chunk(b"IHDR", struct.pack(">IIBBBBB", width, height, depth, colour, 0, 0, 0)),
        *(chunk(name.encode(), data) for name, data in chunks.items()),
        chunk(b"IDAT", zlib.compress(b"".join(b"\0" + row for row in rows), 1)), chunk(b"IEND", b""),
    ])


@dataclass(frozen=True)
class Picture:
    """Pixels of four bytes: red, green, blue, alpha."""

    width: int
    height: int
    data: bytes

    def at(self, x: int, y: int) -> tuple[int, ...]:
        start = 4 * (y * self.width + x)
        return tuple(self.data[start:start + 4])

    def row(self, y: int, left: int, right: int) -> bytes:
        return self.data[4 * (y * self.width + left):4 * (y * self.width + right)]

    def cut(self, x: int, y: int, width: int, height: int) -> bytes:
        return b"".join(self.row(row, x, x + width) for row in range(y, y + height))

    def turned(self, is_clockwise: bool) -> Picture:
        """The picture, turned by a quarter: clockwise the left column becomes the upper row, from right to left."""
        last_x, last_y = self.width - 1, self.height - 1
        places = (
            (y, last_y - x) if is_clockwise else (last_x - y, x) for y in range(self.width) for x in range(self.height))
        return Picture(self.height, self.width, b"".join(self.row(y, x, x + 1) for x, y in places))

    def as_png(self) -> bytes:
        return png(self.width, self.height, 8, 6, (self.row(y, 0, self.width) for y in range(self.height)))


def full(width: int, height: int, colour: tuple[int, int, int, int] = (9, 99, 199, 255)) -> Picture:
    """A picture of one colour."""
    return Picture(width, height, bytes(colour) * (width * height))


def noise(r: random.Random, width: int, height: int) -> Picture:
    """A picture of which each pixel is drawn and can be seen."""
    data = bytearray(r.getrandbits(8) for _ in range(4 * width * height))
    data[3::4] = bytes(1 + value % 255 for value in data[3::4])
    return Picture(width, height, bytes(data))


def framed(inner: Picture, left: int, top: int, right: int, bottom: int) -> Picture:
    """A picture with a border that cannot be seen."""
    width = left + inner.width + right
    rows = [bytes(4 * left) + inner.row(y, 0, inner.width) + bytes(4 * right) for y in range(inner.height)]
    empty = bytes(4 * width)
    return Picture(width, top + inner.height + bottom, empty * top + b"".join(rows) + empty * bottom)


def drawn(seed: int, count: int, least: int, most: int, folders: Iterable[str] = ("",)) -> dict[str, Picture]:
    """Pictures by their names, each in one of the folders, of which some have a border that cannot be seen."""
    r, places = random.Random(seed), [folder and f"{folder}/" for folder in folders]
    pictures = {}
    for number in range(count):
        picture = noise(r, r.randint(least, most), r.randint(least, most))
        if r.random() < 0.5:
            picture = framed(picture, *(r.randint(0, 4) for _ in range(4)))
        pictures[f"{r.choice(places)}{number}"] = picture
    return pictures
