"""Reads, trims and draws pictures, with Pillow. All have the mode RGBA, with 8 bits a channel."""
from __future__ import annotations

import hashlib
import io
import warnings
from collections.abc import Iterable
from pathlib import Path
from typing import Any

from .._common import Wrong, needs
from .rules import Size

__all__ = ["check_pillow", "digest", "drawn_page", "kept_part", "read_picture", "resized", "turned"]

# Of Pillow, which has no types.
Picture = Any

_SIGNATURE = b"\x89PNG\r\n\x1a\n"
_GREY = 0


def check_pillow() -> None:
    """Refuses the command where Pillow is missing."""
    _pillow()


def _pillow() -> Any:
    return needs("PIL.Image", "Pillow", "sheet")


def _depth_and_colour(path: Path) -> tuple[int, int]:
    """How many bits a channel has, and the type of colour: both stand in the head of the file."""
    try:
        with open(path, "rb") as file:
            head = file.read(26)
    except OSError as why:
        raise Wrong(f"cannot be read: {why.strerror}", path) from None
    if len(head) < 26 or not head.startswith(_SIGNATURE) or head[12:16] != b"IHDR":
        raise Wrong("is no PNG file", path)
    return head[24], head[25]


def read_picture(path: Path) -> Picture:
    """The picture in a PNG file. Of an animated one it is the first."""
    depth, colour = _depth_and_colour(path)
    if depth == 16:
        raise Wrong("has 16 bits a channel; save it with 8", path)
    try:
        with warnings.catch_warnings():
            # Pillow warns of large pictures.
            warnings.simplefilter("ignore")
            return _decoded(path, depth, colour)
    except MemoryError:
        raise
    # A damaged file raises nearly anything: OSError, SyntaxError, ValueError, struct.error ..
    except Exception as why:
        raise Wrong(f"cannot be read: {' '.join(str(why).split())}", path) from None


def _decoded(path: Path, depth: int, colour: int) -> Picture:
    with _pillow().open(path, formats=["PNG"]) as image:
        image.load()
        if colour == _GREY and depth < 8:
            _scale_transparent_grey(image, depth)
        return image.convert("RGBA")


def _scale_transparent_grey(image: Picture, depth: int) -> None:
    """The grey that is transparent is counted in so many bits, and pixels in 8: Pillow has scaled the pixels alone."""
    grey, most = image.info.get("transparency"), 2**depth - 1
    if isinstance(grey, int) and grey <= most:
        image.info["transparency"] = grey * 255 // most


def kept_part(picture: Picture) -> tuple[int, int, int, int]:
    """What is left where transparent borders are trimmed: left, top, right and bottom. Of a picture without any pixel that can
    be seen it is the first pixel."""
    box: tuple[int, int, int, int] | None = picture.getchannel("A").getbbox()
    return box or (0, 0, 1, 1)


def resized(picture: Picture, size: Size) -> Picture:
    """The picture in a smaller size. Each pixel is the mean of those in its place, in which what is clear has no colour."""
    if picture.size == size:
        return picture
    by = picture.width // size[0]
    # Of whole squares the mean is rounded once.
    return picture.reduce(by) if picture.size == (by * size[0], by * size[1]) else picture.resize(size, _pillow().BOX)


def turned(picture: Picture, is_clockwise: bool) -> Picture:
    """The picture, turned by a quarter."""
    pillow = _pillow()
    # Pillow counts degrees counterclockwise.
    return picture.transpose(pillow.ROTATE_270 if is_clockwise else pillow.ROTATE_90)


def digest(picture: Picture) -> bytes:
    """Equal for pictures of equal size and equal pixels."""
    return hashlib.sha256(repr(picture.size).encode() + picture.tobytes()).digest()


def _extruded(picture: Picture, count: int) -> Picture:
    """The picture with its outermost pixels repeated so often round it."""
    pillow = _pillow()
    width, height = picture.size
    whole = pillow.new("RGBA", (width + 2 * count, height + 2 * count))
    whole.paste(picture, (count, count))
    for x, to in ((0, 0), (width - 1, count + width)):
        column = picture.crop((x, 0, x + 1, height)).resize((count, height), pillow.NEAREST)
        whole.paste(column, (to, count))
    # The rows have their ends by now, and so the corners are filled.
    for y, to in ((count, 0), (count + height - 1, count + height)):
        row = whole.crop((0, y, width + 2 * count, y + 1)).resize((width + 2 * count, count), pillow.NEAREST)
        whole.paste(row, (0, to))
    return whole


def drawn_page(size: Size, pictures: Iterable[tuple[Picture, Size]], extrude: int) -> bytes:
    """The PNG file of a page: each picture with its first pixel there, and with its outermost pixels repeated round it."""
    page = _pillow().new("RGBA", size)
    for picture, (x, y) in pictures:
        page.paste(_extruded(picture, extrude) if extrude else picture, (x - extrude, y - extrude))
    file = io.BytesIO()
    page.save(file, "PNG")
    return file.getvalue()
