"""The words of the command sheet."""
from __future__ import annotations

import argparse
import os
from collections.abc import Callable, Sequence
from dataclasses import dataclass
from pathlib import Path
from typing import get_args

from ... import AnyHeuristic, Heuristic
from .._common import Wrong
from .index import CLOCKWISE, FORMATS
from .numbered import Naming
from .rules import PageRules, Size, is_power_of_two, rounded_up
from .scales import AS_IT_IS, PageScale, grid_of, page_multiple, read_scales

__all__ = ["Options", "add_words", "options_of"]

DESCRIPTION = """\
Packs the PNG files of folders onto pages (texture atlases), and writes an index that says where each sprite is.

In: all *.png in the folders and in those below them. What begins with a dot is passed over, and links to folders are not
followed. A sprite is called by its path in the folder that is named, with / and without .png: hero/walk-1. Palettes, grey
and transparent colours are read, and become RGBA with 8 bits a channel; files with 16 bits are refused, and two of one name.
Colour profiles are left out; of an animated PNG the first picture is taken. Names are in the composed form of Unicode (NFC).

Out: NAME.png, or NAME-0.png, NAME-1.png .. where one page is not enough, and an index for each format:
  json-hash     NAME.json, or a file for each page: TexturePacker's JSON (hash), for PixiJS and Phaser 3
  phaser-multi  NAME.phaser.json, for multiatlas of Phaser 3
  libgdx        NAME.atlas, for TextureAtlas of libGDX in all versions: without bounds and offsets; filter is
                Nearest,Nearest
Where it refuses, nothing is written; where a file cannot be written, those written before it stay.

Names that end in numbers: walk-1, walk_02, walk3 and walk/4 are frames 1 to 4 of walk. In json-hash each such name becomes
an animation, in the order of the numbers. PixiJS takes the frames of an animation from one page; so one whose frames are on
several is left out, which is said. --group-by keeps folders on one page.

Scales: with --scale 1,0.5 all is packed once and written twice: NAME@1x.png and NAME@0.5x.png, and so with NAME-0@1x.png and
the indices. --size and margins are those at scale 1. Each number in the index at 0.5 is half of that at 1. So all have to be
multiples of 2 at 1, or of what the scales ask otherwise: a sprite whose sides are none is refused, --trim keeps a little more,
and padding, border and extrusion are rounded up. A pixel at 0.5 is the mean of four. The files of libgdx tell no scale.
"""

EPILOG = """\
example:
  python3 -m rectangle_pack sheet sprites --output build/atlas --trim --alias --extrude 1 --format json-hash,libgdx

exit status: 0 done, 1 a sprite or a group fits no page, 2 the words or a file are wrong, 3 out of memory, 130 interrupted
"""


@dataclass(frozen=True)
class Options:
    """What is asked."""

    folders: Sequence[Path]
    output: Path
    formats: Sequence[str]
    # Which way sprites are turned, where they may be.
    is_clockwise: bool
    rules: PageRules
    scales: Sequence[PageScale]
    naming: Naming
    heuristic: AnyHeuristic
    trim: bool
    alias: bool
    group_by: str
    with_png: bool
    as_json: bool
    page: Path | None


def _whole(least: int, most: int) -> Callable[[str], int]:
    """Reads a whole number."""
    def read(text: str) -> int:
        if not (text.isascii() and text.isdigit() and len(text) < 10 and least <= int(text) <= most):
            raise argparse.ArgumentTypeError(f"{text!r} is no whole number from {least} to {most}")
        return int(text)

    return read


# What graphics cards commonly load has at most so many pixels along a side.
_side = _whole(1, 16384)


def _page_size(text: str) -> Size:
    width, by, height = text.lower().partition("x")
    return _side(width), _side(height if by else width)


def _formats(text: str) -> list[str]:
    names = text.split(",")
    for name in names:
        if name not in FORMATS:
            raise argparse.ArgumentTypeError(f"{name!r} is none of: {', '.join(FORMATS)}")
    return names


def _output(text: str) -> Path:
    """The files' name with its folder. In a folder that is there they are called sheet."""
    path = Path(text)
    if path.suffix.lower() in (".png", ".json", ".atlas"):
        raise argparse.ArgumentTypeError(f"{text!r} has an ending, and each file gets its own: {str(path.with_suffix(''))!r}")
    return path / "sheet" if text.endswith(("/", os.sep)) or os.path.isdir(path) else path


def add_words(parser: argparse.ArgumentParser) -> None:
    """Has the parser know the words."""
    parser.formatter_class = argparse.RawDescriptionHelpFormatter
    parser.description, parser.epilog = DESCRIPTION, EPILOG
    add = parser.add_argument
    pixels = _whole(0, 256)
    add("folders", nargs="+", type=Path, metavar="FOLDER", help="folder of PNG files")
    add("-o", "--output", type=_output, default="sheet", metavar="NAME",
        help="name of the files, with their folder; in a folder that is there they are called sheet (sheet)")
    add("--format", type=_formats, action="extend", metavar="LIST",
        help="one or several of json-hash, phaser-multi and libgdx, with commas (json-hash)")
    add("--with-png", action="store_true", help="names of sprites keep the .png")
    add("--size", type=_page_size, default=(2048, 2048), metavar="WxH",
        help="greatest size of a page, at most 16384x16384; 256 is 256x256 (2048x2048)")
    add("--power-of-two", action="store_true", help="sides of pages are powers of two, none above --size")
    add("--square", action="store_true", help="pages are squares, as large at most as the smaller side of --size")
    add("--multiple-of", type=_side, default=1, metavar="N",
        help="sides of pages are multiples of N, at each scale: 4 for block compression; with --power-of-two N is one (1)")
    add("--scale", type=read_scales, metavar="LIST",
        help="scales at which pages and indices are written, as 1,0.5; each is at most 1")
    add("--padding", type=pixels, default=2, metavar="N", help="empty pixels between sprites (2)")
    add("--border", type=pixels, default=0, metavar="N", help="empty pixels along the edges of a page (0)")
    add("--extrude", type=pixels, default=0, metavar="N",
        help="repeat the outermost pixels of each sprite N times round it, so that filters do not mix in what is beside it; "
        "frames in the index are without them (0)")
    add("--turn", action="store_true",
        help="turn sprites by a quarter where pages get smaller by that, which the index says; for libgdx or for the others, "
        "but not for both; it takes longer")
    add("--trim", action="store_true", help="leave out transparent borders; of a sprite without a visible pixel one is kept")
    add("--alias", action="store_true",
        help="store sprites of equal pixels once, with --group-by once a group; colours hidden under alpha 0 have to be "
        "equal too")
    add("--group-by", choices=("folder", "top"), default="",
        help="keep sprites on one page that share their folder, or that share the top one of their folders; those in no "
        "folder are alone")
    add("--no-animations", action="store_true", help="no animations in the index of json-hash")
    add("--index", action="store_true",
        help="in libgdx the name of a sprite that ends in a number is without it, and index has the number, for "
        "findRegions; without this option each index is -1")
    add("--heuristic", choices=("best", *get_args(Heuristic)), default="best", metavar="NAME",
        help=f"what is packed first: {', '.join(get_args(Heuristic))}, or the best of all (best)")
    add("--page", type=Path, metavar="FILE", help="write an HTML page to look at")
    add("--json", action="store_true",
        help="print what was decided as JSON: pages at the first scale, whose filled is a part of 1; sprites, whose size is "
        "that on the page, where they may be rotated, and whose source is where the kept part was in the whole sprite, with the "
        "whole's size; animations, whose page is null where their frames "
        "are on several; files")


def _no_side(multiple: int, words: argparse.Namespace) -> Wrong:
    """Refuses words that leave no side for a page."""
    asked = ["--multiple-of"] if words.multiple_of > 1 else []
    asked += ["--scale"] if words.scale else []
    return Wrong(f"--size has the side {min(words.size)}, and by {' and '.join(asked)} a side is {multiple} at least")


def _rules(words: argparse.Namespace, scales: Sequence[PageScale]) -> PageRules:
    """The rules for pages at scale 1, by which they are right at each scale."""
    if words.power_of_two:
        if not is_power_of_two(words.multiple_of):
            raise Wrong(f"no power of two is a multiple of {words.multiple_of}: name another --multiple-of, or no --power-of-two")
        for it in scales:
            if it.part.numerator != 1 or not is_power_of_two(it.part.denominator):
                raise Wrong(
                    f"no power of two is one at scale {it.text} too: name another --scale, or no --power-of-two")
    grid, multiple = grid_of(scales), page_multiple(words.multiple_of, scales)
    if multiple > min(words.size):
        raise _no_side(multiple, words)
    padding, border, extrude = (rounded_up(it, grid) for it in (words.padding, words.border, words.extrude))
    return PageRules(
        words.size, words.power_of_two, padding, border, extrude, words.square, multiple, grid, words.turn)


def _is_clockwise(formats: Sequence[str], turn: bool) -> bool:
    """Which way sprites are turned, where they may be. Refuses formats that have it otherwise."""
    ways = {CLOCKWISE[it] for it in formats}
    if turn and len(ways) > 1:
        raise Wrong("--turn turns sprites counterclockwise for libgdx, and clockwise for the others: name either in --format")
    return ways == {True}


def options_of(words: argparse.Namespace) -> Options:
    scales = words.scale or [AS_IT_IS]
    rules = _rules(words, scales)
    formats = list(dict.fromkeys(words.format or ["json-hash"]))
    if words.index and "libgdx" not in formats:
        raise Wrong("--index is for libgdx: name it in --format")
    naming = Naming(not words.no_animations, words.index)
    return Options(
        words.folders, words.output, formats, _is_clockwise(formats, words.turn), rules, scales, naming, words.heuristic,
        words.trim, words.alias, words.group_by, words.with_png, words.json, words.page)
