"""sheet: sprite sheets of folders of PNG files, with an index for PixiJS, Phaser 3 or libGDX."""
from __future__ import annotations

import argparse
from collections.abc import Sequence
from dataclasses import dataclass
from pathlib import Path
from typing import Any

from ._common import DONE, progress, refuse_over, write
from ._sheet.files import find, refuse_output_in
from ._sheet.index import FORMATS, refuse_name
from ._sheet.numbered import Animation, animations_of, refuse_equal_indices
from ._sheet.options import Options, add_words, options_of
from ._sheet.pictures import check_pillow, drawn_page, turned
from ._sheet.report import print_lines, print_sheets, scene_of
from ._sheet.sheets import Placed, Sheet, at_scale, sheets_of
from ._sheet.sprites import Stored, read_sprites

__all__ = ["add_to"]


def add_to(commands: argparse._SubParsersAction[argparse.ArgumentParser]) -> None:
    """Adds the command."""
    parser = commands.add_parser("sheet", help="sprite sheets of folders of PNG files")
    add_words(parser)
    parser.set_defaults(run=run)


def run(words: argparse.Namespace) -> int:
    """Runs the command. Nothing is written before all pages are drawn."""
    options = options_of(words)
    check_pillow()
    packed = sheets_of(options.output.name, _read(options), options.rules, options.heuristic)
    scaled = [_Scaled(f"{options.output.name}{scale.suffix}", [at_scale(sheet, scale) for sheet in packed])
              for scale in options.scales]
    images = _drawn(options, [sheet for it in scaled for sheet in it.sheets])
    files = _write(options, scaled, images)
    animations = _animations(options, packed)
    if options.as_json:
        print_sheets(scaled[0].sheets, animations, files)
    else:
        print_lines([sheet for it in scaled for sheet in it.sheets], animations, files)
    return DONE


@dataclass(frozen=True)
class _Scaled:
    """The pages at a scale, and the name of their files."""

    name: str
    sheets: Sequence[Sheet]


def _read(options: Options) -> list[Stored]:
    """The sprites, each of which a page takes."""
    refuse_output_in(options.folders, options.output)
    sources = find(options.folders, options.with_png)
    refuse_over(options.page, *(source.path for source in sources))
    refuse_name(options.output.name, options.output, options.formats)
    for source in sources:
        refuse_name(source.name, source.path, options.formats)
    if options.naming.indices:
        refuse_equal_indices(sources)
    return read_sprites(sources, options.rules, options.trim, options.alias, options.group_by)


def _drawn(options: Options, sheets: Sequence[Sheet]) -> list[bytes]:
    """The PNG file of each page."""
    def picture_of(it: Placed) -> Any:
        return turned(it.stored.picture, options.is_clockwise) if it.is_turned else it.stored.picture

    return [
        drawn_page(
            sheet.size, [(picture_of(it), it.corner) for it in sheet.stored], sheet.scale.of(options.rules.extrude))
        for sheet in progress(sheets, len(sheets), "drawing")]


def _animations(options: Options, sheets: Sequence[Sheet]) -> list[Animation]:
    """The animations of the index for PixiJS, where it is asked for."""
    return animations_of(sheets) if options.naming.animations and "json-hash" in options.formats else []


def _write(options: Options, scaled: Sequence[_Scaled], images: Sequence[bytes]) -> list[Path]:
    """Writes the pages, then each index, and then the page to look at, which has the first scale. Which files these are."""
    folder, sheets = options.output.parent, [sheet for it in scaled for sheet in it.sheets]
    contents: dict[Path, bytes | str] = {folder / sheet.image: image for sheet, image in zip(sheets, images)}
    for format in options.formats:
        for it in scaled:
            texts = FORMATS[format](it.name, it.sheets, options.naming)
            contents.update((folder / file, text) for file, text in texts.items())
    for path, content in contents.items():
        write(path, content)
    if options.page is not None:
        from .view import write_page

        write_page(scene_of(options.output.name, scaled[0].sheets, images), options.page)
        return [*contents, options.page]
    return list(contents)
