"""view: one HTML page to look at what was packed."""
from __future__ import annotations

import argparse
import sys
from collections.abc import Sequence
from pathlib import Path

from ._common import DONE, Wrong, print_json, refuse_over, write
from ._scene import Scene
from ._view._drawings import read_drawings
from ._view._json import to_json
from ._view._page import page_of
from ._view._replay import replayed

__all__ = ["add_to", "write_page"]

DESCRIPTION = """\
Writes one HTML page to look at what was packed. It needs no network and nothing beside it: any browser opens it.

FILE has the commands of packrun, a line each:

    bin sheet 100 80 1
    rect hat 50 70 1 clothes
    rect shoe 40 20 1 clothes
    pack
    release 0

They are done once more, and the page goes through them one by one.

With --table, FILE has what one of the example programs prints: rows among lines for people.

    == TITLE                              begins a drawing of its own
    bin NAME W H D                        a bin
    N ID NAME X Y Z W H D [GROUP]         box ID, which is placement N in bin NAME
    free NAME X Y Z W H D                 a free section of a bin
    -- sheet 1                            begins the cutting plan of bin sheet-1, as the example panels prints it

Boxes come in the order of their numbers. A box outside of its bin, or two that share a cell, are refused."""

EPILOG = """\
example:

    python3 -m rectangle_pack view session.txt --page session.html

exit status: 0 done, also where a command is refused, 2 the words or a file are wrong, 3 out of memory, 130 interrupted"""


def add_to(commands: argparse._SubParsersAction[argparse.ArgumentParser]) -> None:
    """Adds the command to the others."""
    it = commands.add_parser(
        "view", help="write a page to look at what was packed", description=DESCRIPTION, epilog=EPILOG,
        formatter_class=argparse.RawDescriptionHelpFormatter)
    it.add_argument("file", metavar="FILE", type=Path, help="commands, or with --table a table; - is standard input")
    it.add_argument("--table", action="store_true", help="the file is a table")
    it.add_argument("--page", metavar="PAGE", type=Path, help="the page to write; if left out, FILE with .html, here")
    it.add_argument("--title", help="the title of the page; if left out, the name of FILE")
    it.add_argument("--unit", default="cells", help="what one cell is, as mm, or 0.1 mm where it is a tenth of one (cells)")
    it.add_argument("--json", action="store_true",
                    help="also print what the page shows, for programs, as JSON: page, and scenes with rooms, steps and cuts; "
                    "at of a box is [x, y, z, w, h, d]; a cut has its step, with lengths as they are written, and the part and "
                    "the sides of the blade as they are drawn")
    it.set_defaults(run=_run)


def write_page(scene: Scene, path: Path) -> None:
    """Writes the page that shows a scene."""
    write(path, page_of(scene.title, [scene]))


def _run(options: argparse.Namespace) -> int:
    is_stdin = str(options.file) == "-"
    page = options.page or _page_beside(options.file, is_stdin)
    refuse_over(page, None if is_stdin else options.file)
    title = options.title or ("standard input" if is_stdin else options.file.name)
    scenes = _scenes(_read(options.file, is_stdin), options, title)
    write(page, page_of(title, scenes))
    if options.json:
        print_json({"page": str(page), "scenes": [to_json(scene) for scene in scenes]})
    else:
        print(page)
    return DONE


def _page_beside(file: Path, is_stdin: bool) -> Path:
    if is_stdin:
        raise Wrong("name the page with --page: standard input has no name")
    page = Path(f"{file.stem}.html")
    if page.exists() and file.exists() and page.samefile(file):
        raise Wrong(f"name the page with --page: {page} is read")
    return page


def _read(file: Path, is_stdin: bool) -> bytes:
    try:
        return sys.stdin.buffer.read() if is_stdin else file.read_bytes()
    except OSError as why:
        raise Wrong(f"cannot be read: {why.strerror}", file) from None


def _scenes(data: bytes, options: argparse.Namespace, title: str) -> Sequence[Scene]:
    name = "standard input" if str(options.file) == "-" else options.file
    if options.table:
        return read_drawings(data, name, title, options.unit)
    return [replayed(data, name, title, options.unit)]
