#!/usr/bin/env python3
"""Writes two files of commands for the command view into a folder: python3 bindings/python/examples/commands/view.py FOLDER

pages.txt has sprites that come to a page and go from it, van.txt has crates of two customers in two vans."""
from __future__ import annotations

import sys
from pathlib import Path

PAGES = """\
bin page 96 64 1
rect map 48 40 1
rect hat 16 24 1 player
rect shoe 24 12 1 player
rect tree 24 40 1 forest
rect bush 24 20 1 forest
pack
rect banner 72 24 1
pack
release 1
release 2
sections page
pack
sweep page
pack
release 1
stats page
"""

VAN = """\
bin van 17 18 36
rect milk 8 9 12 dairy
rect butter 8 9 12 dairy
rect cheese 8 9 12 dairy
rect cream 8 8 10 dairy
rect varnish 8 8 10 paint
rect thinner 8 8 10 paint
rect brushes 16 6 10 paint
rect straps 6 4 4 dairy paint
exclude dairy paint
pack
bin van-2 17 18 36
pack
release 3
sections van
rect yoghurt 7 8 10 dairy
pack
stats van
"""


def write(folder: Path) -> None:
    """Writes the files. The folder is made where it is not there."""
    folder.mkdir(parents=True, exist_ok=True)
    for name, text in (("pages.txt", PAGES), ("van.txt", VAN)):
        (folder / name).write_text(text, encoding="ascii")


if __name__ == "__main__":
    if len(sys.argv) != 2:
        sys.exit("usage: view.py FOLDER")
    write(Path(sys.argv[1]))
