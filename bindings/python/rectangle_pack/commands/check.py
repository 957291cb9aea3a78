"""check: judges atlases, cutting plans, loads and tables of boxes, whoever made them."""
from __future__ import annotations

import argparse
import dataclasses
import sys
from decimal import Decimal, InvalidOperation
from pathlib import Path
from typing import Any

from ._check.judge import first_fault
from ._check.layout import ONE, Told, Triple, why_not
from ._check.reading import read
from ._check.saying import fault_line, no_fault_line
from ._check.texts import printable
from ._common import DONE, WRONG_INPUT, Wrong

__all__ = ["add_to"]

DESCRIPTION = """\
Judges packings, whoever made them, by the proved library: whether each box is inside its page, no two
share a cell, and each is there once. Prints a line for each file: that nothing is wrong, or the first
fault, with names and numbers.

FILE is one of these:
  JSON     of TexturePacker, hash or array, also with related_multi_packs, whose files are read with it;
           of Phaser 3 (multiatlas); or what sheet, cut, load and view print with --json
  .atlas   of libGDX or Spine, in the older form and in the newer one
  .csv     a table. Its first line names the columns, which may stand in any order:
             name, x, y, width, height        of a box; whole or with decimals
             z, depth                         where there are three dimensions
             page or bin                      which one it is on; if left out, there is one
             bin_width, bin_height, bin_depth the size of that, once or in each line
             group                            boxes of one group are in one bin

In an atlas names that have one place are one box, and a sprite that is rotated takes its height
across. Panels and offcuts of cut are the blade's width apart. In a load customers are together or
apart as it says. Of a scene of view all that stands at one time is looked at.
"""

EPILOG = """\
example:
  python3 -m rectangle_pack check build/*.json --padding 2

prints
  build/atlas.json: nothing is wrong: 25 boxes on 1 page
  build/old.json: "hat" and "cap" share a cell of page "old.png": (0, 0) 10x20 and (5, 5) 4x4

exit status: 0 nothing is wrong, 1 there is a fault, 2 the words or a file are wrong, 3 out of memory, 130 interrupted
"""

# A fault that is told.
FAULT = 1


def _number(text: str) -> Decimal:
    try:
        number = Decimal(text)
    except InvalidOperation:
        number = Decimal("nan")
    why = why_not(number) if number.is_finite() else "must be a number"
    if why:
        raise argparse.ArgumentTypeError(f"{text!r} {why}")
    return number


def _size(text: str) -> Triple:
    sides = [_number(side) for side in text.lower().split("x")]
    if len(sides) not in (2, 3):
        raise argparse.ArgumentTypeError(f"{text!r} must be a width and a height, as 512x256, or with a depth")
    width, height, depth = (*sides, ONE)[:3]
    return width, height, depth


def add_to(commands: Any) -> None:
    """Adds the command to those that there are."""
    parser = commands.add_parser(
        "check", help="judge a packing, whoever made it", description=DESCRIPTION, epilog=EPILOG,
        formatter_class=argparse.RawDescriptionHelpFormatter)
    parser.add_argument("files", nargs="+", type=Path, metavar="FILE", help="an atlas, a plan, a load or a table")
    parser.add_argument("--size", type=_size, metavar="WxH",
                        help="the size of pages of which a file says none; WxHxD where they have a depth")
    parser.add_argument("--padding", type=_number, default=Decimal(0), metavar="N",
                        help="boxes are at least so far apart, to the right or below (0)")
    parser.set_defaults(run=_run)


def _line(told: Told, path: Path, padding: Decimal) -> tuple[int, str]:
    """The exit status of a file, and what is said of it."""
    for layout in told.layouts:
        found = first_fault(dataclasses.replace(layout, distance=max(layout.distance, padding)), path)
        if found is not None:
            return FAULT, fault_line(told.kind, found)
    return DONE, no_fault_line(told)


def _run(options: argparse.Namespace) -> int:
    """A line for each file. A file that cannot be read does not keep the others from being judged."""
    statuses = [DONE]
    for path in options.files:
        try:
            status, line = _line(read(path, options.size), path, options.padding)
            print(f"{printable(str(path))}: {line}")
        except Wrong as why:
            status = WRONG_INPUT
            print(why, file=sys.stderr)
        statuses.append(status)
    return max(statuses)
