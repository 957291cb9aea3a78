"""cut: a cutting list becomes plans for a panel saw."""
from __future__ import annotations

import argparse
import sys
from collections.abc import Sequence
from pathlib import Path
from typing import Any

from ._common import DONE, NO_ROOM, STOPPED, Wrong, print_json, refuse_over
from ._cut.alike import alike_of
from ._cut.files import earlier, files_of, write_all
from ._cut.job import Work
from ._cut.packing import Packed
from ._cut.pdf import cairo
from ._cut.read import Tables, read_work, sizes_of
from ._cut.result import Result, Results
from ._cut.scene import scene_of
from ._cut.search import FEWEST, TRIES, Limits, check_each_fits, search_all
from ._cut.text import sums_text
from ._cut.unit import UNITS
from ._cut.values import as_json
from ._cut.watch import Stop

__all__ = ["add_to", "run"]

DESCRIPTION = """\
Plans how panels are cut from sheets on a panel saw, where each cut goes straight through its whole part. Looks for the
cheapest sheets that take all panels; then for the fewest sheets, the least waste and the fewest cuts. It is a search by
trial: something better may exist. Where it is proved that no plan needs fewer sheets, it says so. Sizes are in mm and may have
decimals. They are exact, and so is the kerf.

tables (CSV; the first line names the columns, in any order; separated by comma, semicolon or tab):
  PANELS    name,count,width,height,grain     name, count (1) and grain (free) may be left out
              side,4,2000,600,keep            keep: its width lies along that of the sheet; free: may be turned
              shelf,10,564,380.5,free
  --stock   name,count,width,height,cost      name and count may be left out; without a count
              birch 18,,2440,1220,62.50       there are as many as are needed
  --offcuts name,count,width,height,cost      name, count (1) and cost (0) may be left out;
              birch 18 1-2,1,700,396.8,0      offcuts.csv of an earlier run is such a table

  count may be called qty, quantity, pieces or pcs; name: panel, sheet or offcut, part, label or description; cost: price.
  Where the sides are called length and width, the length lies along x. Other columns are passed over.

  All tables may have a column material, one thickness, or both. Then panels are cut from sheets of the same material and
  thickness alone, each has plans of its own, and the summary has each and their sum.

written to the folder, for sheets 1, 2 and so on; plans of materials to folders in it, as material-birch-18:
  sheet-1.txt   the cuts as numbered steps     plan.pdf     the drawings, a page of A4 a plan
  sheet-1.svg   the drawing, to scale          offcuts.csv  what a later run can take as --offcuts: also those not used
                                               buy.csv      the sheets to buy, and what they cost
With --partial left.csv has the panels that no sheet takes, in the columns of PANELS.
Sheets with the same panels are cut alike, and have one plan: sheet-1-to-3.txt. A new offcut is named by the job, the material
or else the name of its sheet, the number of the sheet, and its own: sideboard birch 18 1-2.
"""

EPILOG = """\
On a terminal a line says how far the search is; else there is one each half minute. Ctrl-C ends the search, and the best plan
so far is written.

example:
  python3 -m rectangle_pack cut panels.csv --stock sheets.csv --kerf 3.2 --trim 10 --keep 300x200 --out plan

exit status: 0 done, 1 not all panels fit, 2 the words or a file are wrong, 3 out of memory, 130 interrupted
"""


def add_to(commands: Any) -> None:
    """Adds the command to those of the program."""
    it = commands.add_parser(
        "cut", help="plans for a panel saw, of a cutting list", description=DESCRIPTION, epilog=EPILOG,
        formatter_class=argparse.RawDescriptionHelpFormatter)
    it.add_argument("panels", type=Path, metavar="PANELS", help="the cutting list")
    _add_given(it)
    _add_written(it)
    it.set_defaults(run=run)


def _add_given(it: argparse.ArgumentParser) -> None:
    """The options that say what is cut, and how."""
    it.add_argument("--stock", type=Path, metavar="FILE", help="the sheets that can be bought, with their cost")
    it.add_argument(
        "--offcuts", type=Path, metavar="FILE", action="append", default=[],
        help="offcuts that are there already; may be said again")
    it.add_argument("--job", metavar="NAME", help="the name of the job, in plans and in the names of offcuts (that of PANELS)")
    it.add_argument("--unit", choices=tuple(UNITS), default="mm",
                    help="in what lengths are read and written (mm). Inches may have fractions to 1/64, as 24 3/4, 24-3/4, "
                    "3/4 or 24.75, and are written so")
    it.add_argument("--kerf", metavar="LENGTH", required=True, help="the width that the blade takes; 0 where it takes none")
    it.add_argument("--trim", metavar="LENGTH", default="0",
                    help="what goes off each edge of a sheet first, with the kerf (0)")
    it.add_argument("--trim-offcuts", action="store_true", help="offcuts are trimmed too")
    it.add_argument("--keep", metavar="WxH",
                    help="the smallest offcut worth keeping, either way round (200x200, in inches 8x8)")
    it.add_argument("--tries", type=int, metavar="N",
                    help=f"how many packings of some sheets are tried ({TRIES}; at least {FEWEST}): "
                    "more take longer, and may cost less")
    it.add_argument("--seconds", type=float, metavar="S",
                    help="so long is searched, or until the tries are made where --tries is said too")
    it.add_argument("--partial", action="store_true",
                    help="where not all panels fit, those that do are planned, and left.csv has the others")


def _add_written(it: argparse.ArgumentParser) -> None:
    """The options that say what is written."""
    it.add_argument("--out", type=Path, metavar="FOLDER", required=True, help="where the plans go")
    it.add_argument("--replace", action="store_true",
                    help="the plans of an earlier run in the folder go; a folder with such plans is refused without it")
    it.add_argument("--no-pdf", action="store_true", help="without plan.pdf, which needs pycairo")
    it.add_argument("--json", action="store_true",
                    help="prints all that was decided as one JSON object: job, sums, materials (the sums of each, and how many "
                    "sheets are needed at least), used, offcuts_left, sheets (each with panels, offcuts and cuts; plan is the "
                    "number of the sheet whose plan it has), left (panels), files. Lengths are in the unit, areas in its "
                    "square; at of a cut is counted from its part's edge, off is what a trim takes off, blade (its near and far "
                    "side) and all else are counted from the left lower corner of the sheet; line counts the head of a table "
                    "as line 1")
    it.add_argument("--page", type=Path, metavar="FILE", help="writes an HTML page on which to step through the cuts")


def _check(options: argparse.Namespace) -> None:
    """Refuses what would be refused after the search."""
    if options.stock is None and not options.offcuts:
        raise Wrong("there is nothing to cut from: name --stock, --offcuts or both")
    if options.tries is not None and not 1 <= options.tries < 2**63:
        raise Wrong(f"--tries is {options.tries}, and must be from 1 to {2**63 - 1}")
    if options.seconds is not None and not 0 < options.seconds < 1e9:
        raise Wrong(f"--seconds is {options.seconds:g}, and must be more than 0, and less than a billion")
    if not options.no_pdf:
        cairo()
    if options.out.exists() and not options.out.is_dir():
        raise Wrong("is not a folder", options.out)
    if not options.replace:
        for path in earlier(options.out):
            raise Wrong("is there already, of an earlier run: --replace lets it go", path)


def _work(options: argparse.Namespace) -> Work:
    """What the tables say."""
    unit = UNITS[options.unit]
    sizes = sizes_of(unit, options.kerf, options.trim, options.keep, options.trim_offcuts)
    name = options.panels.stem if options.job is None else options.job
    work = read_work(name, Tables(options.panels, options.stock, options.offcuts), sizes)
    if work.note:
        print(work.note, file=sys.stderr)
    return work


def _search(work: Work, options: argparse.Namespace, stop: Stop) -> tuple[list[Packed], str]:
    """The sheets of all jobs; and where the user ended the search, a line that says so."""
    for job in () if options.partial else work.jobs:
        check_each_fits(job)
    found, stopped = search_all(work.jobs, Limits(options.tries, options.seconds, options.partial), stop)
    if stopped and not any(it.sheets for it in found):
        raise KeyboardInterrupt
    return found, stopped


def _write(work: Work, found: Sequence[Packed], options: argparse.Namespace) -> tuple[Results, list[Path]]:
    """Writes the plans of all sheets, and answers which files these are."""
    results = Results(work, [
        *(Result(job, alike_of(job, it.sheets), it.left, it.least) for job, it in zip(work.jobs, found)),
        *map(Result, work.idle)])
    files = files_of(results, not options.no_pdf)
    write_all(options.out, files)
    if options.page:
        from .view import write_page
        write_page(scene_of(results), options.page)
    return results, [options.out / name for name in files]


def run(options: argparse.Namespace) -> int:
    """Plans, draws and writes."""
    _check(options)
    refuse_over(options.page, options.panels, options.stock, *options.offcuts)
    work = _work(options)
    with Stop() as stop:
        found, stopped = _search(work, options, stop)
        results, files = _write(work, found, options)
    if options.json:
        print_json({**as_json(results), "files": [*map(str, files)]})
    else:
        print(sums_text(results))
        print(f"{len(files)} files written to {options.out}")
    if stop.is_pressed:
        print(stopped or "stopped when the search had ended: the plans are whole", file=sys.stderr)
        return STOPPED
    return NO_ROOM if results.left else DONE
