"""load: a packing list into containers or lorries."""
from __future__ import annotations

import argparse
import sys
from pathlib import Path
from typing import Any

from ._common import DONE, NO_ROOM, STOPPED, print_json, refuse_over, write
from ._folder import earlier_files, refuse_earlier
from ._load.checks import refuse_left, refuse_misfits, what_is_left
from ._load.left import left_table
from ._load.plans import OURS, write_plans
from ._load.printing import as_csv, as_json, as_text, scene_of
from ._load.reading import read_job
from ._load.report import Report, report_of
from ._load.search import Search

__all__ = ["add_to"]

DESCRIPTION = """\
Loads the crates of a packing list into containers or lorries: into the cheapest that it finds, or
into the fewest where no costs are given. It turns crates as the list allows, and says where each
one stands and in which order they are loaded.

CRATES is a table in CSV. Its first line names the columns, which may stand in any order:
  name                   of the crates of this line; lines may share one
  length, width, height  of one crate, as it stands on its bottom
  count                  how many there are; 1 where it is left out
  customer               whose they are; may be left out
  down                   which faces may be down: bottom (length x width), side (length x height),
                         end (width x height), or several of them with blanks between; any is all
                         three; upright, as where it is left out, is the bottom alone
  stackable              no where nothing may stand on it; else yes, as where it is left out
  weight                 of one crate; may be left out where no container has a payload
A crate may always be turned about on the floor, so that its length runs along the container or
across it.

CONTAINERS is a table too:
  name                   of containers of this kind; each line has its own
  length, width, height  inside: length from the end wall to the door
  count                  how many there are; 1 where it is left out
  cost                   of each, for all kinds or for none
  payload                what all crates in one may weigh; no limit where it is left out

All sizes are in one unit, and all weights and payloads in one, whole or with decimals. They are
kept to the last digit. Other columns are passed over, and one line on standard error names them.
"""

EPILOG = """\
example:
  crates.csv                                        containers.csv
    name,count,length,width,height,customer,down      name,count,length,width,height,cost
    pallet,14,120,80,110,Miller,upright               20 ft,3,589.8,235.2,239.3,900
    roll,20,150,35,35,Smith,bottom side               40 ft,2,1203.2,235.2,239.3,1500

  python3 -m rectangle_pack load crates.csv containers.csv --apart "Miller,Smith" --unit cm

Printed is for each container a line for each crate, in the order of loading: where its corner is
that is nearest to the end wall, the floor and the right wall (x from the right wall, as one looks
in at the door, y up from the floor, z from the end wall), its sides as it is turned along x, y and
z, the face that is down, and what it stands on: the floor, or crates, by their steps. Each crate
stands with its whole bottom on the floor or on equal crates side by side. In this order it goes
straight in from the door, at the height at which it stands: none is in its way, and it is pushed
below none. The last line says what is proved: that no plan needs fewer containers, or how many
are needed at least.

Ctrl-C ends the search, and the best plan so far is written.

exit status: 0 done, 1 not all crates fit, 2 the words or a file are wrong, 3 out of memory, 130 interrupted
"""


def _tries(text: str) -> int:
    if not (text.isascii() and text.isdigit() and 1 <= len(text) <= 9 and int(text)):
        raise argparse.ArgumentTypeError(f"{text!r} is no whole number from 1 to 999999999")
    return int(text)


def _seconds(text: str) -> float:
    try:
        seconds = float(text)
    except ValueError:
        seconds = 0.0
    if not 0 < seconds < 1e9:
        raise argparse.ArgumentTypeError(f"{text!r} is no number above 0 and below a billion")
    return seconds


def _printable(text: str) -> str:
    """The text without bytes that are none of UTF-8, which words and names of files may have."""
    return text.encode(errors="replace").decode()


def add_to(commands: Any) -> None:
    """Adds the command to those that there are."""
    parser = commands.add_parser(
        "load", help="load a packing list into containers or lorries", description=DESCRIPTION, epilog=EPILOG,
        formatter_class=argparse.RawDescriptionHelpFormatter)
    parser.add_argument("crates", type=Path, metavar="CRATES", help="the packing list")
    parser.add_argument("containers", type=Path, metavar="CONTAINERS", help="the containers that may be taken")
    parser.add_argument("--apart", action="append", default=[], metavar="A,B",
                        help="these two customers may not share a container; may be said again")
    parser.add_argument("--apart-list", type=Path, metavar="FILE",
                        help="a table with such pairs, in the columns customer and other")
    parser.add_argument("--together", action="store_true", help="all crates of a customer go into one container")
    parser.add_argument("--tries", type=_tries, metavar="N",
                        help="stack crates in N ways on trial; more may find a better load (80; fewer from 625 crates on, as 16 "
                        "for 3000)")
    parser.add_argument("--seconds", type=_seconds, metavar="S", help="search no longer than this")
    parser.add_argument("--partial", action="store_true",
                        help="where not all crates fit, load those that do, and write a table of the others; the exit status "
                        "is 1")
    _add_written(parser)
    parser.set_defaults(run=_run)


def _add_written(parser: argparse.ArgumentParser) -> None:
    """The options that say what is printed and written."""
    parser.add_argument("--unit", type=_printable, default="", metavar="UNIT", help="what sizes are in, as cm: it is only printed")
    parser.add_argument("--weight-unit", type=_printable, default="", metavar="UNIT",
                        help="what weights are in, as kg: it is only printed")
    parser.add_argument("--json", action="store_true",
                        help="print one JSON object for programs: unit, weight_unit, together, apart, cost, crates, least (how many "
                        "containers are needed at least; null where no plan takes all), proved (whether no plan needs fewer), left, "
                        "filled (in percent) and containers, each with steps; piece of a step is which crate of its line it is, "
                        "and line counts the head of the table as line 1")
    parser.add_argument("--csv", type=Path, metavar="FILE", help="write a line for each crate, in the order of loading")
    parser.add_argument("--plans", type=Path, metavar="FOLDER",
                        help="write a sheet of text to print for each container: container-1.txt and so on")
    parser.add_argument("--replace", action="store_true",
                        help="the plans of an earlier run in the folder go; a folder with such plans is refused without it")
    parser.add_argument("--left", type=Path, metavar="FILE",
                        help="where --partial writes what is left, in the columns of CRATES (left.csv, in the folder of --plans)")
    parser.add_argument("--page", type=Path, metavar="FILE", help="write an HTML page that shows the loading step by step")


def _left_path(options: argparse.Namespace) -> Path:
    """Where the table goes of what is left."""
    path: Path = options.left or (options.plans or Path()) / "left.csv"
    return path


def _check_files(options: argparse.Namespace) -> None:
    """Refuses what would be written over, before the search."""
    plans = [] if options.plans is None else earlier_files(options.plans, OURS)
    left = [_left_path(options)] if options.partial else []
    for path in (options.csv, options.page, *plans, *left):
        refuse_over(path, options.crates, options.containers, options.apart_list)
    if options.plans is not None:
        refuse_earlier(options.plans, OURS, options.replace)


def _write(report: Report, options: argparse.Namespace) -> None:
    if options.csv is not None:
        write(options.csv, as_csv(report))
    if options.plans is not None:
        write_plans(report, options.plans)
    if options.page is not None:
        from .view import write_page

        write_page(scene_of(report, f"Load of {_printable(options.crates.name)}"), options.page)
    if options.partial and any(report.left):
        counts = {kind.line: count for kind, count in zip(report.job.kinds, report.left) if count}
        write(_left_path(options), left_table(options.crates, counts))
    if options.json:
        print_json(as_json(report))
    else:
        print(as_text(report))


def _searched(search: Search) -> bool:
    """Makes the search. Whether the user ended it."""
    try:
        search.run()
        return False
    except KeyboardInterrupt:
        if not search.best.containers:
            raise
        return True


def _run(options: argparse.Namespace) -> int:
    _check_files(options)
    job = read_job(
        options.crates, options.containers, apart=options.apart, apart_list=options.apart_list,
        together=options.together, units=(options.unit, options.weight_unit))
    if not options.partial:
        refuse_misfits(job)
    search = Search(job, options.tries, options.seconds)
    stopped = _searched(search)
    load = search.short()
    if options.partial and not load.containers:
        refuse_misfits(job)
    if not options.partial or not load.containers:
        refuse_left(load)
    _write(report_of(load, search.least), options)
    left = what_is_left(load)
    if left:
        print(f"{left}; {_left_path(options)} lists them", file=sys.stderr)
    if stopped:
        print("stopped: the plan is the best so far", file=sys.stderr)
        return STOPPED
    return NO_ROOM if left else DONE
