"""pack: packs a job in JSON, for programs in any language."""
from __future__ import annotations

import argparse
import importlib.resources
import sys
import time
from decimal import Decimal, InvalidOperation
from pathlib import Path
from typing import Any

from .. import Asked
from ._check.texts import read_text
from ._common import DONE, NoRoom, Wrong, refuse_over, write
from ._json import json_of
from ._pack.answer import answer_text
from ._pack.job import MOST_BOXES, job_of
from ._pack.packing import Packed, packed
from ._pack.scene import scene_of

__all__ = ["add_to"]

DESCRIPTION = f"""\
Packs boxes into bins as a job in JSON says, by the proved library, and answers in JSON. So a program in any
language can pack: it writes the job to standard input, and reads the answer from standard output.

JOB is one object. All numbers are whole. These may be left out, but bins and boxes:
  bins       a list of objects with width and height, from 1 to 4294967295, and perhaps
               depth    1 where it is left out, as in two dimensions
               name     a text
               count    how many there are (1); null is as many as are needed
               cost     what it costs to use one (1)
  boxes      a list of objects with width and height, and perhaps
               depth, name, count
               groups   names of groups, each of which goes into one bin; a box in several is placed for each
               turn     which sides may change places: none, flat (width and height), upright (width and
                        depth) or any; as turn of the job says where it is left out
  exclude    pairs of groups that may not share a bin: [["food", "paint"]]
  groups     names of groups that exclude may name, though no box has them
  heuristic  what boxes, bins and pieces of a bin are rated by, or best, which tries all (best)
  tries      how often a better packing is searched for (0; 1000 where boxes may be turned)
  seed       another one searches otherwise (0)
  turn       how boxes may be turned that do not say it (none)
  partial    true: what fits is packed, and the rest is left (false)
  cuts       true: the answer has a cutting plan for each bin (false)
At most {MOST_BOXES} boxes are packed, with their counts.

The answer has placements: where each box stands. box and bin are indices in the lists of the job, piece and
copy say which of equal ones it is, from 0 on. used bins have a box, and cost so much together. No packer that
places all boxes needs fewer than least bins; it is null where none can. optimal says that nothing is left
and used is least. --schema has the rest.
"""

EPILOG = """\
example:
  echo '{"bins": [{"width": 10, "height": 10, "count": null}], "boxes": [{"width": 6, "height": 4, "count": 5}],
    "turn": "flat"}' | python3 -m rectangle_pack pack -

exit status: 0 done, 1 not all boxes fit (by partial the answer is written all the same), 2 the words or the job are
wrong, 3 out of memory, 130 interrupted
"""

SCHEMAS = ("job", "answer")


def _seconds(text: str) -> float:
    try:
        number = Decimal(text)
    except InvalidOperation:
        number = Decimal("nan")
    if not (number.is_finite() and 0 < number <= 10**9):
        raise argparse.ArgumentTypeError(f"{text!r} is no number of seconds above 0")
    return float(number)


def add_to(commands: Any) -> None:
    """Adds the command to those that there are."""
    parser = commands.add_parser(
        "pack", help="pack a job in JSON, for programs in any language", description=DESCRIPTION, epilog=EPILOG,
        formatter_class=argparse.RawDescriptionHelpFormatter)
    parser.add_argument("job", nargs="?", metavar="JOB", help="the file of the job; - is standard input")
    parser.add_argument("--out", type=Path, metavar="FILE", help="write the answer to this file, not to standard output")
    parser.add_argument("--seconds", type=_seconds, metavar="N",
                        help="end the search after so many seconds, with the best that was found; the answer is no longer the "
                        "same on each machine")
    parser.add_argument("--page", type=Path, metavar="FILE", help="write an HTML page to look at")
    parser.add_argument("--schema", choices=SCHEMAS, help="print the JSON Schema (draft 2020-12) of a job or of an answer")
    parser.set_defaults(run=_run)


def _schema(name: str) -> str:
    return importlib.resources.files(f"{__package__}._pack").joinpath(f"{name}.schema.json").read_text(encoding="utf-8")


def _read(job: str) -> tuple[str, str]:
    """How the job is called, and its text."""
    if job != "-":
        return job, read_text(Path(job))
    try:
        return "standard input", sys.stdin.buffer.read().decode("utf-8-sig")
    except UnicodeDecodeError:
        raise Wrong("is no text in UTF-8", "standard input") from None


def _until(seconds: float | None) -> Asked | None:
    """Whether a search goes on."""
    if seconds is None:
        return None
    end = time.monotonic() + seconds
    return lambda _: time.monotonic() < end


def _refuse_left(done: Packed) -> None:
    """Says that boxes are left, where some are."""
    left = len({it.name for it in done.packing.left})
    if left:
        raise NoRoom(f"{done.job.file}: {left} of {len(done.pieces)} boxes {'is' if left == 1 else 'are'} left")


def _run(options: argparse.Namespace) -> int:
    if options.schema is not None:
        print(_schema(options.schema), end="")
        return DONE
    if options.job is None:
        raise Wrong("name a job, or - for standard input")
    if options.job != "-":
        for path in (options.out, options.page):
            refuse_over(path, Path(options.job))
    name, text = _read(options.job)
    done = packed(job_of(name, json_of(name, text)), _until(options.seconds))
    _write(options, done, answer_text(done))
    _refuse_left(done)
    return DONE


def _write(options: argparse.Namespace, done: Packed, answer: str) -> None:
    """Writes the page, where one is asked for, and the answer."""
    if options.page is not None:
        from .view import write_page

        write_page(scene_of(done, done.job.file), options.page)
    if options.out is None:
        print(answer, end="", flush=True)
    else:
        write(options.out, answer)
