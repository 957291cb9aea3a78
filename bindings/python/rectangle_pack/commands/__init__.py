"""Commands over the module: a sprite sheet, a cutting list, a loaded container, a page to look at each of them, a judge of
packings, and packings for programs in any language.

    python3 -m rectangle_pack sheet|cut|load|view|check|pack --help"""
from __future__ import annotations

import argparse
import os
import sys
from collections.abc import Sequence

from .. import OutOfMemory
from . import check, cut, load, pack, sheet, view
from ._common import DONE, STOPPED, WRONG_INPUT, NoRoom, Wrong

__all__ = ["main"]

EPILOG = (
    "exit status: 0 done, 1 it does not fit, or check names a fault, 2 the words or a file are wrong, 3 out of memory, "
    "130 interrupted")


def parser() -> argparse.ArgumentParser:
    whole = argparse.ArgumentParser(
        prog="python3 -m rectangle_pack", epilog=EPILOG,
        description="Packs sprites onto pages, panels onto sheets, crates into containers, and what a job in JSON says, and "
        "judges packings of anyone, by the proved library.",
    )
    commands = whole.add_subparsers(title="commands", metavar="COMMAND", required=True)
    for module in (sheet, cut, load, view, check, pack):
        module.add_to(commands)
    return whole


def main(words: Sequence[str] | None = None) -> int:
    """Runs the command that the words name. Its exit status."""
    options = parser().parse_args(words)
    try:
        status: int = options.run(options)
        sys.stdout.flush()
    except NoRoom as why:
        print(why, file=sys.stderr)
        return why.status
    except (Wrong, ImportError) as why:
        print(why, file=sys.stderr)
        return WRONG_INPUT
    except (OutOfMemory, MemoryError):
        print("out of memory", file=sys.stderr)
        return 3
    except BrokenPipeError:
        # Who reads has gone: nothing is left to say, also at the end of the process.
        os.dup2(os.open(os.devnull, os.O_WRONLY), sys.stdout.fileno())
        return DONE
    except KeyboardInterrupt:
        return STOPPED
    return status
