#!/usr/bin/env python3
"""Compares what two packruns print, line for line, to sessions that are drawn (drawn_sessions.py).

At the first session on which the two differ, in a line or in the exit status, its lines are kept in a file, which is named, and the
exit status is 1."""
from __future__ import annotations

import argparse
import functools
import itertools
import multiprocessing
import os
import random
import subprocess
import sys
import tempfile

from drawn_sessions import drawn


def difference(old: str, new: str, seed: str, case: int) -> tuple[str, str] | None:
    """The lines of a session, and where the programs differ on it; nothing where they do not."""
    text = "".join(f"{line}\n" for line in drawn(random.Random(f"{seed}/{case}")))
    before, after = (subprocess.run([it], input=text, capture_output=True, text=True, check=False) for it in (old, new))
    if (before.stdout, before.returncode) == (after.stdout, after.returncode):
        return None
    lines = itertools.zip_longest([*before.stdout.splitlines(), before.returncode], [*after.stdout.splitlines(), after.returncode])
    return text, next(f"line {number}\n{one}\n{other}" for number, (one, other) in enumerate(lines, 1) if one != other)


def main() -> None:
    parser = argparse.ArgumentParser(description=__doc__, formatter_class=argparse.RawDescriptionHelpFormatter)
    parser.add_argument("old", metavar="OLD", help="a packrun")
    parser.add_argument("new", metavar="NEW", help="another packrun")
    parser.add_argument("count", metavar="COUNT", type=int, help="how many sessions are drawn")
    parser.add_argument("seed", metavar="SEED", nargs="?", default="1", help="what they are drawn from (1)")
    parser.add_argument("--jobs", type=int, default=os.cpu_count(), help="how many are run at once")
    given = parser.parse_args()
    one = functools.partial(difference, given.old, given.new, given.seed)
    with multiprocessing.Pool(given.jobs) as pool:
        for case, found in enumerate(pool.imap(one, range(given.count))):
            if found:
                with tempfile.NamedTemporaryFile("w", prefix="same-answers-", suffix=".txt", delete=False) as kept:
                    kept.write(found[0])
                sys.exit(f"session {case}, kept in {kept.name}, differs in {found[1]}")
    print(f"{given.count} sessions, answered alike")


if __name__ == "__main__":
    main()
