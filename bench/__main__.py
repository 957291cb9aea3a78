"""Prints the tables of docs/PERFORMANCE.md: python3 bench makes all, python3 bench TABLE.. these, and more. README.md says which there
are."""
from __future__ import annotations

import datetime
import subprocess
import sys

import atlas
import bounds
import checks
import fill
import in_python
import plans
import searches
import speed
from programs import TOP

ALL = (
    speed.packings, speed.others, speed.what_fits, speed.from_c, speed.excluded, speed.given_back, speed.sweeps, plans.plans, checks.checks,
    atlas.atlas, searches.searches, searches.in_containers, fill.fill, bounds.bounds, bounds.bound_times,
)
MORE = (fill.squares, fill.pages, fill.containers, fill.best, searches.searches_from_c, in_python.in_python)
TABLES = {it.__name__: it for it in (*ALL, *MORE)}


def main() -> None:
    names = sys.argv[1:] or [it.__name__ for it in ALL]
    if not {*names} <= {*TABLES}:
        sys.exit(f"{__doc__}\nTables: {', '.join(TABLES)}")
    commit = subprocess.run(["git", "rev-parse", "--short", "HEAD"], cwd=TOP, capture_output=True, text=True, check=True)
    print(f"At {commit.stdout.strip()}, on {datetime.date.today()}\n")
    for name in names:
        print(f"**{name}**: {TABLES[name].__doc__}\n", flush=True)
        TABLES[name]()


main()
