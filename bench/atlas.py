"""A page whose boxes come and go: how full it is where a box finds no room, kept by sessions and by shelves."""
from __future__ import annotations

import re
import subprocess
from collections.abc import Iterator
from typing import NamedTuple

from programs import BENCH, COMPILE, MADE, TOP, printed, table

CHURN = BENCH / "churn"
REPORT = re.compile(
    r"full (?P<mean>\S+) in the mean, (?P<worst>\S+) at the worst\n"
    r"  by tenths: (?P<tenths>.*)\n"
    r".* (?P<speed>\S+) M boxes/s; worst call: place (?P<place>\S+) ms, mend (?P<mend>\S+) ms\n"
)


class Way(NamedTuple):
    """A way to keep the page: its source and flags, and how many boxes come."""

    name: str
    source: str
    flags: tuple[str, ...] = ()
    boxes: int = 1_000_000


def session(name: str, way: int, boxes: int = 1_000_000) -> Way:
    return Way(name, "session.c", (f"-DWAY={way}", f"-I{TOP}/build", f"{TOP}/build/librectangle_pack.a"), boxes)


JOINED = session("packed, free sections joined at a refusal", 0, 100_000)
PACKED = session("packed, cut anew", 1)
BEST = session("best fit, cut anew", 2)
SHELVES = Way("shelves, by hand", "shelves.c")
LOADS = {"uniform": (JOINED, PACKED, BEST, SHELVES), "glyphs": (BEST, SHELVES), "sprites": (BEST, SHELVES)}


def compiled(way: Way) -> str:
    MADE.mkdir(parents=True, exist_ok=True)
    program = str(MADE / re.sub(r"\W+", "_", f"atlas {way.name}"))
    subprocess.run([*COMPILE, CHURN / "workload.c", CHURN / way.source, *way.flags, "-o", program], check=True)
    return program


def told(report: str) -> list[str]:
    """The cells of a row, from what a program printed."""
    found = REPORT.search(report)
    assert found, report
    means = [it.partition("/")[0] for it in found["tenths"].split()]
    call = max(float(found["place"]), float(found["mend"]))
    return [found["mean"], found["worst"], ", ".join(means[i] for i in (0, 4, 9)), f"{float(found['speed']) * 1e6:,.0f}", f"{call:.1f}"]


def atlas() -> None:
    """A page 2048 x 2048, from which the oldest tenth goes where a box finds no room."""
    subprocess.run([TOP / "tools" / "build_c.sh"], check=True, stdout=subprocess.DEVNULL)

    def rows() -> Iterator[list[str]]:
        for load, (name, ways) in enumerate(LOADS.items()):
            for way in ways:
                report = printed([compiled(way), str(way.boxes), str(load)], "")
                assert way is JOINED or report.endswith("a box of the whole page: taken\n"), report
                yield [f"{way.boxes:,} {name}", way.name, *told(report)]

    table(["Boxes", "Page", "Full, in the mean", "At the worst", "First, fifth, last tenth", "Boxes a second", "Worst call, ms"], rows())
