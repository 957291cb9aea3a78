"""Times of the module for Python."""
from __future__ import annotations

import importlib
import os
import random
import subprocess
import sys
import timeit
from collections.abc import Callable, Iterator
from typing import Any

from programs import RUNS, TOP, table

MANY = 20_000


def _best(call: Callable[[], object], count: int) -> float:
    """Seconds of one call: the best of the runs, of so many calls each."""
    return min(timeit.repeat(call, number=count, repeat=RUNS)) / count


def _of_one_box(module: Any) -> Iterator[list[str]]:
    """One box comes and goes, by each call that places one."""
    section = module.Section(0, 0, 0, 10, 20, 1)
    with module.Session({"page": module.Bin(1024, 1024)}) as session:
        places: dict[str, Callable[[], Any]] = {
            "pack": lambda: session.pack({"hat": module.Box(10, 20)})["hat"], "place_best": lambda: session.place_best("hat", 10, 20),
            "place_at": lambda: session.place_at("page", "hat", section),
        }
        for name, place in places.items():
            took = _best(lambda: session.release(place().number), 10_000)
            session.recut("page")
            yield [f"one box by {name}, and its release", f"{took * 1e6:.1f} us"]


def _of_many(module: Any) -> Iterator[list[str]]:
    """Many boxes are packed at once, by the function and into a session, and are listed."""
    r, bins = random.Random(1), {"page": module.Bin(8192, 8192)}
    boxes = {f"sprite {number}": module.Box(r.randint(4, 64), r.randint(4, 64)) for number in range(MANY)}

    def into_a_session() -> Any:
        session = module.Session(bins)
        session.pack(boxes)
        return session

    with into_a_session() as session:
        calls = {
            "boxes by the function pack": lambda: module.pack(bins, boxes), "boxes into a new session": into_a_session,
            "boxes that stand are listed": session.outstanding,
        }
        for name, call in calls.items():
            yield [f"{MANY:,} {name}", f"{_best(call, 1):.3f} s"]


def in_python() -> None:
    """The module for Python, with the library's part: one box that comes and goes, and many at once."""
    if "RECTANGLE_PACK" not in os.environ:
        subprocess.run([TOP / "tools" / "build_c.sh"], check=True, stdout=subprocess.DEVNULL)
    sys.path.insert(0, str(TOP / "bindings" / "python"))
    module = importlib.import_module("rectangle_pack")
    table(["In Python", "Takes"], (row for rows in (_of_one_box(module), _of_many(module)) for row in rows))
