"""How many pages sets of boxes need, as far as `least_bins` shows, beside the pages that the best of all heuristics uses. The boxes are those
of the table of pages: ten classes, 50 sets each, of fixed seeds."""
from __future__ import annotations

import random
from collections.abc import Iterator
from typing import NamedTuple

import fill
from programs import printed, proved, table


class Row(NamedTuple):
    """The pages of the sets of one class: by area, as shown to be needed, as used by the best of all; and how many sets use no more than
    is needed."""

    by_area: int
    needed: int
    used: int
    optimal: int


def questions(asked: fill.Asked, turned: bool) -> Iterator[str]:
    """Lines that ask how many of as many pages as there are boxes are needed, and then how many the packings use."""
    side = asked.question.split()[1]
    boxes = [f"box {w} {h} {d} 0" for w, h, d in asked.boxes]
    yield from ("again", *(f"bin {side} {side} 1" for _ in boxes), *boxes)
    if turned:
        yield from (f"turn {number} 0 0 1" for number in range(len(boxes)))
    yield from ("least", *boxes, asked.question)


def rows(asked: list[fill.Asked], turned: bool = False) -> dict[str, Row]:
    """A row for each class."""
    lines = iter(printed(proved("session_lines"), "".join(f"{it}\n" for one in asked for it in questions(one, turned))).splitlines())
    found: dict[str, Row] = {}
    for it in asked:
        for _ in it.boxes:
            next(lines)
        needed, used = int(next(lines)), int(next(lines).split()[-1])
        row = found.get(it.of, Row(0, 0, 0, 0))
        found[it.of] = Row(row.by_area + it.least, row.needed + needed, row.used + used, row.optimal + (needed == used))
    return found


def bounds() -> None:
    """Pages that ten classes of boxes need. The last column: sets for which the best of all uses no more pages than are needed, so that no
    packer uses fewer."""
    asked = [*fill.for_pages()]
    found, turned = rows(asked), rows(asked, turned=True)
    found["all"] = Row(*map(sum, zip(*found.values())))
    turned["all"] = Row(*map(sum, zip(*turned.values())))
    heads = ["", "by area", "needed", "needed, may be turned", "used", "optimal, of sets"]
    sets = {name: sum(it.of == name for it in asked) or len(asked) for name in found}
    table(heads, ([name, str(r.by_area), str(r.needed), str(turned[name].needed), str(r.used), f"{r.optimal} of {sets[name]}"] for name, r in found.items()))


def time_of(program: str, seed: str, boxes: tuple[int, int], turns: str) -> str:
    """How long it takes to show how many of as many bins as there are boxes are needed. The boxes are those of the seed, so many and so deep."""
    r, (count, depth) = random.Random(seed), boxes
    lines = ["again", *(f"bin 400 400 {depth}" for _ in range(count))]
    lines += (f"box {r.randint(1, 300)} {r.randint(1, 300)} {r.randint(1, depth)} 0" for _ in range(count))
    lines += (f"turn {number} {turns}" for number in range(count))
    said = printed(program, "".join(f"{it}\n" for it in [*lines, "least_time"]))
    return f"{int(said.split()[-1]) / 1000:.1f} ms"


def bound_times() -> None:
    """How long it takes to show how many bins are needed, and how long where the boxes may be turned about each axis."""
    counts = {"1,000 boxes, 2D": (1_000, 1), "10,000 boxes, 2D": (10_000, 1), "1,000 boxes, 3D": (1_000, 100)}
    program = proved("session_lines")
    table(["", "Time", "May be turned"], ([name, *(time_of(program, name, boxes, turns) for turns in ("0 0 0", "1 1 1"))] for name, boxes in counts.items()))
