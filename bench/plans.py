"""Times of cutting plans of bins with some 100,000 boxes, without packing and printing: the best of five, in one process."""
from __future__ import annotations

import random
from collections.abc import Callable, Iterable

from programs import printed, proved, table

# Boxes of one height, from left to right over the whole width of a bin: their height and their widths.
Row = tuple[int, list[int]]


class Layout:
    """Lines for session_lines that fill bin 0."""

    def __init__(self, width: int, height: int, depth: int = 1) -> None:
        self.lines = [f"bin {width} {height} {depth}"]
        self.boxes = 0

    def put(self, sizes: Iterable[tuple[int, ...]]) -> None:
        """Packs boxes as a group, from left to right, into the newest free section that takes them."""
        lines = [f"box {' '.join(map(str, size))} 1" for size in sizes]
        self.lines += [*lines, "pack 0"]
        self.boxes += len(lines)

    def free(self, width: int, height: int) -> None:
        """Places a box and gives it back: its section is then the newest."""
        self.put([(width, height, 1)])
        self.lines.append(f"release {self.boxes - 1}")


def layout(width: int, rows: list[Row], free: int = 0) -> Layout:
    """Rows from the bottom on, and so much that is free above them."""
    found = Layout(width, sum(height for height, _ in rows) + free)
    for height, widths in rows:
        found.free(width, height)
        found.put((it, height, 1) for it in widths)
    return found


def grid(width: int, count: int) -> list[Row]:
    """Boxes 1 x 1."""
    return [(1, [1] * width)] * count


def halved(width: int, count: int) -> list[Row]:
    """The same, with a box of the whole width in the middle."""
    rows = grid(width, count // 2)
    return [*rows, (1, [width]), *rows]


def bricks(width: int, count: int) -> list[Row]:
    """Bricks 2 x 1. Every second row is shifted by half a brick."""
    return [(1, [1, *[2] * (width // 2 - 1), 1] if row % 2 else [2] * (width // 2)) for row in range(count)]


def shelves(width: int, count: int) -> list[Row]:
    """Rows of heights 1 to 9, with boxes 1 to 19 wide."""
    draw, rows = random.Random(7), []
    for row in range(count):
        widths, left = [], width
        while left:
            widths.append(min(left, draw.randint(1, 19)))
            left -= widths[-1]
        rows.append((row % 9 + 1, widths))
    return rows


def nested(side: int) -> Layout:
    """A box at the left of what is left, one at the bottom of the rest, in turn."""
    found = Layout(side, side)
    for left in reversed(range(1, side)):
        found.put([(1, left + 1, 1)])
        found.put([(left, 1, 1)])
    return found


def nested_in_depth(side: int) -> Layout:
    """The same on three axes."""
    found = Layout(side, side, side)
    for left in reversed(range(1, side)):
        found.put([(1, left + 1, left + 1)])
        found.put([(left, 1, left + 1)])
        found.put([(left, left, 1)])
    return found


def nested_from_top(side: int) -> Layout:
    """Strips that are free, at the right of what is left and at the top of the rest, in turn."""
    found = Layout(side, side)
    for left in reversed(range(1, side)):
        found.free(left, left + 1)
        found.free(left, left)
    return found


LAYOUTS: dict[str, Callable[[], Layout]] = {
    "a row of boxes 1 x 1": lambda: layout(100_000, grid(100_000, 1)),
    "a grid of 400 x 250 such": lambda: layout(400, grid(400, 250)),
    "the same, and a strip above that is free": lambda: layout(400, grid(400, 250), 9),
    "a grid of 400 x 250, and a box over the whole width in the middle": lambda: layout(400, halved(400, 250)),
    "bricks 2 x 1, shifted row by row, 64 wide": lambda: layout(64, bricks(64, 3_076)),
    "such bricks, 10,000 wide": lambda: layout(10_000, bricks(10_000, 20)),
    "shelves of heights 1 to 9 with boxes 1 to 19 wide, 100 wide": lambda: layout(100, shelves(100, 9_500)),
    "such shelves, 10,000 wide": lambda: layout(10_000, shelves(10_000, 100)),
    "a box at the left, one at the bottom of the rest, in turn": lambda: nested(50_000),
    "the same on three axes": lambda: nested_in_depth(33_334),
    "a free strip at the right, one at the top of the rest, in turn": lambda: nested_from_top(50_000),
}


def plans() -> None:
    """How long plans take."""
    program = proved("session_lines")

    def took(lines: list[str]) -> str:
        return printed(program, "\n".join([*lines, "time 0\n"])).splitlines()[-1]

    rows = ([name, f"{int(took(make().lines)) / 1000:.1f}"] for name, make in LAYOUTS.items())
    table(["Layout", "Milliseconds"], rows)
