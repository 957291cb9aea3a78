"""Lines for packrun whose times the tables have. python3 bench/inputs.py KIND [WORD..] prints those of a function below."""
from __future__ import annotations

import random
import sys
from collections.abc import Iterator

Lines = Iterator[str]


def boxes(draw: random.Random, count: int, least: int, most: int, name: str = "r", groups: str = "") -> Lines:
    """So many boxes of depth 1."""
    yield from (f"rect {name}{n} {draw.randint(least, most)} {draw.randint(least, most)} 1{groups}" for n in range(count))


def small_bins(count: int) -> Lines:
    yield from (f"bin b{n} 64 64 1" for n in range(count))


def one_by_one(lines: Lines) -> Lines:
    """A packing of each box."""
    for line in lines:
        yield from (line, "pack")


def one_bin(count: int, side: int) -> Lines:
    """One packing of boxes, 4 to 64 a side, into one bin."""
    yield f"bin a {side} {side} 1"
    yield from boxes(random.Random(count), count, 4, 64)
    yield "pack"


def one_deep_bin(count: int, side: int) -> Lines:
    """The same in three dimensions."""
    draw = random.Random(count)
    yield f"bin a {side} {side} {side}"
    yield from (f"rect r{n} {draw.randint(4, 64)} {draw.randint(4, 64)} {draw.randint(4, 64)}" for n in range(count))
    yield "pack"


def many_bins(count: int, bins: int) -> Lines:
    """One packing of boxes, 4 to 40 a side, into bins 64 x 64."""
    yield from small_bins(bins)
    yield from boxes(random.Random(1), count, 4, 40)
    yield "pack"


def beside(count: int, most: int, side: int, bins: int) -> Lines:
    """For session_lines: boxes, 4 to so many a side, that are packed into squares, all or what fits."""
    draw = random.Random(count)
    yield from (f"box {draw.randint(4, most)} {draw.randint(4, most)} 1 0" for _ in range(count))
    yield f"beside {side} {bins}"


def many_packings(count: int, bins: int) -> Lines:
    """A packing of each of these boxes."""
    yield from small_bins(bins)
    yield from one_by_one(boxes(random.Random(1), count, 4, 40))


def long_list() -> Lines:
    """One packing that leaves a bin with some 10,000 free sections."""
    yield from one_bin(24_000, 8192)


def many_packings_after(count: int) -> Lines:
    """Packings of one box, 4 to 24 a side, into such a bin."""
    yield from long_list()
    yield from one_by_one(boxes(random.Random(1), count, 4, 24, "s"))


def stuck_groups(groups: int, bins: int) -> Lines:
    """Groups of 201 boxes, 4 to 8 a side, that are stuck in each bin 64 x 64, and go into a large bin."""
    draw = random.Random(1)
    yield from small_bins(bins)
    yield "bin large 4096 4096 1"
    for n in range(groups):
        yield from boxes(draw, 201, 4, 8, f"r{n}_", f" g{n}")
    yield "pack"


def stuck_groups_after(groups: int) -> Lines:
    """Groups of 201 boxes whose last is too wide for a bin with some 10,000 free sections, and which go into a large bin."""
    draw = random.Random(1)
    yield from long_list()
    yield "bin large 32768 32768 1"
    for n in range(groups):
        yield from boxes(draw, 200, 4, 24, f"s{n}_", f" g{n}")
        yield f"rect t{n} 8193 4 1 g{n}"
    yield "pack"


def one_group(count: int) -> Lines:
    """A group of boxes, 4 to 64 a side."""
    yield "bin a 262144 262144 1"
    yield from boxes(random.Random(1), count, 4, 64, groups=" g")
    yield "pack"


def one_box(groups: int) -> Lines:
    """A box in many groups."""
    yield "bin a 128 128 1"
    yield " ".join(["rect r 4 4 1", *(f"g{n}" for n in range(groups))])
    yield "pack"


def excluded(groups: int, pairs: int, bins: int) -> Lines:
    """One packing of groups of one box, 2 to 8 a side, of which so many pairs are excluded, into bins 20 x 20."""
    draw = random.Random(groups)
    yield from (f"bin b{n} 20 20 1" for n in range(bins))
    yield from (f"rect r{n} {draw.randint(2, 8)} {draw.randint(2, 8)} 1 g{n}" for n in range(groups))
    chosen: set[tuple[int, int]] = set()
    while len(chosen) < pairs:
        one, other = sorted(draw.sample(range(groups), 2))
        chosen.add((one, other))
    yield from (f"exclude g{one} g{other}" for one, other in sorted(chosen))
    yield "pack"


def row(count: int) -> Lines:
    """One packing of boxes 1 x 1 into a bin that they fill, in a row."""
    yield f"bin a {count} 1 1"
    yield from (f"rect r{n} 1 1 1" for n in range(count))
    yield "pack"


def given_back(count: int, order: str) -> Lines:
    """A row, and its releases from the first or the last on; in turns, the oldest is released and one more packed."""
    yield from row(count)
    for n in reversed(range(count)) if order == "last" else range(count):
        yield f"release {n}"
        if order == "turns":
            yield from (f"rect r{count + n} 1 1 1", "pack")


def unswept(count: int, step: int) -> Lines:
    """So many free sections 1 x 1, side by side (step 1), or with a box between each two (step 2)."""
    yield from row(count * step)
    yield from (f"release {n}" for n in reversed(range(0, count * step, step)))


def swept(count: int, step: int) -> Lines:
    """The same, and a sweep."""
    yield from unswept(count, step)
    yield "sweep a"


if __name__ == "__main__":
    print("\n".join(globals()[sys.argv[1]](*(int(it) if it.isdigit() else it for it in sys.argv[2:]))))
