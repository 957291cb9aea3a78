"""How full bins get by each heuristic, by the best of all, and by other packers. All pack the same boxes, of fixed seeds.

The smallest square has the first whole side at which a packer takes all boxes: sides are tried one by one, from the least on that has
the boxes' area and is no shorter than a box. So are the depths of containers. A packer may take all boxes at one side and not at a
larger one. A dash stands where it does not take all boxes of a draw up to four times the least."""
from __future__ import annotations

import math
import random
from collections.abc import Callable, Iterable, Iterator, Sequence
from statistics import fmean
from typing import NamedTuple, Protocol, TypeVar

from programs import compiled, printed, proved, table

# The answers of session_lines to a question, and of fill_by_hand.c, in order.
OURS = ("volume", "height", "width", "depth", "side-sum", "longest-side", "shortest-side", "side-area", "best of all")
BY_HAND = ("MaxRects", "shelves", "stb_rect_pack")

Box = tuple[int, int, int]
T = TypeVar("T")


class Chance(Protocol):
    """What draws numbers, and items of lists."""

    def randint(self, a: int, b: int) -> int: ...

    def choice(self, seq: Sequence[T]) -> T: ...


Draw = Callable[[Chance], Box]


class Congruential:
    """Draws by a linear congruential generator, so that a program in C can draw the same boxes."""

    def __init__(self, seed: int) -> None:
        self.state = seed
        for _ in range(20):
            self.step()

    def step(self) -> int:
        self.state = (self.state * 6364136223846793005 + 1442695040888963407) % 2**64
        return self.state

    def randint(self, a: int, b: int) -> int:
        return a + (self.step() >> 33) % (b - a + 1)

    def choice(self, seq: Sequence[T]) -> T:
        return seq[self.randint(0, len(seq) - 1)]


class Asked(NamedTuple):
    """The set of the boxes, the boxes, a line that asks of them, and the least that the answer may be."""

    of: str
    boxes: list[Box]
    question: str
    least: int


def sides(*ranges: tuple[int, int]) -> Draw:
    """A box with a side from each range."""
    return lambda r: (r.randint(*ranges[0]), r.randint(*ranges[1]), r.randint(*ranges[2]) if len(ranges) > 2 else 1)


def sprite(r: Chance) -> Box:
    """One to two tiles wide, and one to three high."""
    tile = r.choice([8, 16, 32, 64])
    return tile * r.randint(1, 2), tile * r.randint(1, 3), 1


def small_or_large(r: Chance) -> Box:
    """Of ten boxes six are small, three larger, and one is large."""
    low, high = r.choice([(8, 32)] * 6 + [(32, 96)] * 3 + [(96, 256)])
    width = r.randint(low, high)
    return width, width * r.randint(50, 150) // 100, 1


SQUARES = {
    "boxes": sides((4, 64), (4, 64)),
    "sprites": sprite,
    "glyphs": sides((4, 18), (14, 20)),
    "panels": sides((200, 1200), (100, 600)),
    "few large": small_or_large,
    "upright": sides((1, 100), (66, 100)),
}
# How many sizes the boxes have; 0 where each is drawn.
CONTAINERS = {"boxes": 0, "8 sizes": 8, "20 sizes": 20}
BASE = 235, 239
# The classes of Berkey and Wang: the side of a page, and the longest side of a box.
UNIFORM = {"I": (10, 10), "II": (30, 10), "III": (40, 35), "IV": (100, 35), "V": (100, 100), "VI": (300, 100)}
# Those of Martello and Vigo, on pages of side 100: seven of ten boxes are of the kind, one of each other kind.
KINDS = {"VII": ((67, 100), (1, 50)), "VIII": ((1, 50), (67, 100)), "IX": ((50, 100), (50, 100)), "X": ((1, 50), (1, 50))}


def cells(boxes: Iterable[Box]) -> int:
    return sum(map(math.prod, boxes))


def many(r: Chance, count: int, draw: Draw) -> list[Box]:
    return [draw(r) for _ in range(count)]


def for_squares() -> Iterator[Asked]:
    for name, draw in SQUARES.items():
        for number in range(5):
            boxes = many(random.Random(f"{name} {number}"), 500, draw)
            least = max(math.isqrt(cells(boxes) - 1) + 1, *(max(box) for box in boxes))
            yield Asked(name, boxes, f"first 0 0 {least}", least)


def for_containers() -> Iterator[Asked]:
    for name, sizes in CONTAINERS.items():
        for number in range(5):
            r = random.Random(f"{name} {number}")
            some = many(r, sizes, sides(*[(15, 60)] * 3))
            boxes = [r.choice(some) for _ in range(300)] if some else many(r, 300, sides(*[(10, 60)] * 3))
            least = max(-(-cells(boxes) // math.prod(BASE)), *(depth for _, _, depth in boxes))
            yield Asked(name, boxes, f"first {BASE[0]} {BASE[1]} {least}", least)


def of_kinds(name: str) -> Draw:
    """A box of this class of Martello and Vigo."""
    kinds = [KINDS[name]] * 7 + [kind for other, kind in KINDS.items() if other != name]
    return lambda r: sides(*r.choice(kinds))(r)


def for_pages() -> Iterator[Asked]:
    classes = {name: (side, sides((1, most), (1, most))) for name, (side, most) in UNIFORM.items()}
    classes |= {name: (100, of_kinds(name)) for name in KINDS}
    for place, (name, (side, draw)) in enumerate(classes.items()):
        for count in range(20, 101, 20):
            for number in range(10):
                boxes = many(Congruential(1000 * place + 10 * count + number + 7), count, draw)
                yield Asked(name, boxes, f"pages {side} {side}", -(-cells(boxes) // side**2))


def for_times() -> Iterator[Asked]:
    for name, count, side, bins in (("16,000 boxes, one bin", 16_000, 8192, 1), ("500 boxes, 20 bins", 500, 176, 20)):
        yield Asked(name, many(random.Random(count), count, sides((4, 64), (4, 64))), f"times {side} {bins}", 1)


def answers(program: str, names: Iterable[str], asked: list[Asked]) -> dict[str, list[int]]:
    """What a program answers to each question, by the names of its packers; 0 stands for no answer."""
    lines = (line for it in asked for line in (*(f"box {w} {h} {d} 0" for w, h, d in it.boxes), it.question))
    columns = zip(*(map(int, line.split()) for line in printed(program, "".join(f"{line}\n" for line in lines)).splitlines()))
    return dict(zip(names, map(list, columns), strict=True))


# What is shown of one packer's answers for one set.
Shows = Callable[[list[Asked], list[int]], float]


def measured(asked: list[Asked], shows: Shows, others: bool) -> dict[str, dict[str, float]]:
    """Asks all packers. What is shown of each, by the sets, and the mean of that."""
    found = answers(proved("session_lines"), OURS, asked)
    if others:
        found |= answers(compiled("fill_by_hand.c", "-lm"), BY_HAND, asked)
    names = list(dict.fromkeys(it.of for it in asked))

    def values(packer: str) -> dict[str, float]:
        parts = {name: [(it, number) for it, number in zip(asked, found[packer], strict=True) if it.of == name] for name in names}
        shown = {name: shows([it for it, _ in part], [number for _, number in part]) for name, part in parts.items()}
        return {**shown, "mean": fmean(shown.values())}

    return {packer: values(packer) for packer in found}


def formed(value: float, form: str = "{:.3f}") -> str:
    return "-" if math.isnan(value) else form.format(value)


def show(rows: dict[str, dict[str, float]], form: str = "{:.3f}", means: bool = True) -> None:
    """Prints a line for each packer."""
    names = [it for it in next(iter(rows.values())) if means or it != "mean"]
    table(["", *names], ([packer, *(formed(row[name], form) for name in names)] for packer, row in rows.items()))


def part(asked: list[Asked], sizes: Iterable[int]) -> float:
    """The part of such sizes that the boxes fill."""
    return fmean(cells(it.boxes) / size if size else math.nan for it, size in zip(asked, sizes, strict=True))


def of_squares() -> dict[str, dict[str, float]]:
    return measured([*for_squares()], lambda asked, numbers: part(asked, (it**2 for it in numbers)), True)


def of_containers() -> dict[str, dict[str, float]]:
    return measured([*for_containers()], lambda asked, numbers: part(asked, (it * math.prod(BASE) for it in numbers)), False)


def of_pages() -> dict[str, dict[str, float]]:
    return measured([*for_pages()], lambda asked, numbers: sum(numbers) / sum(it.least for it in asked), True)


def fill() -> None:
    """How full bins get: the columns of the next three that PERFORMANCE has."""
    one, many_pages, deep = of_squares(), of_pages(), of_containers()

    def row(packer: str) -> list[str]:
        in_depth = deep.get(packer, {"mean": math.nan})
        return [packer, *map(formed, (one[packer]["glyphs"], one[packer]["mean"], many_pages[packer]["mean"], in_depth["mean"]))]

    table(["", "Glyphs", "One bin, mean", "Pages, mean", "3D, mean"], map(row, one))


def squares() -> None:
    """The part of the smallest square that 500 boxes fill, the mean of five draws."""
    show(of_squares())


def containers() -> None:
    """The part of the shortest container that 300 boxes fill, the mean of five draws."""
    show(of_containers(), means=False)


def pages() -> None:
    """The pages used over the least that the boxes' area needs, over 50 draws of 20 to 100 boxes."""
    show(of_pages())


def best() -> None:
    """What the best of all costs: the best time of seven packings."""
    found = measured([*for_times()], lambda _, numbers: fmean(it / 1000 if it else math.nan for it in numbers), False)
    show(found, "{:.2f} ms", means=False)
