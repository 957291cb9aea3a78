"""How many pages and containers a search finds for sets of boxes of fixed seeds, beside the best of all heuristics and what is needed.
Pages: the sets of the table of pages. Containers: those of the table of containers, into containers of one size."""
from __future__ import annotations

import math
import subprocess
from collections.abc import Iterable, Iterator, Sequence
from statistics import fmean
from typing import NamedTuple

import fill
from programs import TOP, compiled, printed, proved, table

# The size of a container.
CONTAINER = (*fill.BASE, 200)
SEED = 1


class Found(NamedTuple):
    """What a search answered for a set: bins used, bins needed, whether that is optimal, tries and seconds; 0 of both for another packer."""

    used: int
    needed: int
    is_optimal: bool
    tries: int
    seconds: float


def questions(boxes: list[fill.Box], size: tuple[int, int, int], tries: int, turned: bool) -> Iterator[str]:
    """Lines that ask for a search in as many bins of this size as there are boxes."""
    yield from ("again", *(f"bin {size[0]} {size[1]} {size[2]}" for _ in boxes), *(f"box {w} {h} {d} 0" for w, h, d in boxes))
    if turned:
        yield from (f"turn {number} 0 0 1" for number in range(len(boxes)))
    yield f"search {tries} {SEED} 0"


def searched(
    asked: Iterable[tuple[list[fill.Box], tuple[int, int, int]]], tries: int, turned: bool = False, program: Sequence[str] = (),
) -> Iterator[Found]:
    """What is found for each set: by session_lines, or by another program that obeys such lines."""
    sets = [*asked]
    lines = (line for boxes, size in sets for line in questions(boxes, size, tries, turned))
    said = iter(printed(program or proved("session_lines"), "".join(f"{it}\n" for it in lines)).splitlines())
    for boxes, _ in sets:
        for _ in boxes:
            next(said)
        _, _, used, needed, is_optimal, made, _, microseconds = map(int, next(said).split())
        yield Found(used, needed, bool(is_optimal), made, microseconds / 1e6)


def side_of(asked: fill.Asked) -> int:
    return int(asked.question.split()[1])


def by_others(asked: list[fill.Asked], needed: list[int]) -> Iterator[tuple[str, list[Found]]]:
    """What other packers make of these sets."""
    for name, answers in fill.answers(compiled("fill_by_hand.c", "-lm"), fill.BY_HAND, asked).items():
        yield name, [Found(used, least, used <= least, 0, 0) for used, least in zip(answers, needed, strict=True)]


def row(name: str, asked: list[fill.Asked], found: list[Found]) -> list[str]:
    """What is found for all sets: pages over the area's, a mean of the classes; pages; sets proved to be optimal, and within a page of what
    is needed; and how long a set and a try take."""
    classes = dict.fromkeys(it.of for it in asked)
    pairs = [*zip(asked, found, strict=True)]
    over = fmean(sum(f.used for a, f in pairs if a.of == it) / sum(a.least for a, _ in pairs if a.of == it) for it in classes)
    near = sum(it.used <= it.needed + 1 for it in found)
    took, tries = sum(it.seconds for it in found), sum(it.tries for it in found)
    optimal = sum(it.is_optimal for it in found)
    return [
        name, f"{over:.3f}", str(sum(it.used for it in found)), str(optimal), str(near),
        f"{took / len(found) * 1000:.1f} ms" if took else "-", f"{took / tries * 1e6:.1f} µs" if tries else "-",
    ]


def searches() -> None:
    """Pages for 500 sets of ten classes, a search with seed 1 beside other packers: pages over the least by area, a mean of the classes; all
    pages; sets proved to be optimal, and within one page of what is needed; time a set, and a try."""
    asked = [*fill.for_pages()]
    pages = [(it.boxes, (side_of(it), side_of(it), 1)) for it in asked]

    def rows() -> Iterator[list[str]]:
        guessed = [*searched(pages, 0)]
        yield from (row(name, asked, found) for name, found in by_others(asked, [it.needed for it in guessed]))
        yield row("best of all eight", asked, guessed)
        for tries, turned in ((2_000, False), (20_000, False), (200_000, False), (20_000, True)):
            name = f"{tries:,} tries" + (", boxes may be turned" if turned else "")
            yield row(name, asked, [*searched(pages, tries, turned)])

    table(["", "Pages over area", "Pages", "Optimal", "Within one", "A set", "A try"], rows())


def searches_from_c() -> None:
    """The same sets by the calls for C, in 20,000 tries with seed 1: in one call, and in pieces of so many tries."""
    subprocess.run([TOP / "tools" / "build_c.sh"], check=True, stdout=subprocess.DEVNULL)
    program = compiled("search_times.c", f"-I{TOP}/build", f"{TOP}/build/librectangle_pack.a")
    asked = [*fill.for_pages()]
    pages = [(it.boxes, (side_of(it), side_of(it), 1)) for it in asked]

    def rows() -> Iterator[list[str]]:
        yield row("session_lines", asked, [*searched(pages, 20_000)])
        for name, piece in (("C, in one call", 0), ("C, in pieces of 1,000 tries", 1_000), ("C, in pieces of 10 tries", 10)):
            yield row(name, asked, [*searched(pages, 20_000, program=[program, str(piece)])])

    table(["", "Pages over area", "Pages", "Optimal", "Within one", "A set", "A try"], rows())


def in_containers() -> None:
    """Containers 235 x 239 x 200 for 300 boxes, of five sets of each kind: by volume alone, needed, used by the best of all, and found in
    20,000 tries."""
    asked = [*fill.for_containers()]

    def rows() -> Iterator[list[str]]:
        for name in fill.CONTAINERS:
            sets = [(it.boxes, CONTAINER) for it in asked if it.of == name]
            volume = sum(-(-fill.cells(boxes) // math.prod(CONTAINER)) for boxes, _ in sets)
            guessed, found = [*searched(sets, 0)], [*searched(sets, 20_000)]
            yield [name, str(volume), str(sum(it.needed for it in found)), str(sum(it.used for it in guessed)), str(sum(it.used for it in found))]

    table(["", "By volume", "Needed", "Best of all", "Found"], rows())
