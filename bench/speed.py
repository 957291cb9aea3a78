"""Times of packrun, whole runs by the clock: packings beside the same rule in C, boxes given back, and sweeps."""
from __future__ import annotations

import subprocess
from collections.abc import Callable, Iterator
from functools import partial
from typing import NamedTuple

import inputs
from programs import TOP, compiled, peak, printed, proved, seconds, table


class Input(NamedTuple):
    """An input, by what the table says of it, with the number of its boxes."""

    name: str
    boxes: int
    lines: Callable[[], inputs.Lines]


SIDES = {1_000: 8192, 4_000: 8192, 16_000: 8192, 32_000: 8192, 64_000: 16384, 128_000: 24576, 256_000: 32768}
PACKINGS = [
    *(Input(f"{count:,}", count, partial(inputs.one_bin, count, side)) for count, side in SIDES.items()),
    Input("32,000, in 3D", 32_000, partial(inputs.one_deep_bin, 32_000, 1280)),
]
OTHERS = [
    Input("5,000 boxes into 2,000 bins 64 x 64", 5_000, partial(inputs.many_bins, 5_000, 2_000)),
    Input("80,000 boxes into 32,000 such bins", 80_000, partial(inputs.many_bins, 80_000, 32_000)),
    Input("2,000 packings of one box into 2,000 such bins", 2_000, partial(inputs.many_packings, 2_000, 2_000)),
    Input("2,000 packings of one box into a list of 10,000 sections", 26_000, partial(inputs.many_packings_after, 2_000)),
    Input("100 groups of 201 boxes, each stuck in 300 bins", 20_100, partial(inputs.stuck_groups, 100, 300)),
    Input("100 such groups, each stuck in a list of 10,000 sections", 44_100, partial(inputs.stuck_groups_after, 100)),
    Input("one group of 100,000 boxes", 100_000, partial(inputs.one_group, 100_000)),
]


def memory(packrun: str, given: Input) -> str:
    """The peak, in MB."""
    return f"{peak(packrun, given.lines()) / 1e6:.1f}"


def packings() -> None:
    """Packings, beside two programs in C that print the same."""
    programs = [compiled("by_hand.c"), compiled("by_hand_slots.c"), proved("packrun")]

    def rows() -> Iterator[list[str]]:
        for given in PACKINGS:
            text = "".join(f"{line}\n" for line in given.lines())
            assert len({printed(it, text) for it in programs}) == 1, f"{given.name}: the answers differ"
            yield [given.name, *(f"{took:.4f}" for took in seconds(programs, given.lines())), memory(programs[-1], given)]

    table(["Boxes, 4 to 64 a side, into one bin", "C, plain", "C, index", "packrun", "MB"], rows())


def others() -> None:
    """What takes packrun long."""
    packrun = proved("packrun")
    rows = ([it.name, f"{seconds([packrun], it.lines())[0]:.4f}", memory(packrun, it)] for it in OTHERS)
    table(["Other inputs", "packrun", "MB"], rows)


def what_fits() -> None:
    """What fits of boxes that all fit, beside a packing of all of them: by session_lines in one run, in turn, the best of seven each."""
    program = proved("session_lines")
    given = [
        ("4,000 boxes into one bin", (4_000, 64, 8192, 1)), ("32,000 boxes into one bin", (32_000, 64, 8192, 1)),
        ("5,000 boxes into 2,000 bins 64 x 64", (5_000, 40, 64, 2_000)),
    ]

    def rows() -> Iterator[list[str]]:
        for name, numbers in given:
            text = "".join(f"{line}\n" for line in inputs.beside(*numbers))
            all_of_them, fitting = map(int, printed(program, text).split())
            assert all_of_them and fitting, f"{name}: something is left"
            yield [name, f"{all_of_them / 1e6:.4f}", f"{fitting / 1e6:.4f}", f"{fitting / all_of_them:.2f}"]

    table(["Boxes that all fit", "all or nothing", "what fits", "the second to the first"], rows())


def from_c() -> None:
    """Packings in one process, by the call for C and by stb_rect_pack: each reads and prints nothing."""
    subprocess.run([TOP / "tools" / "build_c.sh"], check=True, stdout=subprocess.DEVNULL)
    program = compiled("c_times.c", f"-I{TOP}/build", f"{TOP}/build/librectangle_pack.a", "-lm")
    rows = (line.split() for line in printed(program, "").splitlines())
    table(["Boxes, in one process", "the call for C", "stb_rect_pack"], ([f"{int(it[0]):,}", *it[1:3]] for it in rows))


def excluded() -> None:
    """Groups that exclude each other."""
    packrun = proved("packrun")

    def rows() -> Iterator[list[str]]:
        for groups, pairs in ((2_000, 0), (2_000, 2_000), (8_000, 0), (8_000, 8_000)):
            lines = [*inputs.excluded(groups, pairs, groups // 10)]
            rows = (it.split() for it in printed(packrun, "".join(f"{line}\n" for line in lines)).splitlines())
            used = {words[2] for words in rows if len(words) == 9}
            yield [f"{groups:,}", f"{pairs:,}", str(groups // 10), str(len(used)), f"{seconds([packrun], lines)[0]:.3f}"]

    table(["Groups", "Pairs excluded", "Bins", "Bins used", "Seconds"], rows())


def given_back() -> None:
    """Boxes that are given back, beside the packing alone."""
    packrun = proved("packrun")

    def rows() -> Iterator[list[str]]:
        for count in (1_000, 10_000, 100_000):
            ways = [inputs.row(count), *(inputs.given_back(count, order) for order in ("last", "first", "turns"))]
            alone, *released = (seconds([packrun], lines)[0] for lines in ways)
            yield [f"{count:,}", f"{alone:.4f}", *(f"{took - alone:.4f}" for took in released)]

    table(["Boxes", "Packed alone", "Released from the last on", "From the first on", "In turn"], rows())


def sweeps() -> None:
    """Sweeps alone: with them less without them. A dash stands where runs vary by more than that."""
    packrun = proved("packrun")

    def took(count: int, step: int) -> str:
        less, more = (seconds([packrun], lines(count, step))[0] for lines in (inputs.unswept, inputs.swept))
        return f"{more - less:.4f}" if more > less else "-"

    rows = ([f"{count:,}", took(count, 1), took(count, 2)] for count in (1_000, 10_000, 40_000))
    table(["Free sections", "They join to one", "None joins"], rows)
