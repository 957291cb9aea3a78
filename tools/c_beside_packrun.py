#!/usr/bin/env python3
"""c_beside_packrun.py [RUNS] [--calls CALLS]: packs drawn boxes by the C call, over the module for Python, and by packrun, and
compares what they answer. Boxes are in several groups, and groups are excluded. Then runs drawn sessions of packings, releases,
joins of one section and of all, and looks at what is free, by the calls for sessions and by packrun, and compares each answer.
There are RUNS of each (300 if left out), or so many sessions that they have this number of CALLS."""
from __future__ import annotations

import argparse
import collections
import random
import subprocess
import sys
import time
from collections.abc import Iterable, Sequence
from pathlib import Path
from random import Random
from typing import Any

root = Path(__file__).resolve().parent.parent
sys.path.insert(0, str(root / "bindings" / "python"))
import rectangle_pack  # noqa: E402
from rectangle_pack import Bin, Box, Session  # noqa: E402

Size = tuple[int, int, int]
# A box: its name, its size, and its groups.
Drawn = tuple[int, Size, Sequence[int]]
Pairs = list[tuple[int, int]]
# A command, and what stands behind it.
Command = tuple[Any, ...]

# Names of one length keep the order of numbers.
def bin_line(bin: int, w: int, h: int, d: int) -> str:
    return f"bin b{bin:04} {w} {h} {d}"


def rect_line(name: int, size: Size, groups: Iterable[int]) -> str:
    return " ".join([f"rect r{name:06}", *map(str, size), *(f"g{group:06}" for group in groups)])


def exclude_lines(pairs: Pairs) -> list[str]:
    return [f"exclude g{one:06} g{other:06}" for one, other in pairs]


def packrun(lines: Iterable[str]) -> list[str]:
    """The lines that packrun prints to these lines."""
    text = "".join(f"{line}\n" for line in lines)
    return subprocess.run([str(root / "packrun")], input=text, capture_output=True, text=True, check=True).stdout.splitlines()


def members_of(boxes: Iterable[Drawn], in_one_line: bool) -> dict[int, list[int]]:
    """For each group its boxes in the order in which they are packed: as their lines stand, where each box has one line with
    all of its groups; or first those of which it is the first group, and then those of which it is a further one, as in C."""
    first = [(name, group) for name, _, groups in boxes for group in groups[:1]]
    further = [(name, group) for name, _, groups in boxes for group in groups[1:]]
    order = [(name, group) for name, _, groups in boxes for group in groups] if in_one_line else first + further
    members: dict[int, list[int]] = collections.defaultdict(list)
    for name, group in order:
        members[group].append(name)
    return members


def rect_lines(boxes: list[Drawn]) -> list[str]:
    """One line for each box, where that makes no other order than C has, or else another line for each further group."""
    if members_of(boxes, True) == members_of(boxes, False):
        return [rect_line(*box) for box in boxes]
    further = [rect_line(name, size, [group]) for name, size, groups in boxes for group in groups[1:]]
    return [rect_line(name, size, groups[:1]) for name, size, groups in boxes] + further


def groups_of(named: Iterable[tuple[int, int]]) -> dict[int, list[int]]:
    """A mapping from groups to names, of pairs of group and name, in the order of groups."""
    groups: dict[int, list[int]] = {}
    for group, name in sorted(named, key=lambda it: it[0]):
        groups.setdefault(group, []).append(name)
    return groups


def with_all(groups: dict[int, list[int]], pairs: Pairs) -> dict[int, list[int]]:
    """The groups, and behind them those of pairs that have no boxes there."""
    return {**groups, **{group: groups.get(group, []) for pair in pairs for group in pair}}


def by_packrun(bins: Sequence[Size], boxes: list[Drawn], pairs: Pairs) -> list[str] | None:
    """What packrun answers, or None where there is not enough space."""
    lines = [bin_line(i, *size) for i, size in enumerate(bins)] + rect_lines(boxes) + exclude_lines(pairs)
    out = packrun([*lines, "pack"])
    if any("refused" in line for line in out):
        return None
    return sorted(" ".join(line.split()[1:6]) for line in out if len(line.split()) == 9)


def by_call(bins: Sequence[Size], boxes: list[Drawn], pairs: Pairs) -> list[str] | None:
    """What the C call answers, in the words of packrun. A box says its first group, and the mapping the others."""
    named = {name: Box(*size, group=groups[0] if groups else None) for name, size, groups in boxes}
    further = with_all(groups_of((group, name) for name, _, groups in boxes for group in groups[1:]), pairs)
    try:
        packing = rectangle_pack.pack([Bin(*size) for size in bins], named, groups=further, exclude=pairs)
    except rectangle_pack.NotEnoughBinSpace:
        return None
    return sorted(f"r{it.name:06} b{it.bin:04} {it.x} {it.y} {it.z}" for it in packing)


def renamed(boxes: list[Drawn], pairs: Pairs) -> tuple[list[Drawn], Pairs]:
    """The groups numbered in the order in which the module meets them: those that are first of a box, then others."""
    first = [group for _, _, groups in boxes for group in groups[:1]]
    further = sorted(group for _, _, groups in boxes for group in groups[1:])
    new = {group: number for number, group in enumerate(dict.fromkeys([*first, *further, *sum(pairs, ())]))}
    boxes = [(name, size, [new[group] for group in groups]) for name, size, groups in boxes]
    return boxes, [(new[one], new[other]) for one, other in pairs]


def drawn_pairs(r: Random, groups: Sequence[int]) -> Pairs:
    """Pairs of groups that are excluded."""
    count = r.choice([0, 0, 0, 1, 2, 5]) if len(groups) > 1 else 0
    return [(one, other) for one, other in (r.sample(groups, 2) for _ in range(count))]


def drawn(r: Random, most: int = 60) -> tuple[list[Size], list[Drawn], Sequence[int]]:
    """Bins and boxes, in two or three dimensions, some of them in one group or in several, some empty."""
    flat = r.random() < 0.5
    side = r.choice([8, 64, 256])
    depth = 1 if flat else side // 2

    def size(low: int, high: int) -> Size:
        return (r.randint(low, high), r.randint(low, high), 1 if flat else r.randint(low, max(low, depth)))

    bins = [size(side // 2, side) for _ in range(r.randint(0 if r.random() < 0.05 else 1, 5))]
    low = 0 if r.random() < 0.1 else 1
    high, groups = max(1, side // r.choice([2, 4, 6])), range(r.choice([0, 2, 5]))
    counts = [0, 1, 1, 1, 2, 3] if groups else [0]
    boxes: list[Drawn] = [(name, size(low, high), r.choices(groups, k=r.choice(counts))) for name in range(r.randint(0, most))]
    return bins, boxes, groups


def drawn_join(r: Random) -> tuple[int, int, int]:
    """The index of a section and a range of others, most often all of them. Both may be past the end of the list."""
    whole = r.random() < 0.6
    index = r.randint(0, 20)
    return (index, 0, 2**64 - 1) if whole else (index, r.randint(0, 20), r.randint(0, 20))


def drawn_session(r: Random) -> list[Command]:
    """Commands of a session, some of them of what is not there. Each packing has boxes and groups of its own, and excludes some
    groups that are known. The groups of a box rise, so that the least is its first."""
    commands: list[Command] = []
    bins = boxes = groups = 0
    for _ in range(r.randint(1, 8)):
        sizes, packed, new = drawn(r, 12)
        packed = [(boxes + name, size, sorted(groups + group for group in its)) for name, size, its in packed]
        boxes, groups = boxes + len(packed), groups + len(new)
        # One size twice: bins of equal volume.
        for size in sizes[:r.randint(0, 2)] + sizes[:1]:
            known = bins > 0 and r.random() < 0.2
            commands.append(("bin", r.randrange(bins) if known else bins, *size))
            bins += not known
        commands.append(("pack", packed, drawn_pairs(r, range(max(0, groups - 6), groups))))
        commands += [("release", r.randint(0, boxes)) for _ in range(r.randint(0, 12))]
        commands += [("coalesce", r.randint(0, bins), *drawn_join(r)) for _ in range(r.randint(0, 6))]
        commands += [("sweep", bin) for bin in range(bins + 1) if r.random() < 0.25]
        commands += [(name, bin) for bin in range(bins + 1) for name in ("sections", "stats")]
    return commands


def lines_of(command: Command) -> list[str]:
    """The lines for a command. Each has one answer, of which those before the last are that it is done."""
    name, *rest = command
    if name == "bin":
        return [bin_line(*rest)]
    if name == "pack":
        return [*rect_lines(rest[0]), *exclude_lines(rest[1]), "pack"]
    if name == "coalesce":
        bin, index, start, end = rest
        return [f"coalesce b{bin:04} {index} {start} {end}"]
    return [f"{name} {rest[0]}" if name == "release" else f"{name} b{rest[0]:04}"]


class BySession:
    """Answers commands by a session, in the words of packrun. Boxes that are refused stay for the next packing, as there, and
    so do pairs."""

    def __init__(self, session: Session[int]) -> None:
        self.session = session
        self.boxes: list[Drawn] = []
        self.pairs: Pairs = []

    def answer(self, command: Command) -> list[str]:
        name, *rest = command
        try:
            answer: list[str] = getattr(self, name)(*rest)
            return answer
        except rectangle_pack.DuplicateBin:
            return [f"refused: bin b{rest[0]:04} exists"]
        except rectangle_pack.UnknownBin:
            return [f"refused: bin b{rest[0]:04} is unknown"]
        except rectangle_pack.UnknownPlacement:
            return [f"refused: placement {rest[0]} is unknown"]
        except rectangle_pack.NotEnoughBinSpace as error:
            return [f"refused: {error}"]

    def bin(self, bin: int, w: int, h: int, d: int) -> list[str]:
        self.session.add_bin(bin, w, h, d)
        return ["ok"]

    def pack(self, boxes: list[Drawn], pairs: Pairs) -> list[str]:
        self.boxes += boxes
        self.pairs += pairs
        named = {name: Box(*size) for name, size, _ in self.boxes}
        groups = groups_of((group, name) for name, _, groups in self.boxes for group in groups)
        packing = self.session.pack(named, groups=with_all(groups, self.pairs), exclude=self.pairs)
        self.boxes, self.pairs = [], []
        rows = sorted((it.number, it) for it in packing)
        lines = (f"{number} r{it.name:06} b{it.bin:04} {' '.join(map(str, it.section))}" for number, it in rows)
        return [*lines, f"packed {len(packing)}"]

    def release(self, number: int) -> list[str]:
        self.session.release(number)
        return ["ok"]

    def coalesce(self, bin: int, index: int, start: int, end: int) -> list[str]:
        self.session.coalesce(bin, index, start, end)
        return ["ok"]

    def sections(self, bin: int) -> list[str]:
        free = self.session.free_sections(bin)
        return [*(" ".join(map(str, it)) for it in free), f"sections {len(free)}"]

    def sweep(self, bin: int) -> list[str]:
        self.session.coalesce_all(bin)
        return ["ok"]

    def stats(self, bin: int) -> list[str]:
        it = self.session.stats(bin)
        free, placed = f"free {it.free_volume} in {it.free_sections}", f"placed {it.placed_volume} in {it.placements}"
        return [f"{free}, {placed}, bin {it.bin_volume}"]


def compare_packings(runs: int, r: Random) -> None:
    done = refused = 0
    for run in range(runs):
        bins, boxes, groups = drawn(r)
        boxes, pairs = renamed(boxes, drawn_pairs(r, groups))
        called, printed = by_call(bins, boxes, pairs), by_packrun(bins, boxes, pairs)
        if called != printed:
            sys.exit(f"run {run}: {bins} {boxes} {pairs}\nthe call: {called}\npackrun: {printed}")
        if called is None:
            refused += 1
        else:
            done += 1
    print(f"{runs} runs alike: {done} done, {refused} refused")


def compare_session(commands: list[Command], counts: collections.Counter[tuple[str, str]]) -> None:
    """Runs the commands by both, and counts them by how they are answered."""
    lines = [line for command in commands for line in lines_of(command)]
    printed = iter(packrun(lines))
    with Session[int]() as session:
        by_session = BySession(session)
        for command in commands:
            called = ["ok"] * (len(lines_of(command)) - 1) + by_session.answer(command)
            answer = [next(printed, None) for _ in called]
            if called != answer:
                sys.exit(f"{lines}\n{command}\nthe call: {called}\npackrun: {answer}")
            counts[command[0], "refused" if "refused" in called[-1] else "done"] += 1
    if next(printed, None) is not None:
        sys.exit(f"{lines}\npackrun prints more")


def compare_sessions(runs: int, calls: int, r: Random) -> None:
    """So many sessions, or as many as it takes for so many calls."""
    counts: collections.Counter[tuple[str, str]] = collections.Counter()
    sessions, start = 0, time.monotonic()
    while sum(counts.values()) < calls if calls else sessions < runs:
        compare_session(drawn_session(r), counts)
        sessions += 1
    said = ", ".join(f"{name} {count} {how}" for (name, how), count in sorted(counts.items()))
    print(f"{sessions} sessions of {sum(counts.values())} calls alike, in {time.monotonic() - start:.0f} s: {said}")


def main() -> None:
    parser = argparse.ArgumentParser(description=__doc__)
    parser.add_argument("runs", type=int, nargs="?", default=300)
    parser.add_argument("--calls", type=int, help="so many calls over sessions, and no packings without one")
    options = parser.parse_args()
    if not options.calls:
        compare_packings(options.runs, random.Random(20))
    compare_sessions(options.runs, options.calls, random.Random(21))


if __name__ == "__main__":
    main()
