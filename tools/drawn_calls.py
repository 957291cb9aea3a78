"""Lines as crates/session_lines has them, drawn: sessions in which boxes come and go, and packings into bins of one call."""
from __future__ import annotations

import random
from collections.abc import Callable

from answers_in_c import Line

# In place of the number of a heuristic: the best of all, and none.
BEST, NO_HEURISTIC = 0xFFFF, 8
HEURISTICS = range(8)
COMMANDS = 40
# A search that has as many bins as are needed ends early only after more tries.
FEW_TRIES = 30
GREATEST = 2**32 - 1


class Drawn:
    """Lines, and what was drawn of the next call."""

    def __init__(self, r: random.Random) -> None:
        self.r = r
        self.lines: list[Line] = []
        self.depth = self.r.choice([1, 1, 8])
        self.bins = 0
        # The groups of the boxes and members of the next call.
        self.groups: list[int] = []

    def add(self, word: str, *numbers: int) -> None:
        self.lines.append((word, numbers))

    def sides(self, low: int, high: int) -> tuple[int, int, int]:
        depth = 1 if self.depth == 1 else self.r.randint(low * self.depth // 30, self.depth)
        return self.r.randint(low, high), self.r.randint(low, high), depth

    def bin(self) -> None:
        self.add("bin", *self.sides(12, 30))

    def known(self) -> int:
        """The id of a bin that is there, or was."""
        return self.r.randrange(max(self.bins, 1))

    def boxes(self, most: int, low: int, high: int) -> list[int]:
        """Boxes, members behind them, and groups that are excluded. For each entry, which box it is."""
        boxes = [*range(self.r.randint(0, most))]
        self.groups = [self.r.choice([0, 0, 1, 2, 3]) for _ in boxes]
        for group in self.groups:
            self.add("box", *self.sides(low, high), group)
        members = [self.r.choice(boxes) for _ in range(self.r.randint(0, 2) if boxes else 0)]
        for box in members:
            self.groups.append(self.r.randint(0, 4))
            self.add("member", box, self.groups[-1])
        for _ in range(self.r.randint(0, 2)):
            self.add("exclude", *self.r.sample(range(1, 5), 2))
        return boxes + members

    def turned(self, entries: list[int]) -> None:
        """How some boxes may be turned, and the members that are made of them."""
        about = [[int(self.r.random() < 0.2) for _ in range(3)] for _ in entries]
        for entry, box in enumerate(entries):
            if any(about[box]):
                self.add("turn", entry, *about[box])

    def pack(self) -> None:
        self.boxes(6, 1, 12)
        self.add("pack", self.r.choice([*HEURISTICS, BEST]))

    def fitting(self) -> None:
        """Of more boxes than most bins have room for."""
        self.boxes(9, 2, 16)
        self.add("fitting", self.r.choice([*HEURISTICS, BEST]))

    def told(self) -> None:
        """Steps for one entry after another, of which a group may have several; at times into no bin that is there."""
        self.boxes(6, 1, 12)
        first = self.r.randrange(max(len(self.groups), 1))
        for entry in [*range(first, len(self.groups)), *range(first)][: self.r.randint(0, 5)]:
            group, bin = self.groups[entry], self.bins + 1 if self.r.random() < 0.03 else self.known()
            self.add("step", group, 0 if group else entry, bin, self.r.choice(HEURISTICS))
        self.add("told")

    def search(self) -> None:
        """At times a bin is said to cost 1, as each does. A search in bins that are said to cost makes all tries, so there are few."""
        self.turned(self.boxes(10, 3, 15))
        tries = self.r.randint(0, self.r.choice([8, 30, 30, 300]))
        if tries <= FEW_TRIES and self.r.random() < 0.3:
            self.add("cost", self.known(), 1)
        self.add("search", tries, self.r.randrange(2**16), self.r.randint(0, 1))

    def least(self) -> None:
        self.turned(self.boxes(10, 3, 15))
        self.add("least")


class DrawnOnce(Drawn):
    """One packing, or one bound, of bins that have no boxes."""

    def __init__(self, r: random.Random) -> None:
        super().__init__(r)
        self.bins = r.choice([0, 1, 1, 2, 2, 3, 4])
        for _ in range(self.bins):
            self.bin()
        draw: Callable[[], None] = r.choice([self.pack, self.fitting, self.told, self.search, self.search, self.least])
        draw()
        self.add("placed")


class DrawnSession(Drawn):
    """A session of all that is done to one."""

    def __init__(self, r: random.Random) -> None:
        super().__init__(r)
        self.bins = r.randint(1, 4)
        # How many boxes were given numbers, if all were packed.
        self.packed = 0
        for _ in range(self.bins):
            self.bin()
        for draw in r.choices([*self.draws()], [*self.draws().values()], k=COMMANDS):
            draw()
        for bin in range(self.bins):
            self.add("plan", bin)
            self.add("placed_in", bin)
            self.add("free", bin)
        self.add("placed")

    def draws(self) -> dict[Callable[[], None], int]:
        return {
            self.pack: 8, self.fitting: 6, self.told: 6, self.search: 5, self.least: 3, self.place: 6, self.fit: 8, self.release: 14,
            self.releases: 4, self.join: 6, self.sweep: 2, self.plan: 8, self.free: 8, self.recut: 4, self.grow: 3, self.clear: 2,
            self.remove: 2,
        }

    def boxes(self, most: int, low: int, high: int) -> list[int]:
        entries = super().boxes(most, low, high)
        self.packed += len(entries)
        return entries

    def place(self) -> None:
        """A small box, which may have no cells, at a corner near that of the bin."""
        self.add("box", *self.sides(0, 6), 0)
        self.add("place", self.known(), self.r.randint(0, 14), self.r.randint(0, 14), self.r.choice([0, 0, 0, 1, 2]))
        self.packed += 1

    def fit(self) -> None:
        """A small box, in one bin or in any, by a heuristic or by what is none."""
        self.add("box", *self.sides(0, 12), self.r.choice([0, 1]))
        heuristic = self.r.choice([*HEURISTICS, NO_HEURISTIC, BEST])
        if self.r.random() < 0.5:
            self.add("fit", self.r.randint(0, self.bins), heuristic)
        else:
            self.add("find", heuristic)
        self.packed += 1

    def release(self) -> None:
        self.add("release", self.r.randint(0, self.packed))

    def releases(self) -> None:
        """Mostly of numbers of which one is not outstanding, if there are several."""
        for number in self.r.choices(range(self.packed + 1), k=self.r.choice([0, 1, 1, 2, 2, 3])):
            self.add("number", number)
        self.add("releases")

    def join(self) -> None:
        low = self.r.randint(0, 6)
        self.add("join", self.r.randint(0, self.bins), self.r.randint(0, 8), low, low + self.r.randint(0, 8))

    def sweep(self) -> None:
        self.add("sweep", self.r.randint(0, self.bins))

    def plan(self) -> None:
        self.add("plan", self.known())

    def free(self) -> None:
        self.add("free", self.r.randint(0, self.bins))

    def recut(self) -> None:
        self.add("recut", self.r.randint(0, self.bins))

    def grow(self) -> None:
        """By some cells or far too much, on one of the axes or on what is none."""
        axis = self.r.choices(range(4), [4, 4, 2, 1])[0]
        self.add("grow", self.known(), axis, self.r.choice([*range(8), GREATEST]))

    def clear(self) -> None:
        self.add("clear", self.r.randint(0, self.bins))

    def remove(self) -> None:
        """A bin, which most often is cleared before and has another in its place."""
        bin = self.known()
        if self.r.random() < 0.7:
            self.add("clear", bin)
        self.add("remove", bin)
        if self.r.random() < 0.7:
            self.bin()
