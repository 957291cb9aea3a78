"""Lines for packrun, drawn from a source of random numbers: packings, and releases, joins and looks between them."""
from __future__ import annotations

from collections.abc import Sequence
from random import Random

GREATEST = 2**32 - 1


class Session:
    """The lines of one session as they are drawn, and what they named."""

    def __init__(self, r: Random, side: int) -> None:
        """A session whose sides are drawn up to this one or so."""
        self.r = r
        self.lines: list[str] = []
        # Without depth all depths are 1.
        self.deep = r.random() < 0.4
        # All other sides are so many times what is drawn.
        self.scale = r.choice([1] * 30 + [1000003, GREATEST // (4 * side)])
        self.side = side * self.scale
        self.bins: list[tuple[str, list[int]]] = []
        self.widest = 0
        self.groups: list[str] = []
        self.boxes = 0
        # Entries of the next packing, and the numbers that are outstanding where no packing was refused.
        self.entries = 0
        self.next = 0
        self.numbers: list[int] = []

    def say(self, *words: object) -> None:
        self.lines.append(" ".join(map(str, words)))

    def size(self, low: int, high: int) -> list[int]:
        """Three sides, one of them zero at times."""
        sides = [self.scale * self.r.randint(low, high) for _ in range(3)]
        if not self.deep:
            sides[2] = 1
        if self.r.random() < 0.005:
            sides[self.r.randrange(3)] = 0
        return sides

    def name(self, letter: str, number: int) -> str:
        """A name of its own, long at times."""
        return f"{letter}{'o' * self.r.choice([0] * 9 + [self.r.randint(1, 24)])}{number}"

    def bin(self, size: Sequence[int]) -> None:
        name = self.name("b", len(self.bins))
        size = [min(side, GREATEST) for side in size]
        self.bins.append((name, size))
        self.widest = max(self.widest, size[0])
        self.say("bin", name, *size)

    def large_bin(self) -> None:
        """A bin that is wider than the others and holds much."""
        side = 4 * self.side
        self.bin([max(side, self.widest + self.scale), side, side if self.deep else 1])

    def box(self, size: Sequence[int], groups: Sequence[str] = ()) -> None:
        size = [min(side, GREATEST) for side in size]
        self.say("rect", self.name("r", self.boxes), *size, *groups)
        self.boxes += 1
        self.entries += max(1, len(groups))

    def alone(self, count: int, low: int, high: int) -> None:
        """Boxes in no group."""
        for _ in range(count):
            self.box(self.size(low, high))

    def together(self, count: int, low: int, high: int) -> None:
        """A group, of which some boxes are in another group too."""
        group = self.name("g", len(self.groups))
        for _ in range(count):
            shared = [self.r.choice(self.groups)] if self.groups and self.r.random() < 0.02 else []
            self.box(self.size(low, high), [group, *shared])
        self.groups.append(group)

    def too_wide(self, width: int) -> None:
        """One more box of the last group, at the end of its list."""
        self.box([width, 1, 1], self.groups[-1:])

    def mixed(self, count: int, low: int, high: int) -> None:
        """Boxes alone and in groups, so many in all."""
        while count > 0:
            members = min(count, self.r.choice([1, 1, 2, 3, 5, 12, 30, 80]))
            if self.r.random() < 0.5:
                self.alone(members, low, high)
            else:
                self.together(members, low, high)
            count -= members

    def exclude(self, pairs: int) -> None:
        """Pairs of the last groups."""
        last = self.groups[-8:]
        for _ in range(pairs if len(last) > 1 else 0):
            self.say("exclude", *self.r.sample(last, 2))

    def pack(self, looks: int = 3) -> None:
        """Packs, and asks of some bins how long their lists are before and after."""
        seen = self.r.sample(self.bins, min(looks, len(self.bins)))
        for name, _ in seen:
            self.say("stats", name)
        self.say("pack")
        for name, _ in seen:
            self.say("stats", name)

    def done(self) -> None:
        """Counts on it that the last packing was done."""
        self.numbers += range(self.next, self.next + self.entries)
        self.next += self.entries
        self.entries = 0

    def pack_at_last(self) -> None:
        """Packs, mostly once more with a large bin, which has room after a refusal."""
        self.pack()
        if self.r.random() < 0.3:
            self.large_bin()
            self.pack()
        self.done()

    def refuse(self) -> None:
        """A packing in which one box, the last by volume, goes into no bin, and after it one with a bin for it."""
        self.box([self.widest + self.scale, 1, 1])
        self.pack()
        self.look(2)
        self.large_bin()
        self.pack()
        self.done()

    def refuse_excluded(self, low: int, high: int) -> None:
        """A packing of groups that exclude each other, one more of them than bins, and after it one with a bin for it."""
        first = len(self.groups)
        for _ in range(len(self.bins) + 1):
            self.together(self.r.choice([1, 2, 9]), low, high)
        for n, one in enumerate(self.groups[first:]):
            for other in self.groups[first : first + n]:
                self.say("exclude", one, other)
        self.pack()
        self.look(2)
        self.large_bin()
        self.pack()
        self.done()

    def release(self, count: int) -> None:
        """Gives boxes back: the oldest ones, the newest or any. Few numbers are unknown."""
        self.numbers.sort()
        order = self.r.choice(["oldest", "newest", "any", "any"])
        for _ in range(min(count, len(self.numbers))):
            last = len(self.numbers) - 1
            at = {"oldest": 0, "newest": last}.get(order, self.r.randint(0, last))
            number = self.numbers.pop(at)
            self.say("release", number if self.r.random() < 0.99 else self.next)

    def join(self, count: int, length: int) -> None:
        """Joins one section of a bin with some others, so many times, where its list has so many sections or so."""
        name, _ = self.r.choice(self.bins)
        self.say("stats", name)
        for _ in range(count):
            low = self.r.randint(0, length)
            high = low + self.r.choice([0, 1, 10, length])
            self.say("coalesce", name, self.r.randint(0, length), low, high)
        self.say("stats", name)

    def sweep(self) -> None:
        name, _ = self.r.choice(self.bins)
        self.say("stats", name)
        self.say("sweep", name)
        self.say("stats", name)

    def look(self, most: int) -> None:
        """Lists what is free in so many bins."""
        for name, _ in self.r.sample(self.bins, min(most, len(self.bins))):
            self.say("sections", name)
            self.say("stats", name)

    def err(self) -> None:
        """A line that is refused."""
        unknown = [("sections", "none"), ("stats", "none"), ("sweep", "none"), ("coalesce", "none", 0, 0, 1)]
        self.say(*self.r.choice([("bin", self.bins[0][0], 1, 1, 1), ("release", 2**64 - 1), *unknown]))

    def between(self, releases: int, length: int) -> None:
        """What is done between two packings: releases and joins, in lists of so many sections or so."""
        self.release(self.r.randint(0, releases))
        if self.r.random() < 0.4:
            self.join(self.r.randint(1, 5), length)
        if self.r.random() < 0.2:
            self.sweep()
        if self.r.random() < 0.1:
            self.err()
        if self.r.random() < 0.2:
            self.look(2)

    def end(self) -> list[str]:
        """A last look, and at times a bad line."""
        self.look(20)
        if self.r.random() < 0.03:
            bad = ["rect r", f"bin b 1 1 {GREATEST + 1}", "release -1", "exclude g g", "pack all", "put"]
            self.say(self.r.choice(bad))
        return self.lines


def few(r: Random) -> list[str]:
    """Few boxes, many of them large beside their bins."""
    side = 64
    s = Session(r, side)
    for _ in range(r.randint(1, 5)):
        s.bin(s.size(1, side))
    for _ in range(r.randint(1, 5)):
        most = max(1, side // r.choice([1, 2, 3, 5, 8]))
        s.mixed(r.randint(0, 14), 1, most)
        if r.random() < 0.1:
            s.box(r.choice(s.bins)[1])
        if r.random() < 0.3:
            s.exclude(r.randint(1, 6))
        s.pack_at_last()
        s.between(12, 10)
        if r.random() < 0.05:
            s.refuse()
        if r.random() < 0.05:
            s.refuse_excluded(1, most)
        if r.random() < 0.2:
            s.bin(s.size(1, side) if r.random() < 0.8 else r.choice(s.bins)[1])
    return s.end()


def some(r: Random) -> list[str]:
    """Some hundred boxes, in a few bins."""
    side = 256
    s = Session(r, side)
    for _ in range(r.randint(1, 6)):
        s.bin(s.size(side // 4, side))
    for _ in range(r.randint(1, 4)):
        most = side // r.choice([3, 6, 10, 20])
        s.mixed(r.randint(10, 150), 1, most)
        if r.random() < 0.3:
            s.exclude(r.randint(1, 12))
        s.pack_at_last()
        s.between(80, 100)
        if r.random() < 0.1:
            s.refuse()
        if r.random() < 0.1:
            s.refuse_excluded(1, most)
        if r.random() < 0.3:
            s.bin(s.size(side // 4, side))
    return s.end()


def many_bins(r: Random) -> list[str]:
    """Some hundred small bins, and boxes that are large beside them."""
    side = 64
    s = Session(r, side)
    for _ in range(r.randint(100, 600)):
        s.bin(s.size(side // 2, side))
    for _ in range(r.randint(1, 3)):
        s.mixed(r.randint(20, 300), 1, side // r.choice([2, 3, 5]))
        if r.random() < 0.5:
            s.exclude(12)
        s.pack_at_last()
        s.between(50, 5)
        if r.random() < 0.3:
            s.refuse()
    return s.end()


def goes_on(s: Session, sections: int, most: int) -> None:
    """Packings into a bin that has so many free sections or so, of few boxes and of many beside them."""
    r = s.r
    for _ in range(r.randint(2, 5)):
        few_beside = sections // 16
        count = max(1, r.choice([1, 5, few_beside, few_beside + r.randint(-3, 3), 2 * few_beside, 5 * few_beside]))
        if r.random() < 0.3:
            s.together(count, 1, most)
            if r.random() < 0.5:
                s.too_wide(s.widest)
        else:
            s.mixed(count, 1, most)
        if r.random() < 0.2:
            s.exclude(r.randint(1, 6))
        s.pack_at_last()
        if r.random() < 0.2:
            s.refuse()
        if r.random() < 0.1:
            s.refuse_excluded(1, most)
        s.between(r.choice([3, 30, sections // 4]), sections)


def row(r: Random) -> list[str]:
    """A bin that a row of boxes fills, most of which are given back: a list of a known length."""
    released = r.choice([r.randint(940, 1080), r.randint(1000, 2500), r.randint(4000, 6000)])
    s = Session(r, 6 * released)
    widths = [s.scale * r.randint(1, 6) for _ in range(released + r.randint(0, 300))]
    high, deep = s.scale * r.randint(1, 12), s.scale * r.randint(1, 12) if s.deep else 1
    s.bin([sum(widths), high, deep])
    group = ["g"] if r.random() < 0.3 else []
    for width in widths:
        s.box([width, high, deep], group)
    s.pack()
    s.done()
    s.release(released)
    if r.random() < 0.5:
        # Some of these fill a section, so that the list becomes shorter.
        for width in r.choices(widths, k=r.randint(1, released // 2)):
            s.box([width, high, deep])
        s.pack_at_last()
    goes_on(s, released, r.choice([2, 4, 8]))
    return s.end()


def long_list(r: Random) -> list[str]:
    """A packing of thousands of boxes, and others after it."""
    count = r.choice([r.randint(1200, 3000), r.randint(3000, 8000), r.randint(8000, 12000)])
    most = r.choice([8, 24, 64])
    s = Session(r, 2 * int(count**0.5) * most)
    side = int((most + 4) * (count ** (1 / 3) * 0.8 if s.deep else count**0.5 * 0.9))
    if r.random() < 0.3:
        s.bin(s.size(side // 4, side // 2))
    s.bin(s.size(side, side + side // 3))
    if r.random() < 0.3:
        s.bin(s.size(side, 2 * side))
    if r.random() < 0.5:
        s.alone(count, 1, most)
    else:
        s.mixed(count, 1, most)
    if r.random() < 0.2:
        s.refuse()
    s.pack_at_last()
    if r.random() < 0.5:
        s.release(r.randint(0, count // 2))
    goes_on(s, count // 2, most)
    return s.end()


def large_group(r: Random) -> list[str]:
    """A group of many boxes in no order, which is stuck at times in some bins after all but one of them."""
    count, most = r.choice([r.randint(300, 1500), r.randint(1500, 6000)]), 40
    s = Session(r, 200 * int(count**0.5))
    side = int(most * (3 * count ** (1 / 3) if s.deep else 3 * count**0.5))
    for _ in range(r.randint(1, 3)):
        s.bin(s.size(side, side + 9))
    if r.random() < 0.5:
        s.mixed(r.randint(1, 1500), 1, most)
        s.pack_at_last()
    s.together(count, 1, most)
    if r.random() < 0.6:
        s.too_wide(s.widest + s.scale)
        if r.random() < 0.7:
            s.large_bin()
    s.mixed(r.randint(0, 50), 1, most)
    s.pack_at_last()
    goes_on(s, count // 2, most)
    return s.end()


KINDS = [few] * 58 + [some] * 22 + [many_bins] * 3 + [row] * 7 + [long_list] * 6 + [large_group] * 4


def drawn(r: Random) -> list[str]:
    """The lines of a session of some kind."""
    return r.choice(KINDS)(r)
