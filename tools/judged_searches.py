#!/usr/bin/env python3
"""judged_searches.py [RUNS] [--first SEED]: searches by the library for C, in bins that cost, judged by the rules.

crates/session_lines has no line for what a bin costs, so that tools/c_beside_library.py does not compare such searches. RUNS sessions are
drawn (100 if left out), from this seed on (0): searches in one call and in pieces, of boxes in several groups, that may be turned, of which
some may be left; between them packings of what fits and as told, and releases; and searches in bins of one call. What is found is judged
as search_judge.py says it. All else is compared with the rule, as packing_model.py says it."""
from __future__ import annotations

import argparse
import random
import sys
from collections import Counter
from collections.abc import Callable, Sequence
from typing import Any

from answers_in_c import corner, sides
from asked_in_c import Asked, c, listed
from c_beside_library import as_compared
from once_in_c import LEFT_BIN
from packing_model import HEURISTICS, Bin, Box, Placement, Step, volume, what_fits
from search_judge import Case, Row, Said, beside_heuristics, faults, is_better, do_share
from searches_in_c import IN_SESSION, NO_PACKING, ONCE, Calls, Found, Search, find
from session_in_c import LEFT_NUMBER, InSession
from what_fits import Session

BEST = 0xFFFF
COMMANDS = 12


class Wrong(Exception):
    """What is wrong with an answer."""


def section(it: Any) -> Box:
    """Where a box stands, or a free section."""
    (x, y, z), (width, height, depth) = corner(it), sides(it)
    return Box((x, y, z), (width, height, depth))


def rows_of(calls: Calls, found: Found) -> list[Row]:
    """Where each entry stands, or that it is left."""
    left = [it.bin == LEFT_BIN if calls is ONCE else it.number == LEFT_NUMBER for it in found.places]
    return [None if gone else Placement(entry, it.bin, section(it.section)) for entry, (it, gone) in enumerate(zip(found.places, left))]


def said_of(found: Found) -> Said:
    said = found.said
    needed = None if said.least == NO_PACKING else said.least
    return Said(said.left, said.used, needed, bool(said.is_optimal), said.tries)


class Drawn:
    """A session by the rule and by the library for C, which obey the same lines, and searches by the library alone."""

    def __init__(self, seed: int) -> None:
        self.r = random.Random(seed)
        self.rule, self.in_c = Session(), InSession(seed)
        self.kinds: Counter[str] = Counter()
        self.depth = self.r.choice([1, 1, 5])
        for _ in range(self.r.randint(1, 4)):
            self.say("bin", *self.size(6, 14))
        self.search(ONCE)
        draws: dict[Callable[[], None], int] = {
            self.search: 5, self.fitting: 2, self.told: 2, self.packing: 1, self.releases: 4, self.clear: 1}
        for draw in self.r.choices([*draws], [*draws.values()], k=COMMANDS):
            draw()
        self.in_c.close()

    def say(self, word: str, *numbers: int) -> None:
        """Both obey the line, and answer alike."""
        said, right = self.in_c.obey(word, numbers), getattr(self.rule, word)(*numbers)
        if right is None:
            return
        self.kinds["answers as by the rule"] += 1
        if said != as_compared(word, right):
            raise Wrong(f"{word}: {said}, by the rule {right}")

    def look(self) -> None:
        """Compares all placements and free sections."""
        self.say("placed")
        for bin in [*self.rule.bins]:
            self.say("placed_in", bin)
            self.say("free", bin)

    def size(self, low: int, high: int) -> tuple[int, int, int]:
        """A size, at times without cells."""
        width = 0 if self.r.random() < 0.01 else self.r.randint(low, high)
        return width, self.r.randint(low, high), self.r.randint(1, self.depth)

    def bin(self) -> int:
        bin: int = self.r.choice([*self.rule.bins])
        return bin

    def boxes(self) -> None:
        """Boxes alone and in groups, some in two, and groups that are excluded."""
        count, most = self.r.randint(0, 10), self.r.choice([5, 8, 11])
        for _ in range(count):
            self.say("box", *self.size(1, most), self.r.choice([0, 0, 0, 1, 2, 3]))
        for _ in range(self.r.randint(0, 2) if count else 0):
            self.say("member", self.r.randrange(count), self.r.choice([0, 1, 2, 3, 4]))
        for _ in range(self.r.choice([0, 0, 1, 2, 3])):
            self.say("exclude", *self.r.sample(range(1, 6), 2), 0, 0)

    def packing(self) -> None:
        self.boxes()
        self.say("pack", self.r.choice([*HEURISTICS, BEST]))
        self.look()

    def fitting(self) -> None:
        self.boxes()
        self.say("fitting", self.r.choice([*HEURISTICS, BEST]))
        self.look()

    def steps(self) -> list[Step]:
        """Steps that a packing of what fits makes, in an order that is drawn; one of them changed at times."""
        heuristic = self.r.choice(HEURISTICS)
        homes = what_fits(self.rule.boxes, self.rule.bins, heuristic).homes
        steps = [Step(name, bin, heuristic) for name, bin in homes.items()]
        self.r.shuffle(steps)
        if steps and self.r.random() < 0.5:
            index = self.r.randrange(len(steps))
            steps[index] = steps[index]._replace(bin=self.r.choice([self.bin(), 9]), heuristic=self.r.choice(HEURISTICS))
        return steps

    def told(self) -> None:
        self.boxes()
        for (group, box), bin, heuristic in self.steps():
            self.say("step", group, box, bin, heuristic)
        self.say("told")
        self.look()

    def releases(self) -> None:
        for number in self.r.sample([*self.rule.standing], min(len(self.rule.standing), self.r.randint(0, 6))):
            self.say("number", number)
        self.say("releases")

    def clear(self) -> None:
        self.say("clear", self.bin())

    def turns_and_costs(self, asked: Asked) -> None:
        """How boxes may be turned, and what bins cost. Of several costs of a bin the first counts."""
        for box in range(len(asked.boxes)):
            if self.r.random() < 0.4:
                asked.turns[box] = self.r.choice([4, 4, 1, 2, 3, 5, 6, 7])
        asked.costs += [(self.r.choice([self.bin(), 9]), self.r.choice([0, 1, 2, 5, 2**64 - 1])) for _ in range(self.r.choice([0, 1, 3]))]

    def case(self, asked: Asked, wanted: tuple[int, int, int], standing: Sequence[Placement]) -> Case:
        boxes = len(asked.boxes)
        own = [*range(boxes), *(index for index, _ in asked.members)]
        turns = {entry: frozenset(axis for axis in range(3) if asked.turns.get(box, 0) >> axis & 1) for entry, box in enumerate(own)}
        excluded = [((one, 0), (other, 0)) for one, other, *_ in asked.exclusions]
        return Case(self.rule.boxes, self.rule.bins, standing, excluded, turns, {bin: cost for bin, cost in reversed(asked.costs)}, bool(wanted[2]), wanted[0])

    def search(self, calls: Calls = IN_SESSION) -> None:
        """Judges what is found. In a session the rule goes on from there."""
        self.boxes()
        asked = self.in_c.ends()
        self.turns_and_costs(asked)
        wanted = self.r.choice([5, 30, 200]), self.r.randrange(2**64), self.r.randint(0, 1)
        given = listed(c.RpBin, [it.size for it in self.rule.bins.values()]) if calls is ONCE else (self.in_c.session,)
        found = find(Search(calls, given, asked, wanted), self.r)
        case = self.case(asked, wanted, [*self.rule.standing.values()])
        self.rule.forget()
        self.judge(calls, case, found)
        if calls is IN_SESSION:
            self.take_up(found)

    def judge(self, calls: Calls, case: Case, found: Found) -> None:
        if found.status == c.NOT_ENOUGH_SPACE:
            problems = [*beside_heuristics(case, None), *(["there is no space for what may be left"] if case.may_leave else [])]
            self.kinds["searches without space"] += 1
        else:
            c.check(found.status)
            rows = rows_of(calls, found)
            problems = faults(case, rows, said_of(found))
            self.kinds["searches in a session" if calls is IN_SESSION else "searches in one call"] += 1
            self.kinds["searches that are optimal"] += found.said.is_optimal
            self.kinds["searches that leave some and place some"] += 0 < found.said.left < len(rows)
            self.kinds["searches better than each heuristic"] += not problems and bool(rows) and is_better(case, rows)
            self.kinds["searches with turned boxes"] += any(it.at.size != case.boxes.sizes[it.box] for it in rows if it)
        if problems:
            raise Wrong(problems[0])

    def take_up(self, found: Found) -> None:
        """The rule takes up what stands, and what is then free: together it is each cell once."""
        if found.status == 0:
            before, placed = self.rule.next, [it for it in found.places if it.number != LEFT_NUMBER]
            if sorted(it.number for it in placed) != [*range(before, before + len(placed))]:
                raise Wrong(f"numbers from {before} on: {[it.number for it in placed]}")
            new = {it.number: Placement(it.index, it.bin, section(it.section)) for it in placed}
            self.rule.standing |= dict(sorted(new.items()))
            self.rule.next += len(placed)
        for bin, own in self.rule.bins.items():
            _, sections = self.in_c.read("session_free_sections", c.RpSection, bin)
            free = [section(it) for it in sections]
            full = [it.at for it in self.rule.standing.values() if it.bin == bin]
            if sum(volume(it.size) for it in [*free, *full]) != volume(own.size) or any(do_share(one, it) for one in free for it in full):
                raise Wrong(f"cells of bin {bin} are lost, or in two")
            self.rule.bins[bin] = Bin(own.size, free)
        self.look()


def main() -> int:
    says = argparse.ArgumentParser(description=__doc__, formatter_class=argparse.RawDescriptionHelpFormatter)
    says.add_argument("runs", type=int, nargs="?", default=100)
    says.add_argument("--first", type=int, default=0)
    given = says.parse_args()
    kinds, wrong = Counter[str](), 0
    for seed in range(given.first, given.first + given.runs):
        try:
            kinds += Drawn(seed).kinds
        except Wrong as why:
            wrong += 1
            print(f"seed {seed}: {why}")
    print(f"{given.runs} sessions: {wrong} wrong")
    for kind, count in sorted(kinds.items()):
        print(f"{kind}: {count}")
    return wrong != 0


if __name__ == "__main__":
    sys.exit(main())
