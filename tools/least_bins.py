#!/usr/bin/env python3
"""least_bins.py [RUNS] [--first SEED] [--program PATH] [--together N]: how many bins boxes need, by the library and by the rule.

Draws RUNS jobs (1000 if left out), from this seed on (0): bins of one size or of several, boxes in groups, of which some are excluded, boxes
that may be turned about some axes, boxes without cells and boxes that fit no bin. Each is answered by the program crates/session_lines,
proved and built where it is not yet, or by the one at PATH, and by the rule as bounds_model.py says it; by one run of the program N jobs at a
time (50). Every answer is compared. Where bins and boxes are small, every arrangement is tried too: none uses fewer bins than the answer."""
from __future__ import annotations

import argparse
import random
import sys
from collections import Counter
from collections.abc import Sequence
from pathlib import Path
from typing import Optional

from bounds_model import Box, Job, fewest, least
from packing_model import Name, Three
from what_fits import built, by_program, named, words


class Drawn:
    """The lines of a job, and the job."""

    def __init__(self, seed: int) -> None:
        self.r = random.Random(seed)
        self.job = Job()
        self.lines: list[str] = []
        self.is_small = self.r.random() < 0.5
        self.depth = self.r.choice([1, 1, 2] if self.is_small else [1, 1, 12])
        # All sides are so many times what is drawn.
        self.scale = 1 if self.is_small else self.r.choice([1] * 10 + [1_000_003, 200_000_000])
        self.bins()
        self.boxes()
        self.exclusions()
        self.lines.append("least")

    def say(self, word: str, *numbers: int) -> None:
        self.lines.append(words([word, *numbers]))

    def size(self, most: int, least: int = 1) -> Three:
        """A size, at times without cells."""
        width, height, depth = (self.scale * self.r.randint(min(least, top), top) for top in (most, most, self.depth))
        return (0, height, depth) if self.r.random() < 0.02 else (width, height, depth)

    def bins(self) -> None:
        count = self.r.choice([0, 1, 2, 3, 3, 4, 4, 4] if self.is_small else [1, 3, 6, 12, 20, 30])
        most = 3 if self.is_small else 20
        one, equal = self.size(most, most - 1), self.r.random() < 0.6
        for _ in range(count):
            size = one if equal or self.r.random() < 0.4 else self.size(most, most // 2)
            self.job.bins.append(size)
            self.say("bin", *size)

    def boxes(self) -> None:
        count = self.r.randint(0, 5) if self.is_small else self.r.randint(0, 25)
        most = self.r.choice([2, 2, 3] if self.is_small else [6, 12, 15, 19])
        for id in range(count):
            size, group = self.size(most), self.r.choice([0, 0, 0, 1, 2])
            turns = frozenset(axis for axis in range(3) if self.r.random() < 0.15)
            self.job.boxes.append(Box(size, turns))
            self.say("box", *size, group)
            if turns:
                self.say("turn", id, *(int(axis in turns) for axis in range(3)))
            self.job.groups.setdefault(named(group, id), []).append(id)

    def exclusions(self) -> None:
        names = sorted(self.job.groups)
        for _ in range(self.r.choice([0, 0, 2, 6]) if len(names) > 1 else 0):
            one, other = self.r.sample([*names, (9, 0)], 2)
            self.job.exclude(one, other)
            self.say("exclude", one[0], other[0], one[1], other[1])


def shown(answer: Optional[int]) -> str:
    return "-1" if answer is None else str(answer)


def fault(drawn: Drawn, said: str, kinds: Counter[str]) -> str:
    """What is wrong with the answer; nothing where it is right."""
    expected = least(drawn.job)
    kinds["no arrangement is possible" if expected is None else "a bound"] += 1
    if said != shown(expected):
        return f"{said} is said, {shown(expected)} by the rule"
    if not drawn.is_small:
        return ""
    true = fewest(drawn.job)
    kinds["all arrangements tried"] += 1
    if true is not None:
        kinds["the bound is met" if expected == true else "the bound is below the fewest"] += 1
        if expected is None or true < expected:
            return f"{said} is said, but {true} suffice"
    return ""


def main() -> int:
    says = argparse.ArgumentParser(description=__doc__, formatter_class=argparse.RawDescriptionHelpFormatter)
    says.add_argument("runs", type=int, nargs="?", default=1000)
    says.add_argument("--first", type=int, default=0)
    says.add_argument("--program", type=Path)
    says.add_argument("--together", type=int, default=50)
    given = says.parse_args()
    program = given.program or built()
    kinds, wrong = Counter[str](), 0
    seeds: Sequence[int] = range(given.first, given.first + given.runs)
    for first in range(0, given.runs, given.together):
        some = seeds[first : first + given.together]
        drawn = [Drawn(seed) for seed in some]
        answers = by_program(program, "".join(f"{line}\n" for it in drawn for line in ["again", *it.lines]))
        answers = [line for line, asked in zip(answers, (it for job in drawn for it in job.lines if it == "least" or it[:4] == "bin ")) if asked == "least"]
        for seed, it, said in zip(some, drawn, answers):
            problem = fault(it, said, kinds)
            if problem:
                wrong += 1
                print(f"seed {seed}: {problem}")
        wrong += abs(len(drawn) - len(answers))
    print(f"{given.runs} jobs: {wrong} wrong")
    for kind, count in sorted(kinds.items()):
        print(f"{kind}: {count}")
    return wrong != 0


if __name__ == "__main__":
    sys.exit(main())
