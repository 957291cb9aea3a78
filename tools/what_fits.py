#!/usr/bin/env python3
"""what_fits.py [RUNS] [--first SEED] [--program PATH] [--together N]: what fits, and packings as they are told, by the library and by
the rule.

Draws RUNS sessions (200 if left out), from this seed on (0): packings of what fits and of all, by each heuristic and by the best of all,
of boxes in several groups, of which some are excluded; packings as they are told, by steps that a packing would make and by others; boxes
without cells, and large ones; lists of more than a thousand free sections; releases and clears between them. Each is obeyed by the program
crates/session_lines, proved and built where it is not yet, or by the one at PATH, and by the rule as packing_model.py says it; by one run
of the program N sessions at a time (50). Every answer is compared, with the placements and the free sections after it."""
from __future__ import annotations

import argparse
import itertools
import random
import subprocess
import sys
from collections import Counter
from collections.abc import Iterable, Sequence
from pathlib import Path

from packing_model import HEURISTICS, Bin, Bins, Box, Collection, Name, Packing, Placement, Refused, Step, Three
from packing_model import as_told, best_fit, best_of_all, volume, what_fits

TOP = Path(__file__).resolve().parent.parent
BEST = 8
COMMANDS = 20


def words(numbers: Iterable[object]) -> str:
    return " ".join(map(str, numbers))


class Session:
    """A session by the rule, which obeys lines as crates/session_lines does."""

    def __init__(self) -> None:
        self.bins: Bins = {}
        self.standing: dict[int, Placement] = {}
        self.next = 0
        self.numbers: list[int] = []
        self.forget()

    def forget(self) -> None:
        self.boxes = Collection()
        self.steps: list[Step] = []

    # Lines that tell of the next packing or release.

    def box(self, width: int, height: int, depth: int, group: int) -> None:
        self.boxes.sizes.append((width, height, depth))
        self.boxes.push(len(self.boxes.sizes) - 1, group)

    def member(self, box: int, group: int) -> None:
        self.box(*self.boxes.sizes[box], group)

    def also(self, box: int, group: int) -> None:
        self.boxes.push(box, group)

    def exclude(self, one: int, other: int, box: int, other_box: int) -> None:
        self.boxes.excluded.add(frozenset((named(one, box), named(other, other_box))))

    def step(self, group: int, box: int, bin: int, heuristic: int) -> None:
        self.steps.append(Step(named(group, box), bin, heuristic))

    def number(self, number: int) -> None:
        self.numbers.append(number)

    # Lines that are answered.

    def bin(self, width: int, height: int, depth: int) -> str:
        id = next(id for id in itertools.count() if id not in self.bins)
        self.bins[id] = Bin.new((width, height, depth))
        return str(id)

    def keep(self, packing: Packing) -> tuple[int, int]:
        """The number of the first placement, and how many there are."""
        first, count = self.next, len(packing.placements)
        self.bins, self.next = packing.bins, first + count
        self.standing |= zip(range(first, self.next), packing.placements)
        self.forget()
        return first, count

    def pack(self, heuristic: int) -> str:
        found = best_of_all(self.boxes, self.bins, chosen(heuristic))
        if found is None:
            self.forget()
            return "-1"
        self.keep(found[1])
        return str(found[0])

    def fitting(self, heuristic: int) -> str:
        best, packing = best_fit(self.boxes, self.bins, chosen(heuristic))
        return words([best, *self.keep(packing), *itertools.chain(*packing.left)])

    def told(self) -> str:
        packing = as_told(self.boxes, self.bins, self.steps)
        if isinstance(packing, Refused):
            self.forget()
            return words([-1, *packing])
        return words(self.keep(packing))

    def release(self, number: int) -> str:
        placed = self.standing.pop(number, None)
        if placed and volume(placed.at.size):
            self.bins[placed.bin].sections.append(placed.at)
        return str(int(placed is not None))

    def releases(self) -> str:
        numbers, self.numbers = self.numbers, []
        done = len({*numbers}) == len(numbers) and {*numbers} <= {*self.standing}
        for number in numbers if done else []:
            self.release(number)
        return str(int(done))

    def clear(self, bin: int) -> str:
        if bin not in self.bins:
            return "0"
        self.bins[bin] = Bin.new(self.bins[bin].size)
        self.standing = {number: placed for number, placed in self.standing.items() if placed.bin != bin}
        return "1"

    def remove(self, bin: int) -> str:
        done = bin in self.bins and all(placed.bin != bin for placed in self.standing.values())
        if done:
            del self.bins[bin]
        return str(int(done))

    def shown(self, bins: Iterable[int]) -> str:
        rows = ((number, it.box, it.bin, *it.at.corner) for number, it in self.standing.items() if it.bin in bins)
        return words(itertools.chain(*rows))

    def placed(self) -> str:
        return self.shown(self.bins)

    def placed_in(self, bin: int) -> str:
        return self.shown([bin]) if bin in self.bins else "-1"

    def free(self, bin: int) -> str:
        sections: list[Box] = self.bins[bin].sections if bin in self.bins else []
        return words(itertools.chain(*(corner + size for corner, size in sections)))


def named(group: int, box: int) -> Name:
    return (group, 0) if group else (0, box)


def chosen(heuristic: int) -> Sequence[int]:
    return [heuristic] if heuristic in HEURISTICS else HEURISTICS


class Drawn:
    """The lines of a session, and what the rule answers to them."""

    def __init__(self, seed: int) -> None:
        self.r = random.Random(seed)
        self.session = Session()
        self.lines: list[str] = []
        self.answers: list[str] = []
        self.kinds: Counter[str] = Counter()
        self.depth = self.r.choice([1, 1, 6])
        # All sides are so many times what is drawn.
        self.scale = self.r.choice([1] * 20 + [1_000_003, 300_000_000])
        for _ in range(self.r.randint(1, 4)):
            self.bin()
        if self.r.random() < 0.01:
            self.long_list()
        draws = {self.fitting: 8, self.told: 10, self.packing: 2, self.release: 6, self.releases: 2, self.clear: 1, self.remove: 1}
        for draw in self.r.choices([*draws], [*draws.values()], k=COMMANDS):
            draw()

    def say(self, word: str, *numbers: int) -> str:
        """Adds a line, and its answer where there is one."""
        self.lines.append(words([word, *numbers]))
        answer: str | None = getattr(self.session, word)(*numbers)
        if answer is not None:
            self.answers.append(answer)
        return answer or ""

    def look(self) -> None:
        """Shows all placements and free sections."""
        self.say("placed")
        for bin in range(max(self.session.bins, default=0) + 2):
            self.say("placed_in", bin)
            self.say("free", bin)

    def size(self, low: int, high: int) -> Three:
        """A size, at times without cells."""
        sides = [self.scale * self.r.randint(*within) for within in ((low, high), (low, high), (1, self.depth))]
        if self.r.random() < 0.03:
            sides[self.r.randrange(3)] = 0
        return sides[0], sides[1], sides[2]

    def bin(self) -> None:
        self.say("bin", *self.size(4, 14))

    def known(self) -> int:
        """The id of a bin that is there, or might be."""
        return self.r.choice([*self.session.bins] * 8 + [9])

    def name(self) -> Name:
        """The name of a group of the boxes, or of some other."""
        return self.r.choice([*self.session.boxes.groups] * 8 + [(9, 0), (0, 99)])

    def boxes(self, low: int = 0) -> None:
        """Boxes alone and in groups, some in several, and groups that are excluded."""
        count, most = self.r.randint(low, 9), self.r.choice([4, 7, 10])
        for _ in range(count):
            self.say("box", *self.size(1, most), self.r.choice([0, 0, 1, 2, 3]))
        for _ in range(self.r.randint(0, 3) if count else 0):
            self.say(self.r.choice(["member", "also"]), self.r.randrange(count), self.r.choice([0, 1, 2, 3, 4]))
        for _ in range(self.r.choice([0, 0, 1, 2, 4])):
            (one, box), (other, other_box) = self.name(), self.name()
            if (one, box) != (other, other_box):
                self.say("exclude", one, other, box, other_box)

    def heuristic(self) -> int:
        heuristic: int = self.r.choice([*HEURISTICS, BEST, BEST])
        return heuristic

    def packing(self) -> None:
        self.boxes()
        answer = self.say("pack", self.heuristic())
        self.kinds["packings of all refused" if answer == "-1" else "packings of all done"] += 1
        self.look()

    def fitting(self) -> None:
        self.boxes()
        answer = self.say("fitting", self.heuristic())
        self.kinds["packings with groups left" if len(answer.split()) > 3 else "packings with none left"] += 1
        self.look()

    def steps(self) -> list[Step]:
        """Steps that a packing of what fits makes, in an order that is drawn; one of them changed at times."""
        heuristic = self.r.choice(HEURISTICS)
        homes = what_fits(self.session.boxes, self.session.bins, heuristic).homes
        steps = [Step(name, bin, heuristic) for name, bin in homes.items()]
        if self.r.random() < 0.4:
            self.r.shuffle(steps)
        if self.r.random() < 0.5:
            step = Step(self.name(), self.known(), self.r.choice(HEURISTICS))
            steps.insert(self.r.randint(0, len(steps)), step)
        if steps and self.r.random() < 0.5:
            index = self.r.randrange(len(steps))
            steps[index] = steps[index]._replace(bin=self.known())
        if self.r.random() < 0.5:
            steps = [it._replace(heuristic=self.r.choice(HEURISTICS)) for it in steps]
        return steps

    def told(self) -> None:
        self.boxes()
        for (group, box), bin, heuristic in self.steps():
            self.say("step", group, box, bin, heuristic)
        answer = self.say("told").split()
        self.kinds[f"steps refused by fault {answer[2]}" if answer[0] == "-1" else "packings as told done"] += 1
        self.look()

    def release(self) -> None:
        """A placement that stands, or at times one that does not."""
        self.say("release", self.r.choice([*self.session.standing] * 4 + [self.session.next]))

    def releases(self) -> None:
        for number in self.r.choices([*self.session.standing] * 4 + [self.session.next], k=self.r.randint(0, 3)):
            self.say("number", number)
        self.say("releases")

    def clear(self) -> None:
        self.say("clear", self.known())

    def remove(self) -> None:
        self.say("remove", self.known())

    def long_list(self) -> None:
        """A bin that is filled with small boxes, all of which are released in an order that is drawn."""
        self.say("bin", 60, 50, 1)
        for _ in range(1_100):
            self.say("box", self.r.randint(1, 2), self.r.randint(1, 2), 1, 0)
        self.say("fitting", self.r.choice(HEURISTICS))
        numbers = [*self.session.standing]
        for number in self.r.sample(numbers, len(numbers)):
            self.say("release", number)
        self.kinds["lists of more than a thousand sections"] += any(len(it.sections) > 1_000 for it in self.session.bins.values())


def by_program(program: Path, text: str) -> list[str]:
    """What the program over the library answers."""
    ran = subprocess.run([program], input=text, capture_output=True, text=True, check=True)
    return [line.rstrip() for line in ran.stdout.splitlines()]


def built() -> Path:
    """The program over the library, proved and built where it is not yet."""
    subprocess.run([TOP / "tools" / "build.py", "session_lines"], check=True)
    return TOP / "crates" / "session_lines" / "out" / "session_lines"


def differences(program: Path, seeds: Sequence[int], drawn: Sequence[Drawn]) -> list[str]:
    """For each session that differs, its seed and the first answers that do: by the rule, and by the program."""
    lines = itertools.chain(*(["again", *it.lines] for it in drawn))
    answers = iter(by_program(program, "".join(f"{line}\n" for line in lines)))
    found = []
    for seed, it in zip(seeds, drawn):
        pairs = ((answer, next(answers, "no answer")) for answer in it.answers)
        unequal = [pair for pair in pairs if pair[0] != pair[1]]
        found += [f"seed {seed}: {pair}" for pair in unequal[:1]]
    return [*found, *(f"an answer more: {answer}" for answer in answers)]


def main() -> int:
    says = argparse.ArgumentParser(description=__doc__, formatter_class=argparse.RawDescriptionHelpFormatter)
    says.add_argument("runs", type=int, nargs="?", default=200)
    says.add_argument("--first", type=int, default=0)
    says.add_argument("--program", type=Path)
    says.add_argument("--together", type=int, default=50)
    given = says.parse_args()
    program = given.program or built()
    differ, kinds, answers = 0, Counter[str](), 0
    seeds = range(given.first, given.first + given.runs)
    for first in range(0, given.runs, given.together):
        some = seeds[first : first + given.together]
        drawn = [Drawn(seed) for seed in some]
        kinds += sum((it.kinds for it in drawn), Counter())
        answers += sum(len(it.answers) for it in drawn)
        for line in differences(program, some, drawn):
            differ += 1
            print(line)
    print(f"{given.runs} sessions, {answers} answers: {differ} differ")
    for kind, count in sorted(kinds.items()):
        print(f"{kind}: {count}")
    return differ != 0


if __name__ == "__main__":
    sys.exit(main())
