#!/usr/bin/env python3
"""c_beside_library.py [RUNS] [--calls CALLS] [--program PATH]: what packrun has no line for, by the library for C and by a program over
the library.

Draws RUNS sessions (200 if left out), and so many times ten packings into bins of one call; or as many as it takes for so many CALLS.
Sessions have packings of all and of what fits, by each heuristic and by the best of all, of boxes in several groups, of which some are
excluded; packings as told, of which steps are refused; searches, in one call or in pieces, of boxes that may be turned; how many bins
are needed; boxes at places that are drawn, and where they fit best; releases, of several at once too; joins of one section and of all;
bins that are cleared, removed, made larger, cut anew and added again; free sections and cutting plans of each bin. Each is obeyed by the
calls of the shared library, over ctypes, and by the program crates/session_lines, proved and built where it is not yet, or by the one at
PATH. Every answer is compared, and in the end all placements. Bins of one call are packed by the calls for them, and by a session."""
from __future__ import annotations

import argparse
import itertools
import random
import sys
import time
from collections import Counter
from collections.abc import Iterable, Iterator, Sequence
from pathlib import Path

from answers_in_c import Line
from drawn_calls import Drawn, DrawnOnce, DrawnSession
from once_in_c import Once
from session_in_c import InSession
from what_fits import built, by_program, words

# So many packings are drawn for each session, and so many sessions are obeyed by one run of the program.
PACKINGS, TOGETHER = 10, 20
# Lines that have no answer.
UNANSWERED = {"box", "member", "exclude", "step", "turn", "cost", "number"}

# The word of a line, and its answer.
Answer = tuple[str, str]


def in_rows(numbers: Sequence[str], length: int) -> list[tuple[int, ...]]:
    return [tuple(map(int, numbers[first : first + length])) for first in range(0, len(numbers), length)]


def as_compared(word: str, answer: str) -> str:
    """The program's answer as C gives it: groups that are left in their order, and of a search not how long it took."""
    numbers = answer.split()
    if word == "fitting":
        return words([*numbers[:3], *itertools.chain(*sorted(in_rows(numbers[3:], 2)))])
    return words(numbers[:7] if word == "search" else numbers)


def without_numbers(word: str, answer: str) -> str:
    """The same of bins of one call, where what stands has no numbers, and is in the order of the boxes."""
    if word == "placed":
        return words(itertools.chain(*sorted(row[1:] for row in in_rows(answer.split(), 6))))
    return answer


def by_c(obeying: InSession | Once, lines: Iterable[Line]) -> list[Answer]:
    """What the library for C answers to the lines."""
    answers = ((word, obeying.obey(word, numbers)) for word, numbers in lines)
    return [(word, answer) for word, answer in answers if answer is not None]


def by_library(program: Path, drawn: Sequence[Drawn]) -> Iterator[list[Answer]]:
    """What the program over the library answers to the lines of each."""
    lines = itertools.chain(*([("again", ()), *it.lines] for it in drawn))
    text = "".join(f"{word} {words(numbers)}\n" for word, numbers in lines)
    answers = iter(by_program(program, text))
    for it in drawn:
        asked = [word for word, _ in it.lines if word not in UNANSWERED]
        yield [(word, as_compared(word, next(answers, "no answer"))) for word in asked]


def difference(ours: Sequence[Answer], theirs: Sequence[Answer]) -> str:
    """The first answers that differ, ours first; nothing where none does."""
    pairs = itertools.zip_longest(ours, theirs)
    return next((f"{one} and {other}" for one, other in pairs if one != other), "")


def of_session(seed: int, drawn: Drawn, theirs: Sequence[Answer]) -> str:
    """Obeys the lines of a session. What differs; nothing where all is equal."""
    session = InSession(seed)
    ours = by_c(session, drawn.lines)
    session.close()
    return difference(ours, theirs)


def of_once(seed: int, drawn: Drawn, theirs: Sequence[Answer]) -> str:
    """The same of bins of one call, which are packed by a session too: there each box is as large."""
    once, session = Once(seed), InSession(seed + 1)
    ours, also = by_c(once, drawn.lines), by_c(session, drawn.lines)
    standing = session.standing
    session.close()
    plain = [(word, without_numbers(word, answer)) for word, answer in theirs]
    if once.standing != standing:
        return f"in one call {once.standing} stands, in a session {standing}"
    return difference(ours, plain) or difference(also, theirs)


def counted(answers: Iterable[Answer]) -> Counter[str]:
    """How often each word was answered, and refused."""
    return Counter(f"{word} refused" if answer.startswith("-1") else word for word, answer in answers)


def drawn_from(seeds: Iterable[int]) -> Iterator[tuple[int, Drawn]]:
    """For each seed a session, and packings into bins of one call, each with a seed of its own."""
    for seed in seeds:
        yield seed, DrawnSession(random.Random(seed))
        for number in range(PACKINGS):
            yield seed, DrawnOnce(random.Random(f"{seed} {number}"))


def compare(program: Path, seeds: Iterable[int], counts: Counter[str]) -> Iterator[str]:
    """What differs, and its seed."""
    drawn = [*drawn_from(seeds)]
    for (seed, it), theirs in zip(drawn, by_library(program, [it for _, it in drawn])):
        counts.update(counted(theirs))
        problem = of_once(seed, it, theirs) if isinstance(it, DrawnOnce) else of_session(seed, it, theirs)
        if problem:
            yield f"seed {seed}: {problem}"


def main() -> int:
    says = argparse.ArgumentParser(description=__doc__, formatter_class=argparse.RawDescriptionHelpFormatter)
    says.add_argument("runs", type=int, nargs="?", default=200)
    says.add_argument("--calls", type=int)
    says.add_argument("--program", type=Path)
    given = says.parse_args()
    program, counts, differ = given.program or built(), Counter[str](), 0
    start = time.monotonic()
    for first in itertools.count(0, TOGETHER):
        if sum(counts.values()) >= given.calls if given.calls else first >= given.runs:
            break
        seeds = range(first, first + TOGETHER if given.calls else min(first + TOGETHER, given.runs))
        for problem in compare(program, seeds, counts):
            differ += 1
            print(problem)
    print(f"{sum(counts.values())} calls, in {time.monotonic() - start:.0f} s: {differ} differ")
    print(", ".join(f"{word} {count}" for word, count in sorted(counts.items())))
    return differ != 0


if __name__ == "__main__":
    sys.exit(main())
