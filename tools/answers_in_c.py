"""The answers of the library for C to lines as crates/session_lines has them: what a session and bins of one call answer alike."""
from __future__ import annotations

import ctypes
import itertools
import random
from collections.abc import Iterable, Sequence

from asked_in_c import Asked, Name, Numbers, c, call, listed
from searches_in_c import Found
from what_fits import words

# A line: its word, and its numbers.
Line = tuple[str, Numbers]


class Obeying:
    """Obeys lines: those that tell of the next call, and words by the methods of their names."""

    def __init__(self, seed: int) -> None:
        # It draws in how many pieces a search is made.
        self.r = random.Random(seed)
        self.asked = Asked()

    def obey(self, word: str, numbers: Numbers) -> str | None:
        """The answer, where there is one."""
        if self.asked.take(word, numbers):
            return None
        answer: str | None = getattr(self, word)(*numbers)
        return answer

    def ends(self) -> Asked:
        """What was told, which is forgotten."""
        told, self.asked = self.asked, Asked()
        return told


def pairs(names: Iterable[Name]) -> Iterable[int]:
    return itertools.chain(*names)


def corner(at: c.RpSection | c.RpPlacement) -> Numbers:
    return at.x, at.y, at.z


def sides(at: c.RpSection | c.RpBin) -> Numbers:
    return at.width, at.height, at.depth


def fitted(asked: Asked, told: c.RpFitted, left: Sequence[int], first: int) -> str:
    """The answer of a packing of what fits, which leaves these entries. The groups stand in order."""
    if told.left != len(left):
        raise AssertionError(f"{told.left} boxes are said to be left, {len(left)} are")
    return words([told.heuristic, first, asked.count() - len(left), *pairs(asked.names(left))])


def searched(asked: Asked, found: Found, left: Sequence[int], first: int) -> str:
    """The answer to a search, which leaves these entries: without the time."""
    if found.status == c.NOT_ENOUGH_SPACE:
        return "-1"
    c.check(found.status)
    said, groups = found.said, len(asked.names(left))
    if said.left != len(left):
        raise AssertionError(f"{said.left} boxes are said to be left, {len(left)} are")
    return words([first, asked.count() - len(left), said.used, found.least(), said.is_optimal, said.tries, groups])


def bound(asked: Asked, bins: Sequence[Numbers]) -> str:
    """How many of these bins are needed, or -1 where no packer can place all boxes."""
    least = ctypes.c_size_t()
    status = call("least_bins", *listed(c.RpBin, bins), asked.collection(), *asked.turned(), least)
    if status == c.NOT_ENOUGH_SPACE:
        return "-1"
    c.check(status)
    return str(least.value)
