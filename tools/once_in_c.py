"""Lines as crates/session_lines has them, obeyed by the calls of the library for C that pack into bins of one call."""
from __future__ import annotations

import ctypes
import itertools
from collections.abc import Iterable

from answers_in_c import Obeying, bound, corner, fitted, searched, sides
from asked_in_c import Asked, Numbers, c, call, empty, listed
from searches_in_c import ONCE, Search, find
from what_fits import words

VOLUME = 0
LEFT_BIN = 2**32 - 1


class Once(Obeying):
    """Bins, and the boxes of the last packing into them, which were the only ones there."""

    def __init__(self, seed: int = 0) -> None:
        super().__init__(seed)
        self.bins: list[Numbers] = []
        # The entry, the bin, the corner and the sides of each box that stands.
        self.standing: list[Numbers] = []

    def close(self) -> None:
        """There is nothing to be freed."""

    def bin(self, *size: int) -> str:
        self.bins.append(size)
        return str(len(self.bins) - 1)

    def listed(self) -> tuple[object, int]:
        return listed(c.RpBin, self.bins)

    def keep(self, places: Iterable[tuple[int, Numbers]]) -> list[int]:
        """Keeps what stands, of the bin of each entry, and its corner and sides there. Answers which entries are left."""
        placed = [*enumerate(places)]
        self.standing = [(entry, bin, *section) for entry, (bin, section) in placed if bin != LEFT_BIN]
        return [entry for entry, (bin, _) in placed if bin == LEFT_BIN]

    def keep_placed(self, asked: Asked, places: Iterable[c.RpPlacement]) -> list[int]:
        """The same of boxes that stand in their own sizes."""
        return self.keep((at.bin, (*corner(at), *asked.size(entry))) for entry, at in enumerate(places))

    def pack(self, heuristic: int) -> str:
        asked, chosen = self.ends(), ctypes.c_uint32()
        places, count = empty(c.RpPlacement, asked.count()), asked.count()
        if heuristic == VOLUME and not asked.members and not asked.exclusions:
            status = call("boxes", *self.listed(), *listed(c.RpBox, asked.boxes), places, count)
        else:
            status = call("collection", *self.listed(), asked.collection(), heuristic, places, count, chosen)
        if status == c.NOT_ENOUGH_SPACE:
            return "-1"
        c.check(status)
        self.keep_placed(asked, places[:count])
        return str(chosen.value)

    def fitting(self, heuristic: int) -> str:
        asked, told = self.ends(), c.RpFitted()
        places, count = empty(c.RpPlacement, asked.count()), asked.count()
        c.check(call("fitting", *self.listed(), asked.collection(), heuristic, places, count, told))
        return fitted(asked, told, self.keep_placed(asked, places[:count]), 0)

    def told(self) -> str:
        asked, refused = self.ends(), c.RpRefused()
        places, count = empty(c.RpPlacement, asked.count()), asked.count()
        status = call("told", *self.listed(), asked.collection(), *asked.told(), places, count, refused)
        if status == c.STEP_REFUSED:
            return words([-1, refused.step, refused.fault])
        c.check(status)
        return words([0, count - len(self.keep_placed(asked, places[:count]))])

    def search(self, tries: int, seed: int, may_leave: int) -> str:
        asked = self.ends()
        found = find(Search(ONCE, self.listed(), asked, (tries, seed, may_leave)), self.r)
        places = found.places if found.status == 0 else []
        left = self.keep((it.bin, (*corner(it.section), *sides(it.section))) for it in places)
        return searched(asked, found, left, 0)

    def least(self) -> str:
        return bound(self.ends(), self.bins)

    def placed(self) -> str:
        """The entry, the bin and the corner of what stands."""
        return words(itertools.chain(*(row[:5] for row in self.standing)))
