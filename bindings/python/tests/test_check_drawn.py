#!/usr/bin/env python3
"""Drawn packings, half of them with faults, beside a judge by a look at each pair."""
import random
import unittest
from collections import Counter

from rectangle_pack import Bin, Box, FaultKind, Placement, check

from . import judge_model
from .drawn_packings import Drawn

DRAWS = 20_000


class DrawnPackings(unittest.TestCase):
    def judged(self, drawn):
        """The fault as the model tells one."""
        placements = [Placement(it.name, it.group, it.bin, *it.corner, *it.size) for it in drawn.claims]
        places = {id(it): place for place, it in enumerate(placements)}
        fault = check(
            {name: Bin(*size) for name, size in drawn.bins.items()}, {name: Box(*box) for name, box in drawn.boxes.items()},
            placements, groups=drawn.groups, exclude=drawn.excluded, turn=drawn.turns)
        if fault is None:
            return None
        if fault.kind is FaultKind.not_placed:
            return "not_placed", (fault.box, fault.group)
        return (fault.kind.name, *(places[id(it)] for it in (fault.first, fault.second) if it is not None))

    def plant(self, r, drawn, count):
        """Plants so many faults, and answers their kinds."""
        kinds = []
        while len(kinds) < count:
            kind = r.choice(list(FaultKind)).name
            if drawn.plant(kind):
                kinds.append(kind)
        return kinds

    def test_drawn_packings(self):
        r, found = random.Random(5), Counter()
        for number in range(DRAWS):
            drawn = Drawn(r)
            # Half have none, of the others one in four has two.
            kinds = self.plant(r, drawn, number % 2 + (number % 8 == 1))
            expected = judge_model.first_fault(drawn.case, drawn.claims)
            if not kinds:
                self.assertIsNone(expected, number)
            elif len(kinds) == 1 and kinds[0] not in ("placed_twice", "shares_cell"):
                self.assertEqual(expected[0], kinds[0], number)
            self.assertEqual(self.judged(drawn), expected, number)
            found[expected and expected[0]] += 1
        for kind in FaultKind:
            self.assertGreater(found[kind.name], DRAWS // 50, kind)


if __name__ == "__main__":
    unittest.main()
