#!/usr/bin/env python3
"""What fits of drawn boxes, beside the rule as model.py has it, and before the judge."""
import random
import unittest
from collections import Counter

from . import model
from rectangle_pack import Bin, Box, FaultKind, Session, check, pack
from rectangle_pack._collection import HEURISTICS
from .test_heuristics import BEST, Case, drawn_bins, release_some

ALL = [*HEURISTICS, BEST]


def kind_of(case, packing):
    """Whether all boxes are left, some or none."""
    if not packing.left:
        return "none"
    return "some" if len(packing) else "all"


def excluded_is_left(case, packing):
    """Whether a group is left that may not share a bin with one that is placed."""
    placed, left = {it.group for it in packing}, {it.group for it in packing.left}
    pairs = [*case.exclude, *((other, one) for one, other in case.exclude)]
    return any(one in placed and other in left for one, other in pairs)


class Drawn(unittest.TestCase):
    def compare(self, case, packing, expected):
        """The packing has those entries that the model places, and leaves the others."""
        heuristic, placed = expected
        self.assertEqual(packing.heuristic, heuristic)
        fits = sorted(placed)
        self.assertEqual([(it.name, it.group) for it in packing], [case.labels[index] for index in fits])
        self.assertEqual([it.section[3:] for it in packing], [case.entries[index][0] for index in fits])
        self.assertEqual([(it.bin, it.x, it.y, it.z) for it in packing], [placed[index] for index in fits])
        self.assertEqual([*packing.left], [it for index, it in enumerate(case.labels) if index not in placed])

    def look_at(self, case, bins, packing):
        """What is so of each packing, whatever the rule: groups are whole or left, and but for what is left nothing is wrong."""
        homes = {}
        for it in packing:
            if it.group is not None:
                homes.setdefault(it.group, set()).add(it.bin)
        self.assertLessEqual({len(own) for own in homes.values()}, {1})
        self.assertFalse(homes.keys() & {it.group for it in packing.left})
        for one, other in case.exclude:
            self.assertFalse(homes.get(one, set()) & homes.get(other, set()))
        fault = check(bins, case.boxes, packing, groups=case.groups, exclude=case.exclude)
        if packing.left:
            self.assertEqual((fault.kind, fault.box, fault.group), (FaultKind.not_placed, *packing.left[0]))
        else:
            self.assertIsNone(fault)

    def test_packings(self):
        r, counts = random.Random(17), Counter()
        for _ in range(230):
            flat, side, sizes = drawn_bins(r)
            case, bins = Case(r, flat, side), [Bin(*size) for size in sizes]
            for heuristic in ALL:
                packing = case.by_module(lambda *it, **more: pack(bins, *it, **more), heuristic, partial=True)
                self.compare(case, packing, case.by_model(model.Bins(sizes), heuristic, partial=True))
                self.look_at(case, bins, packing)
                whole = case.by_module(lambda *it, **more: pack(bins, *it, **more), heuristic)
                # A packing is refused exactly where some box would be left.
                self.assertEqual(whole, None if packing.left else packing)
                counts[kind_of(case, packing)] += 1
                counts["excluded"] += excluded_is_left(case, packing)
                counts["best", packing.heuristic] += heuristic == BEST and len(packing.left) > 0
        self.assertGreater(min(counts["none"], counts["some"]), 500)
        self.assertGreater(min(counts["all"], counts["excluded"]), 50)
        # Several heuristics are the best where boxes are left.
        self.assertGreater(sum(counts["best", heuristic] > 0 for heuristic in HEURISTICS), 4)

    def test_sessions_go_on(self):
        r, counts = random.Random(18), Counter()
        for _ in range(60):
            flat, side, sizes = drawn_bins(r)
            bins = model.Bins(sizes)
            with Session([Bin(*size) for size in sizes]) as session:
                for _ in range(6):
                    case, heuristic, partial = Case(r, flat, side), r.choice(ALL), r.random() < 0.8
                    before, next_number = session.outstanding(), session.next_number()
                    packing = case.by_module(session.pack, heuristic, partial=partial)
                    expected = case.by_model(bins, heuristic, partial)
                    self.assertEqual(packing is None, expected is None)
                    if packing is not None:
                        self.compare(case, packing, expected)
                        self.numbered(packing, expected[1], next_number)
                    new = [] if packing is None else sorted(packing, key=lambda it: it.number)
                    self.assertEqual(session.outstanding(), [*before, *new])
                    self.assertEqual(session.next_number(), next_number + len(new))
                    self.assertEqual([session.free_sections(bin) for bin in session.bins()], bins.free)
                    counts[partial, "refused" if packing is None else kind_of(case, packing)] += 1
                    release_some(r, session, bins)
        for kind in ((True, "none"), (True, "some"), (True, "all"), (False, "none"), (False, "refused")):
            self.assertGreater(counts[kind], 15, counts)

    def numbered(self, packing, placed, next_number):
        """What is placed is numbered in the order of packing, in which the model has it. What is left takes no number."""
        numbers = {index: number for number, index in enumerate(placed, next_number)}
        self.assertEqual([it.number for it in packing], [numbers[index] for index in sorted(placed)])

    def test_what_is_left_alone_fits_nowhere(self):
        # A box that is alone and left finds no place at the end either, as bins only fill up.
        r, looked_at = random.Random(19), 0
        for _ in range(150):
            flat, side, sizes = drawn_bins(r)
            boxes = [Box(r.randint(1, side), r.randint(1, side), 1 if flat else r.randint(1, side)) for _ in range(8)]
            with Session([Bin(*size) for size in sizes]) as session:
                for name, _ in session.pack(boxes, heuristic=r.choice(ALL), partial=True).left:
                    free = [it for bin in session.bins() for it in session.free_sections(bin)]
                    held = [it for it in free if all(own <= most for own, most in zip(boxes[name][:3], it[3:]))]
                    self.assertEqual(held, [])
                    looked_at += 1
        self.assertGreater(looked_at, 200)


if __name__ == "__main__":
    unittest.main()
