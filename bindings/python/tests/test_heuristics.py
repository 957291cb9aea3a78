#!/usr/bin/env python3
"""All heuristics, groups, members and exclusions, on drawn boxes, beside the rule as model.py has it."""
import random
import unittest
from collections import Counter

from . import model
from rectangle_pack import Bin, Box, NotEnoughBinSpace, Session, pack
from rectangle_pack._collection import HEURISTICS

BEST = "best"


def drawn_bins(r):
    """Whether they are flat, their greatest side, and their sizes."""
    flat, side = r.random() < 0.5, r.choice([4, 8, 20])
    sizes = [(r.randint(1, side), r.randint(1, side), 1 if flat else r.randint(1, side)) for _ in range(r.randint(1, 5))]
    return flat, side, sizes


def drawn_boxes(r, flat, side):
    """Sizes, and for each box its groups, as they are named for it."""
    low, high = (0 if r.random() < 0.1 else 1), max(1, side // r.choice([1, 2, 3, 4]))
    sizes = [(r.randint(low, high), r.randint(low, high), 1 if flat else r.randint(low, high)) for _ in range(r.randint(0, 12))]
    return sizes, [r.choices("abcd", k=r.choice([0, 0, 1, 1, 2, 3])) for _ in sizes]


class Case:
    """What is packed, for the module by names, and for the model by numbers."""

    def __init__(self, r, flat, side):
        sizes, groups = drawn_boxes(r, flat, side)
        self.boxes, self.groups = {}, {}
        for index, (size, names) in enumerate(zip(sizes, groups)):
            # Some of them say their first group themselves.
            own = names.pop(0) if names and r.random() < 0.5 else None
            self.boxes["box", index] = Box(*size, group=own)
            for name in names:
                self.groups.setdefault(name, []).append(("box", index))
        self.exclude = [tuple(r.sample("abcde", 2)) for _ in range(r.choice([0, 0, 1, 3]))]
        # A group without boxes is named by a list that is empty.
        for group in (group for pair in self.exclude for group in pair):
            self.groups.setdefault(group, [])
        self.number_all()

    def number_all(self):
        named = [box.group for box in self.boxes.values() if box.group is not None]
        named += self.groups
        numbers = {group: number for number, group in enumerate(dict.fromkeys(named), 1)}
        first, members = {name: box.group for name, box in self.boxes.items()}, []
        for group, names in self.groups.items():
            for name in names:
                if first[name] is None:
                    first[name] = group
                else:
                    members.append((name, group))
        self.labels = [*first.items(), *members]
        self.entries = [(self.boxes[name][:3], numbers.get(group)) for name, group in self.labels]
        self.excluded = [(numbers[one], numbers[other]) for one, other in self.exclude]

    def by_module(self, call, heuristic, **more):
        """The heuristic and the placements, or None."""
        try:
            return call(self.boxes, groups=self.groups, exclude=self.exclude, heuristic=heuristic, **more)
        except NotEnoughBinSpace:
            return None

    def by_model(self, bins, heuristic, partial=False):
        """The heuristic, and where the entries stand in the order of packing, or None."""
        if heuristic == BEST:
            return bins.best(self.entries, self.excluded, partial)
        placed = bins.pack(self.entries, self.excluded, heuristic, partial)
        return None if placed is None else (heuristic, placed)


def release_some(r, session, bins):
    """Releases some boxes of a session, and of the model."""
    standing = session.outstanding()
    for it in r.sample(standing, r.randint(0, len(standing))):
        session.release(it.number)
        if 0 not in it.section[3:]:
            bins.free[it.bin] = [*bins.free[it.bin], tuple(it.section)]


class Heuristics(unittest.TestCase):
    def compare(self, case, packing, expected):
        if expected is None:
            self.assertIsNone(packing)
            return
        heuristic, placed = expected
        self.assertEqual(packing.heuristic, heuristic)
        self.assertEqual([(it.name, it.group) for it in packing], case.labels)
        self.assertEqual([it.section[3:] for it in packing], [size for size, _ in case.entries])
        self.assertEqual([(it.bin, it.x, it.y, it.z) for it in packing], [placed[index] for index in range(len(packing))])

    def test_all_are_there(self):
        self.assertEqual(list(HEURISTICS), list(model.RATES))

    def test_packings(self):
        r, counts = random.Random(7), Counter()
        for _ in range(300):
            flat, side, sizes = drawn_bins(r)
            case = Case(r, flat, side)
            for heuristic in (*HEURISTICS, BEST):
                packing = case.by_module(lambda *it, **more: pack([Bin(*size) for size in sizes], *it, **more), heuristic)
                self.compare(case, packing, case.by_model(model.Bins(sizes), heuristic))
                counts[heuristic, None if packing is None else packing.heuristic] += 1
        for heuristic in HEURISTICS:
            self.assertGreater(min(counts[heuristic, heuristic], counts[heuristic, None]), 50)
        # Most of them are the best at times.
        self.assertGreater(len([it for it in counts if it[0] == BEST]), 5)

    def test_sessions(self):
        r, done = random.Random(8), Counter()
        for _ in range(60):
            flat, side, sizes = drawn_bins(r)
            bins = model.Bins(sizes)
            with Session([Bin(*size) for size in sizes]) as session:
                for _ in range(6):
                    case, heuristic, next_number = Case(r, flat, side), r.choice([*HEURISTICS, BEST]), session.next_number()
                    packing, expected = case.by_module(session.pack, heuristic), case.by_model(bins, heuristic)
                    self.compare(case, packing, expected)
                    if packing is not None:
                        # The model's placements stand in the order of packing, in which they are numbered.
                        numbers = {index: number for number, index in enumerate(expected[1], next_number)}
                        self.assertEqual([it.number for it in packing], [numbers[index] for index in range(len(packing))])
                    done[packing is not None] += 1
                    release_some(r, session, bins)
                    self.assertEqual([session.free_sections(bin) for bin in session.bins()], bins.free)
        self.assertGreater(min(done[True], done[False]), 50)


class Best(unittest.TestCase):
    # By height times depth they are equal, so that the large one goes first. By all else the small one does.
    BINS = {"large": Bin(3, 2), "small": Bin(2, 2)}

    def test_the_examples_of_the_docs(self):
        for size, boxes, best in (
            ((4, 4), [Box(1, 3), Box(3, 2), Box(3, 1)], "height"),
            ((6, 7), [Box(6, 2), Box(3, 3), Box(2, 5), Box(1, 5)], "width"),
        ):
            packing = pack([Bin(*size)], boxes, heuristic="best")
            self.assertEqual((packing.heuristic, len(packing)), (best, len(boxes)))
            # In one bin all packings that are done use it alike. So those by the heuristics before this one are refused.
            for heuristic in HEURISTICS[:HEURISTICS.index(best)]:
                with self.assertRaises(NotEnoughBinSpace):
                    pack([Bin(*size)], boxes, heuristic=heuristic)

    def test_of_equal_uses_the_first_is_taken(self):
        self.assertEqual(pack([Bin(9, 9)], [Box(1, 2), Box(2, 1)], heuristic="best").heuristic, "volume")
        self.assertEqual(pack([], [], heuristic="best").heuristic, "volume")

    def test_fewer_bins_are_better(self):
        # The small bin does not take the strip, and does take the dot.
        boxes = {"dot": Box(1, 1), "strip": Box(3, 1)}
        self.assertEqual([it.bin for it in pack(self.BINS, boxes)], ["small", "large"])
        packing = pack(self.BINS, boxes, heuristic="best")
        self.assertEqual((packing.heuristic, [it.bin for it in packing]), ("side-area", ["large", "large"]))

    def test_of_as_many_bins_fewer_cells_in_the_last_are_better(self):
        # The square fills the small bin, which is the last. In the large one it leaves no room for the strip.
        boxes = {"strip": Box(2, 1), "square": Box(2, 2)}
        self.assertEqual([it.bin for it in pack(self.BINS, boxes)], ["large", "small"])
        packing = pack(self.BINS, boxes, heuristic="best")
        self.assertEqual((packing.heuristic, [it.bin for it in packing]), ("side-area", ["small", "large"]))


if __name__ == "__main__":
    unittest.main()
