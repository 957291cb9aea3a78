#!/usr/bin/env python3
"""How few bins will do: known answers, and drawn packings, none of which uses fewer."""
import random
import unittest
from unittest import mock

import rectangle_pack
from rectangle_pack import (
    Bin, Box, EqualGroups, NotEnoughBinSpace, OutOfMemory, TooMany, UnknownBox, UnknownGroup, UnknownTurn, least_bins, pack,
)

from .test_heuristics import Case, drawn_bins


class ByHand(unittest.TestCase):
    def test_squares(self):
        # No two of 6x6 are in one bin of 10x10, though by area two bins would take five.
        self.assertEqual(least_bins([Bin(10, 10)] * 9, [Box(6, 6)] * 5), 5)
        self.assertIsNone(least_bins([Bin(10, 10)] * 4, [Box(6, 6)] * 5))
        for count in (1, 2, 3, 4, 5, 9, 50):
            self.assertEqual(least_bins({"page": Bin(10, 10, count=None)}, [Box(6, 6)] * count), count)
        # Four of 5x5 fill a bin.
        self.assertEqual([least_bins([Bin(10, 10, count=None)], [Box(5, 5)] * count) for count in (4, 5, 8, 9)], [1, 2, 2, 3])

    def test_nothing(self):
        for bins in ([], [Bin(1, 1)], [Bin(1, 1, count=None)], [Bin(1, 1, count=0)]):
            self.assertEqual(least_bins(bins, []), 0)
        self.assertIsNone(least_bins([], [Box(1, 1)]))
        self.assertIsNone(least_bins([Bin(9, 9, count=0)], [Box(1, 1)]))

    def test_what_fits_no_bin(self):
        for count in (1, 7, None):
            self.assertIsNone(least_bins([Bin(10, 10, count=count)], [Box(11, 1), Box(1, 1)]))

    def test_turns(self):
        bins, boxes = {"strip": Bin(9, 5, count=None)}, {"door": Box(4, 9), "wall": Box(4, 9)}
        self.assertIsNone(least_bins(bins, boxes))
        self.assertIsNone(least_bins(bins, boxes, turn={"door": "flat"}))
        for turn in ("flat", "any", {"door": "flat", "wall": "any"}):
            self.assertEqual(least_bins(bins, boxes, turn=turn), 2)
        self.assertIsNone(least_bins([Bin(4, 3, 2)], [Box(2, 3, 4)], turn="flat"))
        self.assertEqual(least_bins([Bin(4, 3, 2)], [Box(2, 3, 4)], turn=["upright"]), 1)

    def test_groups(self):
        boxes = {name: Box(1, 1, group=name) for name in "abcd"}
        pairs = [("a", "b"), ("a", "c"), ("b", "c"), ("c", "d")]
        self.assertEqual(least_bins([Bin(9, 9)] * 4, boxes, exclude=pairs), 3)
        self.assertIsNone(least_bins([Bin(9, 9)] * 2, boxes, exclude=pairs))
        # A box of two groups counts twice: 4 cells and 4 more.
        boxes, groups = {"rope": Box(2, 2)}, {"food": ["rope"], "paint": ["rope"]}
        self.assertEqual([least_bins([Bin(2, 2)] * 3, boxes, groups=it) for it in (None, groups)], [1, 2])

    def test_the_largest_bins_count_first(self):
        # Ninety cells fit into the large one, whatever packer it is, and a hundred and one do not.
        bins = {"small": Bin(5, 5, count=None), "large": Bin(10, 10)}
        self.assertEqual(least_bins(bins, [Box(1, 1)] * 90), 1)
        self.assertEqual(least_bins(bins, [Box(1, 1)] * 101), 2)
        self.assertEqual(least_bins(bins, [Box(1, 1)] * 126), 3)


class Refused(unittest.TestCase):
    def test_before_the_library_is_called(self):
        wrong = [
            (UnknownTurn, {"turn": "about"}), (UnknownBox, {"turn": {"cap": "flat"}}), (UnknownBox, {"groups": {"hats": ["cap"]}}),
            (EqualGroups, {"exclude": [("hats", "hats")]}), (UnknownGroup, {"exclude": [("hats", "caps")]}),
            (TypeError, {"groups": {"hats": "hat"}}), (TypeError, {"exclude": ["ab"]}),
        ]
        for error, arguments in wrong:
            with mock.patch.object(rectangle_pack._library, "call") as call, self.assertRaises(error):
                least_bins([Bin(1, 1)], {"hat": Box(1, 1, group="hats")}, **arguments)
            call.assert_not_called()

    def test_statuses(self):
        for status, error in ((2, OutOfMemory), (3, TooMany)):
            with mock.patch.object(rectangle_pack._library, "call", return_value=status), self.assertRaises(error):
                least_bins([], [])


class Drawn(unittest.TestCase):
    def test_no_packing_uses_fewer(self):
        r, optimal, packed = random.Random(51), 0, 0
        for _ in range(300):
            flat, side, sizes = drawn_bins(r)
            case, bins = Case(r, flat, side), [Bin(*size)._replace(count=r.choice([1, 2, None])) for size in sizes]
            least = least_bins(bins, case.boxes, groups=case.groups, exclude=case.exclude)
            turned = least_bins(bins, case.boxes, groups=case.groups, exclude=case.exclude, turn="any")
            try:
                packing = pack(bins, case.boxes, groups=case.groups, exclude=case.exclude, heuristic="best")
            except NotEnoughBinSpace:
                continue
            self.assertLessEqual(turned, least)
            self.assertLessEqual(least, packing.used)
            self.assertEqual((packing.least, packing.optimal), (least, least == packing.used))
            packed, optimal = packed + 1, optimal + packing.optimal
        self.assertGreater(packed, 100)
        self.assertGreater(optimal, packed // 2)


if __name__ == "__main__":
    unittest.main()
