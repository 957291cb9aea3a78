#!/usr/bin/env python3
"""What the judge refuses to look at, and what it says of a fault."""
import unittest
from unittest import mock

import rectangle_pack
from rectangle_pack import (
    Bin, Box, EqualGroups, Fault, FaultKind, OutOfMemory, Placement, TooMany, UnknownBox, UnknownGroup, UnknownTurn, check,
)

from .test_check import at


class Refusals(unittest.TestCase):
    def test_numbers_are_not_cut(self):
        for field in ("x", "y", "z", "width", "height", "depth"):
            for bad, error in ((-1, ValueError), (2**32, ValueError), (1.5, TypeError), (True, TypeError), (None, TypeError)):
                place = Placement(**{**vars(at(0, 0, 0, 1, 1, 0)), field: bad})
                self.assertRaises(error, check, [Bin(1, 1)], [Box(1, 1)], [place])
        for bad in (-1, 2**32):
            self.assertRaises(ValueError, check, [Bin(bad, 1)], [], [])
            self.assertRaises(ValueError, check, [], [Box(1, bad)], [])

    def test_a_number_that_is_refused_is_named(self):
        placed = [at("hat", 0, 0, 1, 1), at("cap", 0, -1, 1, 1)]
        cases = [
            ((Bin(1, 1),), {"hat": Box(1, -1)}, [], "box 'hat': height -1 is not a number from 0 to 4294967295"),
            ({"page": Bin(1, 1.5)}, {}, [], "bin 'page': height 1.5 is not a whole number"),
            ({"page": Bin(1, 1)}, {}, placed, "placement of box 'cap': y -1 is not a number from 0 to 4294967295"),
        ]
        for bins, boxes, placements, text in cases:
            with self.assertRaises((ValueError, TypeError)) as refused:
                check(bins, boxes, placements)
            self.assertEqual(str(refused.exception), text)

    def test_names(self):
        wrong = [
            (UnknownTurn, {"turn": "about"}, "There is no such turn: 'about'"),
            (UnknownTurn, {"turn": {"hat": None}}, "There is no such turn: None, of box 'hat'"),
            (UnknownBox, {"turn": {"cap": "flat"}}, "There is no such box: 'cap'"),
            (UnknownBox, {"groups": {"hats": ["cap"]}}, "There is no such box: 'cap', of group 'hats'"),
            (EqualGroups, {"exclude": [("hats", "hats")]}, "A group is excluded with itself: 'hats'"),
            (UnknownGroup, {"groups": {"hats": ["hat"]}, "exclude": [("hats", "caps")]}, "There is no such group: 'caps'"),
        ]
        for error, arguments, text in wrong:
            with mock.patch.object(rectangle_pack._library, "call") as call, self.assertRaises(ValueError) as refused:
                check([Bin(1, 1)], {"hat": Box(1, 1)}, [], **arguments)
            call.assert_not_called()
            self.assertEqual((type(refused.exception), str(refused.exception)), (error, text))
        with self.assertRaises(TypeError):
            check([Bin(1, 1)], [Box(1, 1)], [at([], 0, 0, 1, 1, 0)])

    def test_statuses(self):
        for status, error in ((2, OutOfMemory), (3, TooMany)):
            with mock.patch.object(rectangle_pack._library, "call", return_value=status), self.assertRaises(error):
                check([], [], [])


class Texts(unittest.TestCase):
    def test_each_kind_says_what_is_wrong(self):
        hat, cap = at("hat", 0, 0, 4, 10, group="hats"), at("cap", 3, 1, 6, 5, z=2, depth=7)
        texts = {
            Fault(FaultKind.unknown_bin, hat): "'hat' of group 'hats' stands in bin 'page', which is not there",
            Fault(FaultKind.unknown_box, cap): "'cap' is no box that is to be placed: (3, 1, 2) 6x5x7 in bin 'page'",
            Fault(FaultKind.wrong_size, cap): "'cap' stands in a size that is not its own: (3, 1, 2) 6x5x7 in bin 'page'",
            Fault(FaultKind.outside, cap): "'cap' is not inside bin 'page': (3, 1, 2) 6x5x7",
            Fault(FaultKind.placed_twice, cap, at("cap", 0, 0, 6, 5, 1)):
                "'cap' is placed twice: (3, 1, 2) 6x5x7 in bin 'page' and (0, 0, 0) 6x5x1 in bin 1",
            Fault(FaultKind.shares_cell, hat, cap):
                "'hat' of group 'hats' and 'cap' share a cell of bin 'page': (0, 0, 0) 4x10x1 and (3, 1, 2) 6x5x7",
            Fault(FaultKind.group_in_two_bins, hat, at("wig", 0, 0, 1, 1, "next", "hats")):
                "'hat' of group 'hats' and 'wig' of group 'hats' stand in two bins: 'page' and 'next'",
            Fault(FaultKind.excluded_together, hat, at(("boot", 1), 0, 0, 1, 1, group=7)):
                "'hat' of group 'hats' and ('boot', 1) of group 7 stand in one bin: 'page'",
            Fault(FaultKind.not_placed, box="hat", group="hats"): "'hat' of group 'hats' is not placed",
            Fault(FaultKind.not_placed, box="{first}"): "'{first}' is not placed",
        }
        for fault, text in texts.items():
            self.assertEqual(str(fault), text)
        self.assertEqual({fault.kind for fault in texts}, set(FaultKind))


if __name__ == "__main__":
    unittest.main()
