#!/usr/bin/env python3
"""The judge, by faults that are known by hand."""
import doctest
import unittest

import rectangle_pack
from rectangle_pack import Bin, Box, FaultKind, Placement, Session, check, pack


def at(name, x, y, width, height, bin="page", group=None, z=0, depth=1):
    """A placement, most often on a page."""
    return Placement(name, group, bin, x, y, z, width, height, depth)


def said(fault):
    """The kind of a fault, and what it is about."""
    return fault and (fault.kind.name, fault.first, fault.second, fault.box, fault.group)


class ByHand(unittest.TestCase):
    # Two pages of 10 x 10. Group hats is hat and cap, group shoes is boot, and tree is alone.
    BINS = {"page": Bin(10, 10), "next": Bin(10, 10)}
    BOXES = {"hat": Box(4, 10, group="hats"), "cap": Box(6, 5), "boot": Box(6, 5, group="shoes"), "tree": Box(10, 9)}
    GROUPS = {"hats": ["cap"], "lost": [], "others": []}
    HAT, CAP = at("hat", 0, 0, 4, 10, group="hats"), at("cap", 4, 0, 6, 5, group="hats")
    BOOT, TREE = at("boot", 4, 5, 6, 5, group="shoes"), at("tree", 0, 1, 10, 9, "next")
    PACKING = [HAT, CAP, BOOT, TREE]

    def judged(self, placements, **more):
        return said(check(self.BINS, self.BOXES, placements, **{"groups": self.GROUPS, **more}))

    def changed(self, place, new):
        return [*self.PACKING[:place], new, *self.PACKING[place + 1:]]

    def test_packings(self):
        self.assertIsNone(self.judged(self.PACKING))
        self.assertIsNone(self.judged(reversed(self.PACKING)))
        self.assertIsNone(self.judged(it for it in self.PACKING))
        self.assertIsNone(self.judged(self.PACKING, exclude=[("shoes", "others"), ("shoes", "lost")]))
        self.assertIsNone(check({}, {}, []))
        self.assertIsNone(check([Bin(0, 0, 0)], [], []))

    def test_unknown_bin(self):
        lost = at("cap", 4, 0, 6, 5, "attic", "hats")
        self.assertEqual(self.judged(self.changed(1, lost)), ("unknown_bin", lost, None, None, None))
        # By indices.
        for bin in (1, -1, 2**40, "page"):
            lost = at(0, 0, 0, 1, 1, bin)
            self.assertEqual(said(check([Bin(1, 1)], [Box(1, 1)], [lost])), ("unknown_bin", lost, None, None, None))

    def test_unknown_box(self):
        for name, group in (("wig", "hats"), ("cap", "shoes"), ("tree", "hats")):
            wrong = at(name, 0, 1, 10, 9, "next", group)
            self.assertEqual(self.judged(self.changed(3, wrong)), ("unknown_box", wrong, None, None, None))
        # Of what is wrong with a placement alone the bin is looked at first.
        wrong = at("wig", 0, 1, 10, 9, "attic")
        self.assertEqual(self.judged([wrong])[0], "unknown_bin")

    def test_wrong_size(self):
        for size in ((4, 9), (10, 4), (5, 10)):
            wrong = at("hat", 0, 0, *size, group="hats")
            self.assertEqual(self.judged(self.changed(0, wrong)), ("wrong_size", wrong, None, None, None))
        wrong = at("hat", 0, 0, 4, 10, group="hats", depth=2)
        self.assertEqual(self.judged([wrong])[0], "wrong_size")

    def test_outside(self):
        for x, y in ((1, 1), (0, 2), (2**32 - 1, 0), (0, 2**32 - 9)):
            out = at("tree", x, y, 10, 9, "next")
            self.assertEqual(self.judged(self.changed(3, out)), ("outside", out, None, None, None))
        out = at("tree", 0, 0, 10, 9, "next", z=1)
        self.assertEqual(self.judged([out])[0], "outside")
        # Numbers are not added up in 32 bits.
        largest = 2**32 - 1
        out = at(0, 1, 0, largest, 1, 0)
        self.assertEqual(check([Bin(largest, 1)], [Box(largest, 1)], [out]).kind, FaultKind.outside)

    def test_placed_twice(self):
        second = at("tree", 0, 0, 10, 9)
        self.assertEqual(self.judged([*self.PACKING, second]), ("placed_twice", self.TREE, second, None, None))
        # That they share a cell too comes later.
        self.assertEqual(self.judged([*self.PACKING, self.CAP]), ("placed_twice", self.CAP, self.CAP, None, None))

    def test_shares_cell(self):
        # One cell: that of boot at (4, 4).
        over = at("boot", 4, 4, 6, 5, group="shoes")
        self.assertEqual(self.judged(self.changed(2, over)), ("shares_cell", self.CAP, over, None, None))
        # With hat and cap: the first earlier one is told.
        over = at("boot", 3, 4, 6, 5, group="shoes")
        self.assertEqual(self.judged(self.changed(2, over)), ("shares_cell", self.HAT, over, None, None))
        # What has no cells shares none.
        empty = [at("a", 2, 2, 0, 3), at("b", 0, 0, 5, 5), at("c", 1, 1, 3, 0)]
        self.assertIsNone(check({"page": Bin(5, 5)}, {"a": Box(0, 3), "b": Box(5, 5), "c": Box(3, 0)}, empty))

    def test_group_in_two_bins(self):
        boxes = {"hat": Box(1, 1, group="hats"), "cap": Box(1, 1, group="hats"), "wig": Box(1, 1, group="hats")}
        hat, cap, wig = at("hat", 0, 0, 1, 1), at("cap", 1, 0, 1, 1), at("wig", 0, 0, 1, 1, "next")
        fault = check(self.BINS, boxes, [hat, cap, wig])
        self.assertEqual(said(fault), ("group_in_two_bins", hat, wig, None, None))
        # Boxes without a group are of none together.
        alone = {name: Box(1, 1) for name in boxes}
        self.assertIsNone(check(self.BINS, alone, [hat, cap, wig]))

    def test_excluded_together(self):
        for pair in (("hats", "shoes"), ("shoes", "hats")):
            fault = self.judged(self.PACKING, exclude=[("lost", "hats"), pair])
            self.assertEqual(fault, ("excluded_together", self.HAT, self.BOOT, None, None))

    def test_not_placed(self):
        for place, (name, group) in enumerate([("hat", "hats"), ("cap", "hats"), ("boot", "shoes"), ("tree", None)]):
            rest = [*self.PACKING[:place], *self.PACKING[place + 1:]]
            self.assertEqual(self.judged(rest), ("not_placed", None, None, name, group))
        self.assertEqual(self.judged([])[3], "hat")
        # What is wrong with a placement comes first.
        self.assertEqual(self.judged([at("wig", 0, 0, 1, 1)])[0], "unknown_box")

    def test_the_first_placement_that_is_wrong_counts(self):
        # Boot stands on cap, hat is outside, and tree is not placed.
        placements = [self.CAP, at("boot", 4, 4, 6, 5, group="shoes"), at("hat", 9, 0, 4, 10, group="hats")]
        self.assertEqual(self.judged(placements)[0], "shares_cell")
        self.assertEqual(self.judged(reversed(placements))[0], "outside")

    def test_the_example_of_other_languages(self):
        fault = check({"page": Bin(64, 64)}, {"hat": Box(10, 20)}, [Placement("hat", None, "page", 60, 0, 0, 10, 20, 1)])
        self.assertEqual(str(fault), "'hat' is not inside bin 'page': (60, 0, 0) 10x20x1")


class Turns(unittest.TestCase):
    def stands(self, turn, *size, own=(1, 2, 3)):
        """Whether a box may stand in this size."""
        place = at("box", 0, 0, *size[:2], depth=size[2])
        fault = check({"page": Bin(9, 9, 9)}, {"box": Box(*own)}, [place], turn=turn)
        self.assertIn(fault and fault.kind, (None, FaultKind.wrong_size))
        return fault is None

    def test_words(self):
        ways = {
            "none": ["123"], "flat": ["123", "213"], "upright": ["123", "321"],
            "any": ["123", "132", "213", "231", "312", "321"],
        }
        for turn, sizes in ways.items():
            for size in ways["any"]:
                self.assertEqual(self.stands(turn, *map(int, size)), size in sizes, (turn, size))
            self.assertFalse(self.stands(turn, 1, 2, 2))
            self.assertFalse(self.stands(turn, 1, 1, 6))

    def test_a_word_for_each_box(self):
        bins, boxes = [Bin(9, 9)], {"hat": Box(1, 2), "cap": Box(1, 2), "boot": Box(1, 2)}
        hat, cap, boot = at("hat", 0, 0, 2, 1, 0), at("cap", 0, 1, 2, 1, 0), at("boot", 0, 2, 2, 1, 0)
        for turn, wrong in (({"hat": "flat", "cap": "any", "boot": "flat"}, None), ({"hat": "flat", "boot": "none"}, cap)):
            fault = check(bins, boxes, [hat, cap, boot], turn=turn)
            self.assertEqual(fault and fault.first, wrong)
        # By indices.
        placed = [at(0, 0, 0, 2, 1, 0), at(1, 0, 1, 2, 1, 0)]
        for turn, wrong in ((["flat", "flat"], None), (["flat"], placed[1]), ({1: "flat"}, placed[0])):
            fault = check(bins, [Box(1, 2)] * 2, placed, turn=turn)
            self.assertEqual(fault and fault.first, wrong)


class SeveralGroups(unittest.TestCase):
    BOXES, GROUPS = {"rope": Box(1, 1), "box": Box(2, 1)}, {"food": ["rope", "box"], "paint": ["rope", "rope"]}

    def judged(self, *corners):
        """Each is the group for which a rope stands, and its x."""
        ropes = [at("rope", x, 0, 1, 1, group=group) for group, x in corners]
        fault = check({"page": Bin(9, 1)}, self.BOXES, [at("box", 0, 0, 2, 1, group="food"), *ropes], groups=self.GROUPS)
        first, second = (it and it.x for it in (fault.first, fault.second)) if fault else (None, None)
        return fault and (fault.kind.name, first, second, fault.box, fault.group)

    def test_a_box_is_placed_once_for_each_group_and_as_often_as_it_is_named(self):
        self.assertIsNone(self.judged(("paint", 3), ("food", 2), ("paint", 4)))
        self.assertEqual(self.judged(("paint", 3), ("paint", 4)), ("not_placed", None, None, "rope", "food"))
        self.assertEqual(self.judged(("paint", 3), ("food", 4)), ("not_placed", None, None, "rope", "paint"))
        self.assertEqual(self.judged(("food", 3), ("food", 4)), ("placed_twice", 3, 4, None, None))
        # Of those that are too many the first one is told.
        self.assertEqual(self.judged(("paint", 3), ("paint", 4), ("paint", 5)), ("placed_twice", 3, 5, None, None))

    def test_a_placement_has_a_group_where_its_box_has_several(self):
        self.assertEqual(self.judged((None, 3)), ("unknown_box", 3, None, None, None))
        boxes = {"hat": Box(1, 1, group="hats")}
        self.assertIsNone(check({"page": Bin(1, 1)}, boxes, [at("hat", 0, 0, 1, 1)]))
        self.assertIsNone(check({"page": Bin(1, 1)}, boxes, [at("hat", 0, 0, 1, 1, group="hats")]))
        twice = [at("hat", 0, 0, 1, 1), at("hat", 1, 0, 1, 1, group="hats")]
        self.assertEqual(check({"page": Bin(2, 1)}, boxes, twice).kind, FaultKind.placed_twice)


class Packed(unittest.TestCase):
    def test_what_the_library_packs_has_no_fault(self):
        bins = {"a": Bin(9, 9, 9), "b": Bin(8, 8, 8)}
        boxes = {sides: Box(*sides) for sides in [(1, 2, 3), (4, 4, 4), (5, 1, 1)]}
        more = {"groups": {"x": list(boxes)[:2], "y": list(boxes)[1:]}, "exclude": [("x", "y")]}
        packing = pack(bins, boxes, **more)
        self.assertIsNone(check(bins, boxes, packing, **more))
        self.assertEqual(check(bins, boxes, list(packing)[1:], **more).kind, FaultKind.not_placed)
        with Session(bins) as session:
            self.assertIsNone(check(bins, boxes, session.pack(boxes, **more), **more))


def load_tests(loader, tests, pattern):
    tests.addTests(doctest.DocTestSuite(rectangle_pack._check))
    return tests


if __name__ == "__main__":
    unittest.main()
