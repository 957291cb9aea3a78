#!/usr/bin/env python3
"""python3 -m unittest discover bindings/python"""
import dataclasses
import doctest
import importlib
import itertools
import os
import tempfile
import unittest
from unittest import mock

import rectangle_pack
from rectangle_pack import (
    Bin, BinInUse, Box, DuplicateBin, EqualGroups, NotEnoughBinSpace, NotFree, NotFromCuts, NumbersUsedUp, OutOfMemory, PackError,
    Placement, Section, TooLarge, TooMany, UnknownAxis, UnknownBin, UnknownBox, UnknownHeuristic, UnknownPlacement, pack,
)


@dataclasses.dataclass(frozen=True)
class Panel:
    """A name of a type of its own."""
    part: str
    number: int


# Names of several types. Some of them count as false.
NAMES = [None, "", (), 0, 1.5, b"", frozenset(), ..., ("shelf", 2), Panel("shelf", 2), "shelf"]


def bins_of(packing):
    return [it.bin for it in packing]


def corners_of(packing):
    return [(it.x, it.y, it.z) for it in packing]


def cells_of(at):
    """The cells that a placement fills, each with its bin."""
    sides = (range(at.x, at.x + at.width), range(at.y, at.y + at.height), range(at.z, at.z + at.depth))
    return {(at.bin, *cell) for cell in itertools.product(*sides)}


class Pack(unittest.TestCase):
    def test_nothing(self):
        for bins in ([], {}, [Bin(10, 10)]):
            packing = pack(bins, {})
            self.assertEqual((packing.placements, packing.heuristic, len(packing)), ((), "volume", 0))

    def test_a_box_stands_in_the_corner_of_the_first_bin(self):
        self.assertEqual(pack([Bin(10, 10)], [Box(4, 10)]).placements, (Placement(0, None, 0, 0, 0, 0, 4, 10, 1),))

    def test_the_smaller_bin_comes_first(self):
        self.assertEqual(bins_of(pack({"large": Bin(20, 20), "small": Bin(10, 10)}, [Box(4, 10)])), ["small"])

    def test_boxes_share_no_cell_and_stay_inside(self):
        boxes = {sides: Box(*sides) for sides in itertools.product((1, 2, 3), repeat=3)}
        packing = pack([Bin(9, 9, 9), Bin(9, 9, 9)], boxes)
        for name in boxes:
            self.assertEqual(packing[name].section[3:], name)
        cells = set().union(*map(cells_of, packing))
        self.assertTrue(all(0 <= side < 9 for cell in cells for side in cell[1:]))
        # Two boxes that share a cell would leave fewer.
        self.assertEqual(len(cells), sum(width * height * depth for width, height, depth in boxes))

    def test_no_space_is_named(self):
        with self.assertRaises(NotEnoughBinSpace) as refused:
            pack([Bin(3, 3)], [Box(4, 1)])
        self.assertIsInstance(refused.exception, PackError)
        self.assertEqual(str(refused.exception), "Not enough space to place all of the rectangles.")

    def test_numbers_are_not_cut(self):
        for bad in (-1, 2**32, 2**32 + 4):
            for sides in ((bad, 1, 1), (1, bad, 1), (1, 1, bad)):
                self.assertRaises(ValueError, pack, [Bin(*sides)], [])
                self.assertRaises(ValueError, pack, [], [Box(*sides)])
        for bad in (1.5, True, None, "1"):
            self.assertRaises(TypeError, pack, [Bin(bad, 1)], [])
            self.assertRaises(TypeError, pack, [], [Box(1, bad)])
        largest = 2**32 - 1
        packing = pack([Bin(largest, largest, largest)], [Box(largest, largest, largest)])
        self.assertEqual(packing[0].section, Section(0, 0, 0, largest, largest, largest))

    def test_the_example_of_the_readme(self):
        from rectangle_pack import Bin, Box, pack
        sheets = {"small": Bin(64, 64), "large": Bin(128, 128)}
        sprites = {"hat": Box(10, 20), "shoe": Box(5, 50), "tree": Box(60, 60)}
        packing = pack(sheets, sprites, groups={"player": ["hat", "shoe"]}, heuristic="best")
        assert packing["hat"].bin == packing["shoe"].bin

    def test_the_second_box_of_a_group_by_hand(self):
        # 10x20 in the corner of 64x64 leaves 54x64 beside it and 10x44 above it, or 54x20 and 64x44: the smallest of these
        # four is 10x44, so that cut is made. 5x50 is too high for 10x44, the newest, and stands in the corner of 54x64.
        packing = pack([Bin(64, 64)], [Box(10, 20, group=1), Box(5, 50, group=1)])
        self.assertEqual(corners_of(packing), [(0, 0, 0), (10, 0, 0)])

    def test_plain_tuples_and_other_iterables_will_do(self):
        plain = pack([(10, 10, 1)], ((4, 10) for _ in range(2)))
        self.assertEqual(plain, pack([Bin(10, 10)], [Box(4, 10), Box(4, 10)]))

    def test_the_example_of_other_languages(self):
        packing = pack(
            {"page": Bin(512, 512), "next": Bin(512, 512)}, {"hat": Box(10, 20), "cap": Box(5, 5), "boot": Box(8, 8)},
            groups={"hats": ["hat", "cap"], "shoes": ["boot"]}, exclude=[("hats", "shoes")], heuristic="best")
        self.assertEqual((packing["hat"].bin, packing["hat"].group, packing["hat"].section[:3]), ("page", "hats", (0, 0, 0)))
        self.assertEqual((packing["boot"].bin, packing.heuristic), ("next", "volume"))


class Names(unittest.TestCase):
    def test_bins(self):
        for name in NAMES:
            self.assertIs(pack({name: Bin(10, 10)}, [Box(4, 10)])[0].bin, name)
        # Each box fills one of the bins, which are equal and go in their order.
        self.assertEqual(bins_of(pack({name: Bin(1, 1) for name in NAMES}, [Box(1, 1)] * len(NAMES))), NAMES)

    def test_boxes(self):
        packing = pack([Bin(len(NAMES), 1)], {name: Box(1, 1) for name in NAMES})
        self.assertEqual([it.name for it in packing], NAMES)
        # They are equal, and go in their order, each to what is left beside those before it.
        self.assertEqual([packing[name].x for name in NAMES], list(range(len(NAMES))))

    def test_groups(self):
        bins = {"small": Bin(4, 4), "large": Bin(5, 5)}
        # Alone, the second box would go where the first leaves no room: into the other bin.
        self.assertEqual(bins_of(pack(bins, [Box(4, 4), Box(1, 1)])), ["small", "large"])
        for group in NAMES[1:]:
            by_box = pack(bins, [Box(4, 4, group=group), Box(1, 1, group=group)])
            by_mapping = pack(bins, [Box(4, 4), Box(1, 1)], groups={group: [0, 1]})
            by_both = pack(bins, [Box(4, 4), Box(1, 1, group=group)], groups={group: [0]})
            self.assertEqual(bins_of(by_box), ["large", "large"])
            self.assertEqual([it.group for it in by_box], [group, group])
            self.assertEqual(by_mapping, by_box)
            self.assertEqual(by_both, by_box)
            more = pack(bins, [Box(1, 1, group=group)], groups={"more": [0]})
            self.assertEqual([it.group for it in more], [group, "more"])

    def test_groups_of_a_list(self):
        packing = pack([Bin(4, 4), Bin(5, 5)], {"a": Box(4, 4), "b": Box(1, 1)}, groups=[["b"], ["b", "a"]], exclude=[(0, 1)])
        self.assertEqual([(it.name, it.group, it.bin) for it in packing], [("a", 1, 1), ("b", 0, 0), ("b", 1, 1)])

    def test_none_is_no_group(self):
        for arguments in ({"groups": {None: [0]}}, {"exclude": [(None, "a")]}, {"exclude": [("a", None)]}):
            with self.assertRaises(ValueError):
                pack([Bin(1, 1)], [Box(1, 1)], **arguments)

    def test_what_no_dict_takes_is_no_name(self):
        for boxes, arguments in (([Box(1, 1, group=[])], {}), ([], {"exclude": [("a", [])]})):
            with self.assertRaises(TypeError):
                pack([Bin(1, 1)], boxes, **arguments)

    def test_equal_groups_go_in_the_order_in_which_they_are_named(self):
        # All have one cell. Boxes that are alone come first. The groups of boxes are named before those of the mapping.
        boxes = {"a": Box(1, 1), "b": Box(1, 1, group="late"), "c": Box(1, 1), "d": Box(1, 1, group="early"), "e": Box(1, 1)}
        packing = pack([Bin(5, 1)], boxes, groups={"last": ["a"], "lost": []})
        self.assertEqual({it.name: it.x for it in packing}, {"c": 0, "e": 1, "b": 2, "d": 3, "a": 4})
        packing = pack([Bin(5, 1)], boxes, groups={"early": [], "last": ["a"], "other": []}, exclude=[("other", "last")])
        self.assertEqual({it.name: it.x for it in packing}, {"c": 0, "e": 1, "b": 2, "d": 3, "a": 4})


class SeveralGroups(unittest.TestCase):
    BOXES = {"a": Box(1, 1), "b": Box(2, 1, group="y"), "c": Box(3, 1)}

    def test_boxes_come_first_and_then_their_further_groups(self):
        packing = pack([Bin(20, 1)], self.BOXES, groups={"x": ["c", "a"], "y": ["a", "c"]})
        entries = [("a", "x"), ("b", "y"), ("c", "x"), ("a", "y"), ("c", "y")]
        self.assertEqual([(it.name, it.group) for it in packing], entries)
        self.assertEqual([it.width for it in packing], [1, 2, 3, 1, 3])
        # Group y has more cells and goes first: its own box, and then those for which it is a further group. In x boxes go in
        # their order.
        self.assertEqual([it.x for it in packing], [6, 0, 7, 2, 3])
        self.assertEqual(packing["b"], packing.placements[1])

    def test_a_box_that_is_named_twice_in_a_group_is_placed_twice(self):
        packing = pack([Bin(20, 1)], self.BOXES, groups={"y": ["b", "a", "a"]})
        self.assertEqual([(it.name, it.group) for it in packing], [("a", "y"), ("b", "y"), ("c", None), ("b", "y"), ("a", "y")])

    def test_a_box_of_several_placements_has_no_one_place(self):
        packing = pack([Bin(20, 1)], self.BOXES, groups={"x": ["b"]})
        with self.assertRaises(LookupError) as refused:
            packing["b"]
        self.assertEqual(str(refused.exception), "box 'b' has a placement for each of its groups: 'y', 'x'")
        self.assertNotIsInstance(refused.exception, KeyError)
        self.assertEqual([it.group for it in packing if it.name == "b"], ["y", "x"])
        self.assertIsNone(packing["a"].group)
        self.assertRaises(KeyError, lambda: packing["d"])

    def test_it_stands_in_the_bin_of_each(self):
        bins, boxes = {"first": Bin(4, 4), "second": Bin(4, 4)}, {"left": Box(3, 4), "right": Box(3, 4), "tool": Box(1, 1)}
        packing = pack(bins, boxes, groups={"l": ["left", "tool"], "r": ["right", "tool"]})
        self.assertEqual([(it.name, it.group, it.bin) for it in packing], [
            ("left", "l", "first"), ("right", "r", "second"), ("tool", "l", "first"), ("tool", "r", "second"),
        ])


class Exclusions(unittest.TestCase):
    BINS = {"first": Bin(10, 10), "second": Bin(10, 10)}

    def test_two_groups_are_kept_apart(self):
        boxes = {"milk": Box(2, 2, group="food"), "paint": Box(1, 1, group="poison"), "rope": Box(1, 1)}
        self.assertEqual(bins_of(pack(self.BINS, boxes)), ["first"] * 3)
        for pair in (("food", "poison"), ("poison", "food")):
            packing = pack(self.BINS, boxes, exclude=[pair])
            self.assertEqual({it.name: it.bin for it in packing}, {"milk": "first", "paint": "second", "rope": "first"})

    def test_a_pair_of_which_one_group_has_no_boxes_excludes_nothing(self):
        for pair in (("hats", "shoes"), ("shoes", "hats")):
            boxes, groups = {"hat": Box(1, 1), "cap": Box(1, 1)}, {"hats": ["hat", "cap"], "shoes": []}
            self.assertEqual(bins_of(pack(self.BINS, boxes, groups=groups, exclude=[pair])), ["first", "first"])

    def test_there_may_be_too_few_bins(self):
        boxes = {name: Box(1, 1, group=name) for name in ("a", "b", "c")}
        pairs = list(itertools.combinations(boxes, 2))
        for count in range(3):
            packing = pack(self.BINS, boxes, exclude=pairs[:count])
            for one, other in pairs[:count]:
                self.assertNotEqual(packing[one].bin, packing[other].bin)
        for heuristic in ("volume", "best"):
            with self.assertRaises(NotEnoughBinSpace):
                pack(self.BINS, boxes, exclude=pairs, heuristic=heuristic)
        self.assertEqual(len(set(bins_of(pack({**self.BINS, "third": Bin(1, 1)}, boxes, exclude=pairs)))), 3)

    def test_a_group_is_not_excluded_with_itself(self):
        for one, other in (("a", "a"), (1, 1.0), (("a", 1), ("a", 1))):
            with self.assertRaises(ValueError) as refused:
                pack(self.BINS, {}, groups={"a": [], "b": []}, exclude=[("a", "b"), (one, other)])
            self.assertIsInstance(refused.exception, EqualGroups)
            self.assertEqual(str(refused.exception), f"A group is excluded with itself: {one!r}")


class Packings(unittest.TestCase):
    def test_nothing_of_it_changes(self):
        packing = pack([Bin(1, 1)], [Box(1, 1)])
        for it, field in ((packing, "heuristic"), (packing, "placements"), (packing[0], "bin")):
            self.assertRaises(dataclasses.FrozenInstanceError, setattr, it, field, None)

    def test_equal_packings(self):
        first, second = (pack([Bin(4, 4)], {"a": Box(1, 1), "b": Box(2, 1)}) for _ in range(2))
        self.assertEqual((first, hash(first)), (second, hash(second)))
        self.assertNotEqual(first, pack([Bin(4, 4)], {"b": Box(1, 1), "a": Box(2, 1)}))
        self.assertEqual([first[it.name] for it in second], list(first.placements))


class Errors(unittest.TestCase):
    STATUSES = {
        1: NotEnoughBinSpace, 2: OutOfMemory, 3: TooMany, 4: DuplicateBin, 5: UnknownBin, 6: UnknownPlacement,
        7: NumbersUsedUp, 10: UnknownHeuristic, 11: UnknownBox, 12: EqualGroups, 13: BinInUse, 14: TooLarge, 15: NotFree,
        16: UnknownAxis, 17: NotFromCuts,
    }

    def test_each_has_its_text(self):
        texts = {
            NotEnoughBinSpace: "Not enough space to place all of the rectangles.",
            OutOfMemory: "Out of memory.",
            TooMany: "Too many bins or boxes.",
            UnknownHeuristic: "There is no such heuristic.",
            UnknownBox: "There is no such box.",
            EqualGroups: "A group is excluded with itself.",
            UnknownAxis: "There is no such axis.",
            DuplicateBin: "The bin is there already.",
            UnknownBin: "There is no such bin.",
            UnknownPlacement: "No placement of this number is outstanding.",
            NumbersUsedUp: "The numbers of placements are used up.",
            BinInUse: "Placements are outstanding in the bin.",
            TooLarge: "A side of the bin would exceed the greatest number of 32 bits.",
            NotFree: "No free section holds the box there.",
            NotFromCuts: "No straight cuts part the boxes that stand in the bin.",
        }
        self.assertEqual(set(texts), set(self.STATUSES.values()))
        for error, text in texts.items():
            self.assertEqual(str(error()), text)
            self.assertEqual(str(error(("a", 1))), f"{text[:-1]}: ('a', 1)")
            self.assertTrue(issubclass(error, PackError))

    def test_each_status_has_its_error(self):
        for status, error in self.STATUSES.items():
            with mock.patch.object(rectangle_pack._library, "call", return_value=status), self.assertRaises(error):
                pack([Bin(1, 1)], [Box(1, 1)])

    def test_what_is_wrong_with_names_is_said_before_the_library_is_called(self):
        wrong = [
            (UnknownHeuristic, {"heuristic": "weight"}, "There is no such heuristic: 'weight'"),
            (UnknownHeuristic, {"heuristic": "Volume"}, "There is no such heuristic: 'Volume'"),
            (UnknownHeuristic, {"heuristic": 0}, "There is no such heuristic: 0"),
            (UnknownBox, {"groups": {"hats": ["hat", "cap"]}}, "There is no such box: 'cap', of group 'hats'"),
            (UnknownBox, {"groups": {"hats": [0]}}, "There is no such box: 0, of group 'hats'"),
            (EqualGroups, {"exclude": [("hats", "hats")]}, "A group is excluded with itself: 'hats'"),
        ]
        for error, arguments, text in wrong:
            with mock.patch.object(rectangle_pack._library, "call") as call, self.assertRaises(ValueError) as refused:
                pack([Bin(1, 1)], {"hat": Box(1, 1)}, **arguments)
            call.assert_not_called()
            self.assertEqual((type(refused.exception), str(refused.exception)), (error, text))


def enter_room(test):
    """An example writes its files to a folder of its own."""
    test.before, test.room = os.getcwd(), tempfile.TemporaryDirectory()
    os.chdir(test.room.name)


def leave_room(test):
    os.chdir(test.before)
    test.room.cleanup()


def load_tests(loader, tests, pattern):
    public = {name: getattr(rectangle_pack, name) for name in rectangle_pack.__all__}
    for name in ("", "._pack", "._telling", "._bounding", "._session", "._bins", "._reading", "._placing"):
        module = importlib.import_module(f"rectangle_pack{name}")
        tests.addTests(doctest.DocTestSuite(module, extraglobs=public, setUp=enter_room, tearDown=leave_room))
    return tests


if __name__ == "__main__":
    unittest.main()
