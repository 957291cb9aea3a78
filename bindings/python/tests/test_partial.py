#!/usr/bin/env python3
"""Packings of what fits: what is placed, and what is left."""
import copy
import json
import pickle
import tempfile
import unittest
from pathlib import Path

from rectangle_pack import (
    Bin, Box, Left, NotEnoughBinSpace, NumbersUsedUp, Outstanding, Packing, Placement, Section, Session, pack,
)

PAGE = {"page": Bin(4, 4)}

# The hat takes three rows, so the cap has no room, and the pin does.
HEADS = {"hat": Box(4, 3), "cap": Box(4, 2), "pin": Box(1, 1)}


def places(packing):
    """The name, the bin and the corner of each box that is placed."""
    return [(it.name, it.bin, it.x, it.y) for it in packing]


class WhatFits(unittest.TestCase):
    def test_what_fits_is_packed_and_the_rest_is_left(self):
        packing = pack(PAGE, HEADS, partial=True)
        hat = Placement("hat", None, "page", 0, 0, 0, 4, 3, 1)
        pin = Placement("pin", None, "page", 0, 3, 0, 1, 1, 1)
        self.assertEqual(packing, Packing("volume", (hat, pin), (Left("cap", None),)))
        self.assertEqual((packing["hat"], packing["pin"], len(packing)), (hat, pin, 2))
        self.assertRaises(KeyError, lambda: packing["cap"])
        name, group = packing.left[0]
        self.assertEqual((name, group, type(packing.left[0])), ("cap", None, Left))
        with self.assertRaises(NotEnoughBinSpace):
            pack(PAGE, HEADS)

    def test_only_one_is_placed(self):
        # A packing of one box finds it without an index of names.
        packing = pack({"page": Bin(4, 3)}, HEADS, partial=True)
        self.assertEqual(places(packing), [("hat", "page", 0, 0)])
        self.assertEqual(packing["hat"].bin, "page")
        for name in ("cap", "pin"):
            self.assertRaises(KeyError, lambda: packing[name])

    def test_where_all_fit_it_is_the_packing_of_all(self):
        bins = {"page": Bin(4, 4), "next": Bin(4, 4)}
        for heuristic in ("volume", "height", "best"):
            packing = pack(bins, HEADS, heuristic=heuristic, partial=True)
            self.assertEqual(packing, pack(bins, HEADS, heuristic=heuristic))
            self.assertEqual(packing.left, ())

    def test_without_bins_or_boxes(self):
        for heuristic in ("volume", "best"):
            self.assertEqual(pack([], [], heuristic=heuristic, partial=True), Packing("volume", ()))
            self.assertEqual(pack(PAGE, {}, heuristic=heuristic, partial=True), Packing("volume", ()))
            packing = pack([], HEADS, heuristic=heuristic, partial=True)
            self.assertEqual(packing, Packing("volume", (), tuple(Left(name, None) for name in HEADS)))
            self.assertEqual((len(packing), [*packing]), (0, []))

    def test_a_box_without_cells_needs_a_section_that_holds_it(self):
        packing = pack([Bin(2, 2)], [Box(0, 3), Box(0, 2)], partial=True)
        self.assertEqual((places(packing), packing.left), ([(1, 0, 0, 0)], (Left(0, None),)))

    def test_left_is_in_the_order_of_the_boxes(self):
        # They are tried by falling volume: b, c, a, d.
        boxes = {"a": Box(3, 1), "b": Box(5, 5), "c": Box(2, 2), "d": Box(1, 2)}
        packing = pack([Bin(2, 2)], boxes, partial=True)
        self.assertEqual(places(packing), [("c", 0, 0, 0)])
        self.assertEqual(packing.left, (Left("a", None), Left("b", None), Left("d", None)))

    def test_it_is_kept_in_copies(self):
        packing = pack(PAGE, HEADS, partial=True)
        for again in (copy.copy(packing), copy.deepcopy(packing), pickle.loads(pickle.dumps(packing))):
            self.assertEqual((again, again.left), (packing, (Left("cap", None),)))
        self.assertNotEqual(packing, Packing(packing.heuristic, packing.placements))
        self.assertIn("left=(Left(name='cap', group=None),)", repr(packing))
        with self.assertRaises(AttributeError):
            packing.left = ()


class Groups(unittest.TestCase):
    def test_a_group_is_left_whole_and_takes_no_room(self):
        # One of the team would fit, and the other one not beside it. Then the bin is whole for the wall.
        boxes = {"one": Box(4, 3, group="team"), "wall": Box(4, 4), "two": Box(4, 3, group="team")}
        packing = pack(PAGE, boxes, partial=True)
        self.assertEqual(places(packing), [("wall", "page", 0, 0)])
        self.assertEqual(packing.left, (Left("one", "team"), Left("two", "team")))

    def test_a_group_goes_into_the_first_bin_that_takes_all_of_it(self):
        boxes, groups = {"a": Box(2, 2), "b": Box(2, 2), "c": Box(3, 3)}, {"pair": ["a", "b"], "more": ["c", "a"]}
        # The group more has 13 cells, and goes first. It leaves 2x1 of the large bin. The small one takes no two of the pair.
        packing = pack({"small": Bin(3, 2), "large": Bin(5, 3)}, boxes, groups=groups, partial=True)
        self.assertEqual([(it.name, it.group, it.bin) for it in packing], [("c", "more", "large"), ("a", "more", "large")])
        self.assertEqual(packing.left, (Left("a", "pair"), Left("b", "pair")))
        # The box stands for the group that fits.
        self.assertEqual((packing["a"].group, packing["a"].x, packing["a"].y), ("more", 3, 0))
        self.assertRaises(KeyError, lambda: packing["b"])

    def test_a_further_group_is_left_behind_the_boxes(self):
        boxes, groups = {"hat": Box(2, 2), "cape": Box(5, 5), "pin": Box(1, 5)}, {"own": ["hat"], "crew": ["cape", "hat"]}
        packing = pack(PAGE, boxes, groups=groups, partial=True)
        self.assertEqual([(it.name, it.group) for it in packing], [("hat", "own")])
        self.assertEqual(packing.left, (Left("cape", "crew"), Left("pin", None), Left("hat", "crew")))
        # A box that a group names twice is left twice.
        packing = pack(PAGE, {"hat": Box(3, 3)}, groups={"pair": ["hat", "hat"]}, partial=True)
        self.assertEqual(packing.left, (Left("hat", "pair"), Left("hat", "pair")))

    def test_excluded_groups_are_apart(self):
        boxes = {"milk": Box(4, 2, group="food"), "paint": Box(4, 1, group="poison"), "strip": Box(4, 1)}
        packing = pack(PAGE, boxes, exclude=[("poison", "food")], partial=True)
        self.assertEqual(places(packing), [("milk", "page", 0, 0), ("strip", "page", 0, 2)])
        self.assertEqual(packing.left, (Left("paint", "poison"),))
        packing = pack({**PAGE, "rack": Bin(4, 5)}, boxes, exclude=[("poison", "food")], partial=True)
        self.assertEqual([(it.name, it.bin) for it in packing], [("milk", "page"), ("paint", "rack"), ("strip", "page")])

    def test_a_group_that_is_left_excludes_nothing(self):
        boxes = {"milk": Box(5, 2, group="food"), "paint": Box(4, 1, group="poison")}
        packing = pack(PAGE, boxes, exclude=[("poison", "food")], partial=True)
        self.assertEqual((places(packing), packing.left), ([("paint", "page", 0, 0)], (Left("milk", "food"),)))


class Best(unittest.TestCase):
    def test_the_fewest_cells_are_left(self):
        # By volume the 3x2 box goes first, and 1x3 has no room then. By height all three fit. The wall never does.
        boxes = [Box(1, 3), Box(3, 2), Box(3, 1), Box(5, 5)]
        self.assertEqual(pack([Bin(4, 4)], boxes, partial=True).left, (Left(0, None), Left(3, None)))
        packing = pack([Bin(4, 4)], boxes, heuristic="best", partial=True)
        self.assertEqual((packing.heuristic, packing.left), ("height", (Left(3, None),)))

    def test_fewer_cells_left_are_better_than_fewer_bins(self):
        # By volume the shelf goes first, into the high bin, and so the pole is left. By height the pole goes first.
        bins, boxes = {"high": Bin(4, 3), "low": Bin(7, 2)}, {"shelf": Box(4, 1), "pole": Box(1, 3), "wall": Box(9, 9)}
        packing = pack(bins, boxes, partial=True)
        self.assertEqual(places(packing), [("shelf", "high", 0, 0)])
        self.assertEqual(packing.left, (Left("pole", None), Left("wall", None)))
        packing = pack(bins, boxes, heuristic="best", partial=True)
        self.assertEqual((packing.heuristic, places(packing)), ("height", [("shelf", "low", 0, 0), ("pole", "high", 0, 0)]))
        self.assertEqual(packing.left, (Left("wall", None),))

    def test_of_equal_cells_left_fewer_bins_are_better(self):
        # By height times depth the bins are equal, so that the large one goes first, and takes both.
        bins, boxes = {"large": Bin(3, 2), "small": Bin(2, 2)}, {"dot": Box(1, 1), "wall": Box(9, 9), "strip": Box(3, 1)}
        packing = pack(bins, boxes, partial=True)
        self.assertEqual([it.bin for it in packing], ["small", "large"])
        packing = pack(bins, boxes, heuristic="best", partial=True)
        self.assertEqual((packing.heuristic, [it.bin for it in packing]), ("side-area", ["large", "large"]))
        self.assertEqual(packing.left, (Left("wall", None),))


class Sessions(unittest.TestCase):
    BOXES = {"door": Box(8, 9), "shelf": Box(8, 3), "strip": Box(1, 9)}

    def test_a_session_goes_on(self):
        with Session({"sheet": Bin(10, 10)}) as session:
            packing = session.pack(self.BOXES, partial=True)
            # The door leaves 2x10 beside it and 8x1 above it: so the strip stands beside it, and the shelf nowhere.
            door = Outstanding("door", None, "sheet", 0, 0, 0, 8, 9, 1, 0)
            strip = Outstanding("strip", None, "sheet", 8, 0, 0, 1, 9, 1, 1)
            self.assertEqual(packing, Packing("volume", (door, strip), (Left("shelf", None),)))
            self.assertEqual((session.outstanding(), session.next_number()), ([door, strip], 2))
            session.release(door.number)
            rest = {name: self.BOXES[name] for name, _ in packing.left}
            shelf = session.pack(rest)["shelf"]
            self.assertEqual(shelf, Outstanding("shelf", None, "sheet", 0, 0, 0, 8, 3, 1, 2))
            self.assertEqual(session.outstanding(), [strip, shelf])

    def test_one_box(self):
        with Session({"sheet": Bin(10, 10)}) as session:
            for heuristic in ("volume", "best"):
                packing = session.pack({"wall": Box(11, 1)}, heuristic=heuristic, partial=True)
                self.assertEqual(packing, Packing("volume", (), (Left("wall", None),)))
            self.assertEqual(session.next_number(), 0)
            packing = session.pack([Box(10, 1)], partial=True)
            self.assertEqual(packing, Packing("volume", (Outstanding(0, None, "sheet", 0, 0, 0, 10, 1, 1, 0),)))

    def test_what_stood_there_excludes_nothing(self):
        with Session(PAGE) as session:
            session.pack({"milk": Box(4, 2, group="food")}, partial=True)
            boxes = {"milk": Box(4, 3, group="food"), "paint": Box(4, 2, group="poison")}
            packing = session.pack(boxes, exclude=[("food", "poison")], partial=True)
            self.assertEqual((places(packing), packing.left), ([("paint", "page", 0, 2)], (Left("milk", "food"),)))

    def test_a_saved_session_has_what_is_placed(self):
        with tempfile.TemporaryDirectory() as folder, Session({"sheet": Bin(10, 10)}) as session:
            session.pack(self.BOXES, partial=True)
            session.save(Path(folder, "atlas.json"))
            with Session.load(Path(folder, "atlas.json")) as again:
                self.assertEqual([it.name for it in again.outstanding()], ["door", "strip"])
                self.assertEqual((again.outstanding(), again.next_number()), (session.outstanding(), 2))

    def test_numbers_are_used_up_by_boxes_that_are_left_too(self):
        with tempfile.TemporaryDirectory() as folder:
            path = Path(folder, "atlas.json")
            with Session({"sheet": Bin(10, 10)}) as session:
                session.save(path)
            # One more number is there.
            path.write_text(json.dumps({**json.loads(path.read_text()), "next_number": 2**64 - 2}))
            with Session.load(path) as session:
                with self.assertRaises(NumbersUsedUp):
                    session.pack([Box(1, 1), Box(11, 1)], partial=True)
                self.assertEqual(session.free_sections("sheet"), [Section(0, 0, 0, 10, 10, 1)])
                self.assertEqual(session.pack([Box(1, 1)], partial=True)[0].number, 2**64 - 2)
                self.assertEqual(session.next_number(), 2**64 - 1)
                with self.assertRaises(NumbersUsedUp):
                    session.pack([Box(11, 1)], partial=True)
                self.assertEqual(session.pack([], partial=True).left, ())


if __name__ == "__main__":
    unittest.main()
