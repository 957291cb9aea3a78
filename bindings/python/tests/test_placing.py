#!/usr/bin/env python3
"""Boxes that go where they fit best, placements that are released together, and bins that are cut anew."""
import unittest
from unittest import mock

import rectangle_pack
from rectangle_pack import (
    Bin, Box, Cut, Leaf, NotEnoughBinSpace, NotFromCuts, NumbersUsedUp, OutOfMemory, Outstanding, Section, Session, Stats,
    UnknownBin, UnknownHeuristic, UnknownPlacement,
)
from .test_rectangle_pack import NAMES
from .test_upkeep import seen_of


class PlacingBest(unittest.TestCase):
    def test_the_bin_that_leaves_the_least(self):
        with Session({"wall": Bin(20, 20), "sheet": Bin(9, 9), "shelf": Bin(8, 5)}) as session:
            # 8x3 leaves 12, 1 and 0 on the tightest sides.
            shelf = session.place_best("board", 8, 3)
            self.assertEqual(shelf, Outstanding("board", None, "shelf", 0, 0, 0, 8, 3, 1, 0))
            self.assertEqual(session.free_sections("shelf"), [Section(0, 3, 0, 8, 2, 1)])
            self.assertEqual([session.place_best("board", 8, 3).bin for _ in range(4)], ["sheet", "sheet", "sheet", "wall"])
            self.assertEqual(session.outstanding()[0], shelf)
            self.assertEqual((session.next_number(), len(session.outstanding())), (5, 5))

    def test_the_section_that_leaves_the_least(self):
        with Session([Bin(20, 10)]) as session:
            # Of the columns 6, 8 and 6 wide the first and the last leave 1, and the last is the newest. Above the box 6x6 is
            # left, of which the next one leaves 1 too.
            columns = [session.pack([Box(width, 10)])[0] for width in (6, 8, 6)]
            for it in columns:
                session.release(it.number)
            for x in (14, 14, 0, 0, 6):
                self.assertEqual(session.place_best("box", 5, 4, bin=0).x, x)

    def test_an_axis_of_one_cell_does_not_count(self):
        with Session({"flat": Bin(9, 9), "deep": Bin(5, 5, 2)}) as session:
            # 4x4x1 leaves 5 of the flat bin, whose depth does not count, and 1 of the other.
            self.assertEqual(session.place_best("cap", 4, 4).bin, "deep")
        with Session({"a": Bin(1, 1), "b": Bin(9, 1)}) as session:
            # No axis of the first counts: there it leaves the most.
            self.assertEqual(session.place_best("cap", 1, 1).bin, "b")

    def test_bins_of_one_rest_go_as_they_were_added(self):
        with Session({name: Bin(2, 2) for name in "cab"}) as session:
            self.assertEqual([session.place_best("cap", 2, 2).bin for _ in "cab"], ["c", "a", "b"])
            self.assertRaises(NotEnoughBinSpace, session.place_best, "cap", 1, 1)

    def test_the_rest_is_cut_by_the_heuristic(self):
        # Round 3x3 in 4x4 go 4x1 and 1x3, or 1x4 and 3x1. By volume they tie, and the first way is the later one; by height
        # 3x1 is smaller than 4x1. What has the greater rate is listed first.
        for heuristic, left in (("volume", [(0, 3, 4, 1), (3, 0, 1, 3)]), ("height", [(3, 0, 1, 4), (0, 3, 3, 1)])):
            with Session([Bin(4, 4)]) as session:
                session.place_best("board", 3, 3, heuristic=heuristic)
                self.assertEqual(session.free_sections(0), [Section(x, y, 0, w, h, 1) for x, y, w, h in left])

    def test_refusals_in_their_order(self):
        with Session({"sheet": Bin(10, 10)}) as session:
            session.pack([Box(4, 10)])
            before = seen_of(session)
            for heuristic in ("best", "weight", None):
                with self.assertRaises(UnknownHeuristic) as refused:
                    session.place_best("cap", 20, 1, bin="wall", heuristic=heuristic)
                self.assertEqual(str(refused.exception), f"There is no such heuristic: {heuristic!r}")
            with self.assertRaises(UnknownBin) as refused:
                session.place_best("cap", 20, 1, bin="wall")
            self.assertEqual(str(refused.exception), "There is no such bin: 'wall'")
            for named in ({}, {"bin": "sheet"}):
                self.assertRaises(NotEnoughBinSpace, session.place_best, "cap", 7, 1, **named)
            for bad, error in ((-1, ValueError), (2**32, ValueError), (1.0, TypeError), (True, TypeError)):
                for size in ((bad, 1), (1, bad), (1, 1, bad)):
                    self.assertRaises(error, session.place_best, "cap", *size)
            self.assertEqual((seen_of(session), session._boxes), (before, {0: (0, None, 0, False)}))

    def test_names_of_bins_and_boxes(self):
        with Session({name: Bin(2, 1) for name in NAMES}) as session:
            for number, name in enumerate(NAMES):
                self.assertIs(session.place_best(name, 1, 1, bin=name).bin, name)
                self.assertIs(session.outstanding()[number].name, name)
            session.release_all(it.number for it in session.outstanding())
            self.assertEqual(session._boxes, {})


class ReleasingAll(unittest.TestCase):
    def test_all_or_none(self):
        with Session({"sheet": Bin(10, 10), "shelf": Bin(4, 4)}) as session:
            session.pack({"hat": Box(4, 10), "cap": Box(6, 10), "pin": Box(4, 4)})
            before, kept = seen_of(session), dict(session._boxes)
            for numbers in ([2, 0, 2], [0, 3], [2**64 - 1], [1, 1]):
                self.assertRaises(UnknownPlacement, session.release_all, numbers)
                self.assertEqual((seen_of(session), session._boxes), (before, kept))
            session.release_all([])
            self.assertEqual(seen_of(session), before)
            session.release_all((1, 2, 0))
            # In the order of the list.
            self.assertEqual(session.free_sections("sheet"), [Section(6, 0, 0, 4, 10, 1), Section(0, 0, 0, 6, 10, 1)])
            self.assertEqual(session.free_sections("shelf"), [Section(0, 0, 0, 4, 4, 1)])
            self.assertEqual((session.outstanding(), session._boxes, session.next_number()), ([], {}, 3))

    def test_many(self):
        with Session([Bin(100, 100)]) as session:
            numbers = [it.number for it in session.pack([Box(1, 1)] * 5000)]
            session.release_all(reversed(numbers[1:]))
            self.assertEqual(session.stats(0), Stats(10000, 9999, 1, session.stats(0).free_sections, 1))
            session.recut(0)
            self.assertEqual(session.stats(0).free_sections, 2)

    def test_numbers_are_not_cut(self):
        with Session([Bin(1, 1)]) as session:
            session.pack([Box(1, 1)])
            for bad, error in ((-1, ValueError), (2**64, ValueError), (0.0, TypeError), (False, TypeError)):
                self.assertRaises(error, session.release_all, [0, bad])
            self.assertRaises(TypeError, session.release_all, 0)
            self.assertEqual(len(session.outstanding()), 1)


class Recutting(unittest.TestCase):
    def test_strips_round_a_box(self):
        with Session({"board": Bin(10, 10)}) as session:
            box = session.place_at("board", "box", Section(0, 0, 0, 4, 3, 1))
            session.release(session.place_at("board", "gone", Section(4, 0, 0, 3, 10, 1)).number)
            self.assertEqual(len(session.free_sections("board")), 3)
            session.recut("board")
            # Above the box a strip 10x7 is free, and right of it one of 6x10, of which 6x3 is left.
            self.assertEqual(session.free_sections("board"), [Section(0, 3, 0, 10, 7, 1), Section(4, 0, 0, 6, 3, 1)])
            self.assertEqual(session.cut_plan("board"), [Cut("y", 3), Cut("x", 4), Leaf(), Leaf(), Leaf()])
            self.assertEqual(session.outstanding(), [box])
            self.assertIs(session.was_coalesced("board"), False)

    def test_a_bin_without_boxes_is_one_section(self):
        with Session([Bin(10, 10, 3), Bin(0, 5)]) as session:
            session.release_all([it.number for it in session.pack([Box(3, 3, 2)] * 7)])
            session.pack([Box(0, 5)])
            session.coalesce(0, 0, 1, 2)
            for bin, free in ((0, [Section(0, 0, 0, 10, 10, 3)]), (1, [])):
                session.recut(bin)
                self.assertEqual(session.free_sections(bin), free)
            self.assertEqual([session.was_coalesced(bin) for bin in (0, 1)], [True, False])

    def test_a_pinwheel_is_from_no_cuts(self):
        with Session({"board": Bin(3, 3)}) as session:
            for x, y, width, height in ((0, 0, 2, 1), (2, 0, 1, 2), (0, 1, 1, 2), (1, 1, 1, 1)):
                session.place_at("board", "vane", Section(x, y, 0, width, height, 1))
            session.coalesce_all("board")
            session.place_at("board", "vane", Section(1, 2, 0, 2, 1, 1))
            before = seen_of(session)
            with self.assertRaises(NotFromCuts) as refused:
                session.recut("board")
            self.assertEqual(str(refused.exception), "No straight cuts part the boxes that stand in the bin: 'board'")
            self.assertEqual(seen_of(session), before)


class Refusals(unittest.TestCase):
    def test_a_refusal_of_the_library_changes_no_names(self):
        with Session({"board": Bin(10, 10)}) as session:
            session.place_at("board", "knot", Section(0, 0, 0, 1, 1, 1))
            before, kept = seen_of(session), dict(session._boxes)
            errors = {1: NotEnoughBinSpace, 2: OutOfMemory, 5: UnknownBin, 6: UnknownPlacement, 7: NumbersUsedUp, 17: NotFromCuts}
            for status, error in errors.items():
                with mock.patch.object(rectangle_pack._library, "call", return_value=status):
                    self.assertRaises(error, session.place_best, "hat", 1, 1)
                    self.assertRaises(error, session.place_best, "hat", 1, 1, bin="board")
                    self.assertRaises(error, session.release_all, [0])
                    self.assertRaises(error, session.recut, "board")
                self.assertEqual((seen_of(session), session._boxes), (before, kept))


if __name__ == "__main__":
    unittest.main()
