#!/usr/bin/env python3
"""Packings that are searched for: known answers, what is refused, and how a search is stopped."""
import unittest
from collections import Counter
from unittest import mock

import rectangle_pack
from rectangle_pack import (
    Bin, Box, Left, NotEnoughBinSpace, OutOfMemory, Progress, Session, TooMany, UnknownBox, UnknownHeuristic, UnknownTurn, check,
    pack,
)

# A door that lies down below the shelf fills the sheet with it. As they stand, 6 + 9 is too high and 4 + 9 too wide.
SHEET, PANELS = {"sheet": Bin(9, 10)}, {"door": Box(4, 9), "shelf": Box(9, 6)}

# A search goes on where bins do not all cost the same: that no fewer will do does not say that they are the cheapest.
PAGES = {"page": Bin(10, 10, count=30), "dear": Bin(10, 10, cost=2)}
BOXES = [Box(7, 7), Box(6, 8), Box(8, 6), Box(5, 9), Box(9, 5), Box(3, 9), Box(9, 3), Box(4, 4), Box(2, 7), Box(7, 2)] * 4


def used(packing):
    return {(it.bin, it.copy) for it in packing}


class ByHand(unittest.TestCase):
    def test_panels_are_turned(self):
        for heuristic in ("volume", "best"):
            with self.assertRaises(NotEnoughBinSpace):
                pack(SHEET, PANELS, heuristic=heuristic)
        for turn in ("flat", "any", {"door": "flat"}, {"door": "any", "shelf": "none"}):
            packing = pack(SHEET, PANELS, tries=1000, turn=turn)
            self.assertIsNone(check(SHEET, PANELS, packing, turn=turn))
            door, shelf = packing["door"], packing["shelf"]
            self.assertEqual((door.section[3:], door.turned, door.copy), ((9, 4, 1), True, 0))
            self.assertEqual((shelf.section[3:], shelf.turned), ((9, 6, 1), False))
            self.assertEqual(sorted((door.y, shelf.y))[0], 0)
            self.assertEqual((packing.heuristic, packing.left), (None, ()))
            self.assertEqual((packing.used, packing.least, packing.optimal), (1, 1, True))

    def test_what_may_not_be_turned_is_not(self):
        for turn in (None, "none", "upright", {"shelf": "flat"}, {}):
            with self.assertRaises(NotEnoughBinSpace):
                pack(SHEET, PANELS, tries=300, turn=turn)
            packing = pack(SHEET, PANELS, tries=300, turn=turn, partial=True)
            # The shelf has more cells, and one of the two fits.
            self.assertEqual([it.name for it in packing], ["shelf"])
            self.assertEqual((packing.left, packing.optimal), ((Left("door", None),), False))

    def test_a_turn_alone_searches(self):
        self.assertTrue(pack(SHEET, PANELS, turn="flat")["door"].turned)
        self.assertEqual(pack([Bin(9, 10)], [Box(4, 9), Box(9, 6)], turn=["flat"])[0].section[3:], (9, 4, 1))

    def test_crates_are_turned_upright(self):
        # 2x3x4 stands in 4x3x2 with width and depth changed. Nothing else turns it so.
        bins, boxes = [Bin(4, 3, 2)], [Box(2, 3, 4)]
        for turn in ("upright", "any"):
            it, = pack(bins, boxes, tries=1000, turn=turn)
            self.assertEqual((it.section, it.turned), ((0, 0, 0, 4, 3, 2), True))
        with self.assertRaises(NotEnoughBinSpace):
            pack(bins, boxes, tries=1000, turn="flat")

    def test_three_squares_need_three_pages(self):
        # No two of 6x6 are on one page of 10x10.
        pages = {"page": Bin(10, 10, count=3), "more": Bin(10, 10)}
        for boxes in ([Box(6, 6)] * 3, [Box(6, 6)] * 4):
            for more in ({}, {"tries": 100}, {"heuristic": "best"}, {"tries": 100, "turn": "flat"}):
                packing = pack(pages, boxes, **more)
                self.assertEqual((packing.used, packing.least, packing.optimal), (len(boxes), len(boxes), True))
        packing = pack(pages, [Box(6, 6)] * 5, tries=100, partial=True)
        self.assertEqual((packing.used, packing.least, packing.optimal, len(packing.left)), (4, None, False, 1))

    def test_it_is_better_than_any_heuristic(self):
        # A page of 8x8 is 8x3 and 8x5, and that is 2x5, 6x3 and 6x2.
        boxes = [Box(6, 3), Box(8, 3), Box(6, 2), Box(2, 5)]
        best = pack([Bin(8, 8, count=None)], boxes, heuristic="best")
        self.assertEqual((best.used, best.least, best.optimal), (2, 1, False))
        for bins in ([Bin(8, 8)], [Bin(8, 8, count=None)], [Bin(8, 8)] * 5):
            packing = pack(bins, boxes, tries=3000)
            self.assertEqual((packing.used, packing.least, packing.optimal), (1, 1, True))
            self.assertIsNone(check(bins, boxes, packing))
        with Session([Bin(8, 8)]) as session:
            self.assertTrue(session.pack(boxes, tries=3000).optimal)

    def test_cheaper_bins_are_taken(self):
        # By volume the trays come first, and both are needed. The crate takes both boxes as well.
        for tray, crate, taken in ((5, 1, {("crate", 0)}), (1, 9, {("tray", 0), ("tray", 1)})):
            bins = {"tray": Bin(5, 10, count=2, cost=tray), "crate": Bin(10, 10, cost=crate)}
            packing = pack(bins, [Box(5, 10)] * 2, tries=1000)
            self.assertEqual(used(packing), taken)
            self.assertEqual(used(pack(bins, [Box(5, 10)] * 2)), {("tray", 0), ("tray", 1)})

    def test_groups_stay_whole_and_apart(self):
        bins = {"page": Bin(4, 4), "next": Bin(4, 4)}
        boxes = {"milk": Box(2, 2, group="food"), "salt": Box(1, 2), "paint": Box(2, 2, group="poison"), "rope": Box(1, 1)}
        groups = {"food": ["salt", "rope"], "poison": ["rope"]}
        packing = pack(bins, boxes, groups=groups, exclude=[("food", "poison")], tries=500, turn="flat")
        self.assertIsNone(check(bins, boxes, packing, groups=groups, exclude=[("food", "poison")], turn="flat"))
        # Boxes come first, and then those of further groups.
        names = [("milk", "food"), ("salt", "food"), ("paint", "poison"), ("rope", "food"), ("rope", "poison")]
        self.assertEqual([(it.name, it.group) for it in packing], names)
        self.assertEqual((packing.used, packing.least, packing.optimal), (2, 2, True))

    def test_the_example_of_other_languages(self):
        bins, boxes = {"sheet": Bin(2500, 1250, count=None)}, [Box(900, 400)] * 30
        packing = pack(bins, boxes, tries=20_000, turn="flat")
        self.assertIsNone(check(bins, boxes, packing, turn="flat"))
        # Eight fill nine tenths of a sheet.
        self.assertGreaterEqual(packing.least, 4)
        self.assertLessEqual(packing.used, pack(bins, boxes, heuristic="best").used)

    def test_nothing(self):
        for bins in ([], SHEET, {"page": Bin(1, 1, count=None)}):
            packing = pack(bins, [], tries=10, turn="any")
            self.assertEqual((packing.placements, packing.left, packing.used, packing.optimal), ((), (), 0, True))
        packing = pack([], PANELS, tries=10, partial=True)
        self.assertEqual((packing.left, packing.least), ((Left("door", None), Left("shelf", None)), None))


class Pieces(unittest.TestCase):
    def test_it_is_said_how_far_it_is(self):
        told = []
        packing = pack(PAGES, BOXES, tries=7000, progress=told.append)
        self.assertEqual({type(it) for it in told}, {Progress})
        self.assertEqual([it.tries for it in told], sorted({it.tries for it in told}))
        self.assertEqual((told[-1].tries, told[-1].left_cells), (7000, 0))
        self.assertEqual((told[-1].bins, told[-1].cost), (packing.used, packing.used))
        self.assertGreater(len(told), 3)

    def test_it_is_stopped(self):
        for most in (0, 1500, 4000):
            told = []
            packing = pack(PAGES, BOXES, tries=10**12, progress=lambda it: told.append(it) or it.tries < most)
            self.assertIsNone(check(PAGES, BOXES, packing))
            self.assertTrue(all(it.tries < most for it in told[:-1]) and told[-1].tries >= most)
            # What is found is what is found by so many tries.
            self.assertEqual(packing, pack(PAGES, BOXES, tries=told[-1].tries))

    def test_what_it_answers_otherwise_goes_on(self):
        for answer in (None, True, 0, ""):
            told = []
            pack(PAGES, BOXES, tries=3000, progress=lambda it: told.append(it) or answer)
            self.assertEqual(told[-1].tries, 3000)

    def test_it_ends_where_nothing_can_be_better(self):
        told = []
        packing = pack([Bin(10, 10)] * 5, [Box(6, 6)] * 3, tries=10**12, progress=told.append)
        self.assertTrue(packing.optimal)
        self.assertEqual(len(told), 1)

    def test_equal_calls_get_equal_answers(self):
        for more in ({"seed": 1}, {"seed": 2**64 - 1, "turn": "flat"}, {"seed": 3, "partial": True}):
            one, other = (pack(PAGES, BOXES, tries=2500, **more) for _ in range(2))
            self.assertEqual(one, other)
            self.assertEqual(one, pack(PAGES, BOXES, tries=2500, progress=lambda it: None, **more))


class Refused(unittest.TestCase):
    def test_before_the_library_is_called(self):
        wrong = [
            ({"tries": -1}, ValueError, "tries -1 is not a number from 0 to 18446744073709551615"),
            ({"tries": 2**64}, ValueError, "tries 18446744073709551616 is not a number from 0 to 18446744073709551615"),
            ({"tries": 1.5}, TypeError, "tries 1.5 is not a whole number"),
            ({"tries": 1, "seed": "a"}, TypeError, "seed 'a' is not a whole number"),
            ({"turn": "about"}, UnknownTurn, "There is no such turn: 'about'"),
            ({"turn": 4}, UnknownTurn, "There is no such turn: 4"),
            ({"tries": 1, "progress": 5}, TypeError, "progress 5 is no function: write progress=print"),
            ({"turn": {"door": []}}, UnknownTurn, "There is no such turn: [], of box 'door'"),
            ({"turn": {"wall": "flat"}}, UnknownBox, "There is no such box: 'wall'"),
            ({"tries": 5, "heuristic": "height"}, ValueError,
             "a search takes all heuristics: leave out heuristic='height', or else tries and turn"),
            ({"turn": "flat", "heuristic": "volume"}, ValueError,
             "a search takes all heuristics: leave out heuristic='volume', or else tries and turn"),
            ({"tries": 5, "heuristic": "weight"}, UnknownHeuristic, "There is no such heuristic: 'weight'"),
        ]
        for arguments, error, text in wrong:
            with mock.patch.object(rectangle_pack._library, "call") as call, self.assertRaises(error) as refused:
                pack(SHEET, PANELS, **arguments)
            call.assert_not_called()
            self.assertEqual((type(refused.exception), str(refused.exception)), (error, text))

    def test_the_best_heuristic_may_be_named(self):
        one, other = (pack([Bin(10, 10)] * 5, BOXES[:10], tries=500, **more) for more in ({}, {"heuristic": "best"}))
        self.assertEqual(one, other)

    def test_statuses(self):
        for status, error in ((2, OutOfMemory), (3, TooMany)):
            with mock.patch.object(rectangle_pack._library, "call", return_value=status), self.assertRaises(error):
                pack(SHEET, PANELS, tries=5)


class Freed(unittest.TestCase):
    """Each search is freed or ended, whatever happens."""

    def counted(self, error, **more):
        """How often each call is made where a packing ends with this error."""
        counts, call = Counter(), rectangle_pack._library.call

        def counting(name, *arguments):
            counts[name] += 1
            return call(name, *arguments)

        with mock.patch.object(rectangle_pack._library, "call", side_effect=counting), self.assertRaises(error):
            pack(SHEET, PANELS, **more)
        return counts["search_begin"], counts["search_free"], counts["found"]

    def raising(self, error):
        def progress(_):
            raise error

        return progress

    def test_what_is_raised_in_between(self):
        for error in (KeyboardInterrupt, ZeroDivisionError, OutOfMemory):
            self.assertEqual(self.counted(error, tries=10**12, turn="flat", progress=self.raising(error)), (1, 1, 0))

    def test_no_space(self):
        self.assertEqual(self.counted(NotEnoughBinSpace, tries=200), (1, 0, 1))

    def test_no_memory(self):
        # The library frees a search that gets no memory.
        for failing, freed in (("search_begin", 0), ("search_run", 0), ("found", 0)):
            counts, call = Counter(), rectangle_pack._library.call

            def refusing(name, *arguments):
                counts[name] += 1
                status = call(name, *arguments)
                return 2 if name == failing else status

            with mock.patch.object(rectangle_pack._library, "call", side_effect=refusing), self.assertRaises(OutOfMemory):
                pack(SHEET, PANELS, tries=5, turn="flat")
            self.assertEqual(counts["search_free"], int(failing == "search_begin"))


if __name__ == "__main__":
    unittest.main()
