#!/usr/bin/env python3
"""Bins of a session that are cleared, removed and made larger, and boxes at places of the caller's choice."""
import unittest
from unittest import mock

import rectangle_pack
from rectangle_pack import (
    Bin, BinInUse, Box, Cut, Leaf, NotEnoughBinSpace, NotFree, NumbersUsedUp, OutOfMemory, Outstanding, Section, Session, Stats,
    TooLarge, TooMany, UnknownAxis, UnknownBin, UnknownPlacement,
)
from .test_rectangle_pack import NAMES

GREATEST = 2**32 - 1


def seen_of(session):
    """All that is read of a session."""
    bins = [
        (bin, session.stats(bin), session.free_sections(bin), session.cut_plan(bin), session.was_coalesced(bin))
        for bin in session.bins()
    ]
    return bins, session.outstanding(), session.next_number()


class Clearing(unittest.TestCase):
    def test_a_bin_is_as_it_was_at_first(self):
        with Session({"sheet": Bin(10, 10)}) as session:
            packing = session.pack({"hat": Box(4, 10), "cap": Box(4, 4)})
            session.release(packing["hat"].number)
            session.coalesce_all("sheet")
            session.clear_bin("sheet")
            self.assertEqual(session.stats("sheet"), Stats(100, 100, 0, 1, 0))
            self.assertEqual(session.free_sections("sheet"), [Section(0, 0, 0, 10, 10, 1)])
            self.assertEqual(session.cut_plan("sheet"), [Leaf()])
            self.assertIs(session.was_coalesced("sheet"), False)
            self.assertEqual(session.outstanding(), [])
            # No number is given again, and none that is gone is known.
            self.assertRaises(UnknownPlacement, session.release, packing["cap"].number)
            self.assertEqual(session.pack({"hat": Box(10, 10)})["hat"].number, 2)

    def test_other_bins_and_their_boxes_stay(self):
        with Session({"a": Bin(2, 2), "b": Bin(3, 3), "c": Bin(4, 4)}) as session:
            packing = session.pack({name: Box(side, side) for name, side in (("d", 2), ("e", 3), ("f", 4))})
            session.coalesce_all("c")
            session.clear_bin("b")
            self.assertEqual(session.outstanding(), [packing["f"], packing["d"]])
            self.assertEqual([session.stats(bin).placements for bin in "abc"], [1, 0, 1])
            self.assertEqual([session.was_coalesced(bin) for bin in "abc"], [False, False, True])

    def test_names_of_its_boxes_are_forgotten(self):
        with Session([Bin(2, 2), Bin(3, 3)]) as session:
            session.pack({"hat": Box(2, 2), "cap": Box(3, 3)}, groups={"hats": ["hat"]})
            self.assertEqual(session._boxes, {0: ("cap", None, 1, False), 1: ("hat", "hats", 0, False)})
            session.clear_bin(0)
            self.assertEqual(session._boxes, {0: ("cap", None, 1, False)})
            session.clear_bin(1)
            self.assertEqual(session._boxes, {})

    def test_a_bin_without_cells(self):
        with Session([Bin(0, 5, 2)]) as session:
            session.pack([Box(0, 5)])
            session.clear_bin(0)
            self.assertEqual((session.free_sections(0), session.outstanding()), ([Section(0, 0, 0, 0, 5, 2)], []))


class Removing(unittest.TestCase):
    def test_a_bin_in_use_stays(self):
        with Session({"sheet": Bin(10, 10), "wall": Bin(20, 20)}) as session:
            hat = session.pack({"hat": Box(4, 10)})["hat"]
            before = seen_of(session)
            with self.assertRaises(BinInUse) as refused:
                session.remove_bin("sheet")
            self.assertEqual(str(refused.exception), "Placements are outstanding in the bin: 'sheet'")
            self.assertEqual(seen_of(session), before)
            session.release(hat.number)
            session.remove_bin("sheet")
            self.assertEqual(session.bins(), ["wall"])

    def test_a_bin_with_a_box_without_cells_is_in_use(self):
        with Session([Bin(10, 10)]) as session:
            session.pack([Box(0, 0, 0)])
            self.assertRaises(BinInUse, session.remove_bin, 0)
            session.clear_bin(0)
            session.remove_bin(0)
            self.assertEqual(session.bins(), [])

    def test_what_is_removed_is_not_known_any_more(self):
        with Session({"a": Bin(1, 1), "b": Bin(2, 2)}) as session:
            session.remove_bin("a")
            for call in (session.stats, session.clear_bin, session.remove_bin, session.cut_tree):
                with self.assertRaises(UnknownBin) as refused:
                    call("a")
                self.assertEqual(refused.exception.args, ("a",))
            self.assertEqual((session._ids, session._names, session._sides), ({"b": 1}, {1: "b"}, {1: [2, 2, 1]}))
            self.assertEqual(session.pack([Box(1, 1)])[0].bin, "b")

    def test_another_bin_has_the_name(self):
        with Session({"a": Bin(4, 4), "b": Bin(4, 4), "c": Bin(4, 4)}) as session:
            session.coalesce_all("a")
            session.remove_bin("a")
            session.add_bin("a", 2, 2, 4)
            # It is the last now, also where it is tried: the bins are of one volume.
            self.assertEqual(session.bins(), ["b", "c", "a"])
            self.assertEqual((session.stats("a"), session.was_coalesced("a")), (Stats(16, 16, 0, 1, 0), False))
            self.assertEqual(session.cut_tree("a"), Section(0, 0, 0, 2, 2, 4))
            self.assertEqual([it.bin for it in session.pack([Box(1, 1, 1)] * 33)][::16], ["b", "c", "a"])

    def test_the_last_bin_goes_and_others_come(self):
        with Session({"a": Bin(1, 1)}) as session:
            for side in range(2, 9):
                session.remove_bin("a")
                self.assertEqual(session.bins(), [])
                self.assertRaises(NotEnoughBinSpace, session.pack, [Box(1, 1)])
                session.add_bin("a", side, side)
                self.assertEqual(session.stats("a").bin_volume, side * side)

    def test_each_name(self):
        with Session({name: Bin(1, 1) for name in NAMES}) as session:
            for name in NAMES:
                session.remove_bin(name)
                session.add_bin(name, 1, 1)
            self.assertEqual(session.bins(), NAMES)
            self.assertEqual([session.pack([Box(1, 1)])[0].bin for _ in NAMES], NAMES)

    def test_ids_are_used_up(self):
        with Session({"a": Bin(1, 1)}) as session:
            session._next_id = GREATEST - 1
            session.add_bin("b", 2, 2)
            self.assertRaises(TooMany, session.add_bin, "c", 3, 3)
            # What is not there is still not known, and what is there is still refused.
            self.assertRaises(UnknownBin, session.stats, "c")
            self.assertRaises(rectangle_pack.DuplicateBin, session.add_bin, "a", 3, 3)
            self.assertEqual((session.bins(), session.stats("b").bin_volume), (["a", "b"], 4))


class Growing(unittest.TestCase):
    def test_each_axis(self):
        with Session({7: Bin(4, 5, 6)}) as session:
            whole, right = Section(0, 0, 0, 4, 5, 6), Section(4, 0, 0, 1, 5, 6)
            above, behind = Section(0, 5, 0, 5, 2, 6), Section(0, 0, 6, 5, 7, 3)
            free = [whole]
            for axis, by, new in (("x", 1, right), ("y", 2, above), ("z", 3, behind)):
                session.grow_bin(7, axis, by)
                free.append(new)
                self.assertEqual(session.free_sections(7), free)
            self.assertEqual(session.stats(7), Stats(5 * 7 * 9, 5 * 7 * 9, 0, 4, 0))
            self.assertEqual(session.cut_plan(7)[:2], [Cut("z", 6), Cut("y", 5)])
            tree = session.cut_tree(7)
            self.assertEqual((tree.upper, tree.lower.upper, tree.lower.lower.upper), (behind, above, right))
            self.assertFalse(session.was_coalesced(7))
            session.coalesce_all(7)
            self.assertEqual(session.free_sections(7), [Section(0, 0, 0, 5, 7, 9)])

    def test_boxes_stay_and_others_go_into_what_is_new(self):
        with Session({"sheet": Bin(4, 10)}) as session:
            hat = session.pack({"hat": Box(4, 10)})["hat"]
            self.assertRaises(NotEnoughBinSpace, session.pack, [Box(6, 10)])
            session.grow_bin("sheet", "x", 6)
            cap = session.pack({"cap": Box(6, 10)})["cap"]
            self.assertEqual((cap.x, cap.number), (4, 1))
            self.assertEqual(session.outstanding(), [hat, cap])
            self.assertEqual(session.cut_plan("sheet"), [Cut("x", 4), Leaf(), Leaf()])

    def test_by_nothing_and_of_nothing(self):
        with Session({"sheet": Bin(4, 10), "flat": Bin(0, 5, 2)}) as session:
            before = seen_of(session)
            for axis in "xyz":
                session.grow_bin("sheet", axis, 0)
            self.assertEqual(seen_of(session), before)
            session.grow_bin("flat", "y", 3)
            self.assertEqual(session.free_sections("flat"), [Section(0, 0, 0, 0, 5, 2)])
            session.grow_bin("flat", "x", 1)
            self.assertEqual(session.stats("flat")[:2], (16, 16))

    def test_a_cleared_bin_is_as_large_as_it_has_grown(self):
        with Session({"sheet": Bin(4, 10)}) as session:
            session.grow_bin("sheet", "x", 6)
            session.grow_bin("sheet", "z", 2)
            session.clear_bin("sheet")
            self.assertEqual(session.free_sections("sheet"), [Section(0, 0, 0, 10, 10, 3)])
            self.assertEqual(session.cut_tree("sheet"), Section(0, 0, 0, 10, 10, 3))

    def test_a_side_may_be_the_greatest_and_no_larger(self):
        with Session({"sheet": Bin(4, 10, 1)}) as session:
            for axis, side in (("x", 4), ("y", 10), ("z", 1)):
                for by in (GREATEST, GREATEST - side + 1):
                    before = seen_of(session)
                    with self.assertRaises(TooLarge) as refused:
                        session.grow_bin("sheet", axis, by)
                    text = "A side of the bin would exceed the greatest number of 32 bits: 'sheet'"
                    self.assertEqual(str(refused.exception), text)
                    self.assertEqual((seen_of(session), session._sides), (before, {0: [4, 10, 1]}))
            session.grow_bin("sheet", "x", GREATEST - 4)
            self.assertEqual(session.stats("sheet").bin_volume, GREATEST * 10)
            self.assertEqual(session.cut_tree("sheet").upper, Section(4, 0, 0, GREATEST - 4, 10, 1))
            self.assertRaises(TooLarge, session.grow_bin, "sheet", "x", 1)

    def test_what_is_no_axis_is_said_first(self):
        with Session({"sheet": Bin(4, 10)}) as session:
            for axis in ("w", "X", "", "xy", None, 0, ["x"]):
                for bin in ("sheet", "wall"):
                    with mock.patch.object(rectangle_pack._library, "call") as call, self.assertRaises(ValueError) as refused:
                        session.grow_bin(bin, axis, 1)
                    call.assert_not_called()
                    self.assertEqual(type(refused.exception), UnknownAxis)
                    self.assertEqual(str(refused.exception), f"There is no such axis: {axis!r}")

    def test_numbers_are_not_cut(self):
        with Session({"sheet": Bin(4, 10)}) as session:
            for bad, error in ((-1, ValueError), (2**32, ValueError), (1.0, TypeError), (True, TypeError), (None, TypeError)):
                self.assertRaises(error, session.grow_bin, "sheet", "x", bad)
            self.assertEqual(session.stats("sheet"), Stats(40, 40, 0, 1, 0))


class Placing(unittest.TestCase):
    def test_what_is_left_round_the_box(self):
        with Session({"board": Bin(10, 10)}) as session:
            knot = session.place_at("board", "knot", Section(4, 3, 0, 2, 2, 1))
            self.assertEqual(knot, Outstanding("knot", None, "board", 4, 3, 0, 2, 2, 1, 0))
            self.assertEqual(session.outstanding(), [knot])
            # Left of it and right of it over the whole height, and below and above over its width.
            left, right, below, above = (0, 0, 4, 10), (6, 0, 4, 10), (4, 0, 2, 3), (4, 5, 2, 5)
            free = [Section(x, y, 0, width, height, 1) for x, y, width, height in (left, right, below, above)]
            self.assertEqual(session.free_sections("board"), free)
            self.assertEqual(session.stats("board"), Stats(100, 96, 4, 4, 1))
            self.assertEqual(session.cut_plan("board").count(Leaf()), 5)
            self.assertEqual(session.next_number(), 1)
            session.release(knot.number)
            self.assertEqual((session.free_sections("board")[4:], session.outstanding()), ([knot.section], []))

    def test_in_the_middle_of_a_bin_with_depth(self):
        with Session([Bin(3, 3, 3)]) as session:
            session.place_at(0, "core", Section(1, 1, 1, 1, 1, 1))
            left, right, below, above = (0, 0, 0, 1, 3, 3), (2, 0, 0, 1, 3, 3), (1, 0, 0, 1, 1, 3), (1, 2, 0, 1, 1, 3)
            front, behind = (1, 1, 0, 1, 1, 1), (1, 1, 2, 1, 1, 1)
            self.assertEqual(session.free_sections(0), [left, right, below, above, front, behind])

    def test_what_is_not_free(self):
        with Session({"board": Bin(10, 10)}) as session:
            session.place_at("board", "knot", Section(4, 3, 0, 2, 2, 1))
            before = seen_of(session)
            # In part in the knot; beyond the bin; beyond all numbers; and with cells that are free in several sections.
            beyond = [(9, 0, 0, 2, 1, 1), (0, 0, 1, 1, 1, 1), (1, 0, 0, GREATEST, 1, 1)]
            for place in ((5, 3, 0, 2, 2, 1), *beyond, (0, 0, 0, 10, 3, 1)):
                with self.assertRaises(NotFree) as refused:
                    session.place_at("board", "hat", Section(*place))
                self.assertEqual(str(refused.exception), f"No free section holds the box there: {Section(*place)}")
                self.assertEqual((seen_of(session), session._boxes), (before, {0: ("knot", None, 0, False)}))
            session.release(0)
            session.clear_bin("board")
            self.assertEqual(session.place_at("board", "hat", Section(0, 0, 0, 10, 3, 1)).number, 1)

    def test_a_packing_goes_round_it(self):
        with Session({"board": Bin(10, 10)}) as session:
            knot = session.place_at("board", "knot", Section(0, 0, 0, 10, 4, 1))
            hat = session.pack({"hat": Box(10, 6)})["hat"]
            self.assertEqual((hat.section, hat.number), (Section(0, 4, 0, 10, 6, 1), 1))
            self.assertEqual(session.outstanding(), [knot, hat])

    def test_a_layout_that_was_made_elsewhere(self):
        bins, boxes = {"a": Bin(9, 9), "b": Bin(9, 9)}, {name: Box(name % 4 + 1, name % 3 + 2) for name in range(15)}
        with Session(bins) as session, Session(bins) as other:
            session.pack(boxes)
            for it in session.outstanding():
                self.assertEqual(other.place_at(it.bin, it.name, it.section), it)
            self.assertEqual(other.outstanding(), session.outstanding())
            for bin in bins:
                self.assertEqual(other.stats(bin).free_volume, session.stats(bin).free_volume)

    def test_names_of_bins_and_boxes(self):
        with Session({name: Bin(2, 1) for name in NAMES}) as session:
            for number, name in enumerate(NAMES):
                self.assertIs(session.place_at(name, name, Section(0, 0, 0, 1, 1, 1)).bin, name)
                self.assertIs(session.outstanding()[number].name, name)
            # A name may be used anew, and each box has its own number.
            more = [session.place_at(name, "hat", Section(1, 0, 0, 1, 1, 1)).number for name in NAMES]
            self.assertEqual(more, list(range(len(NAMES), 2 * len(NAMES))))
            self.assertEqual([it.name for it in session.outstanding()], [*NAMES, *["hat"] * len(NAMES)])

    def test_a_name_is_forgotten_when_its_box_goes(self):
        with Session({"board": Bin(10, 10)}) as session:
            for number in range(2):
                session.place_at("board", "knot", Section(number, 0, 0, 1, 1, 1))
            session.release(0)
            self.assertEqual(session._boxes, {1: ("knot", None, 0, False)})
            session.clear_bin("board")
            self.assertEqual(session._boxes, {})

    def test_a_box_without_cells(self):
        with Session([Bin(2, 2)]) as session:
            point = session.place_at(0, "point", Section(2, 2, 1, 0, 0, 0))
            self.assertEqual(session.stats(0), Stats(4, 4, 0, session.stats(0).free_sections, 1))
            self.assertRaises(BinInUse, session.remove_bin, 0)
            session.release(point.number)
            self.assertEqual(session.outstanding(), [])

    def test_plain_tuples_will_do(self):
        with Session([(10, 10, 1)]) as session:
            self.assertEqual(session.place_at(0, "knot", (4, 3, 0, 2, 2, 1)).section, Section(4, 3, 0, 2, 2, 1))
            for place in ((4, 3, 0, 2, 2), (4, 3, 0, 2, 2, 1, 0), Box(1, 1), 7):
                self.assertRaises(TypeError, session.place_at, 0, "knot", place)

    def test_numbers_are_not_cut(self):
        with Session([Bin(10, 10)]) as session:
            for bad, error in ((-1, ValueError), (2**32, ValueError), (1.0, TypeError), (True, TypeError), (None, TypeError)):
                for field in Section._fields:
                    self.assertRaises(error, session.place_at, 0, "knot", Section(0, 0, 0, 1, 1, 1)._replace(**{field: bad}))
            self.assertEqual((session.outstanding(), session.next_number()), ([], 0))


class Refusals(unittest.TestCase):
    def test_a_refusal_of_the_library_changes_no_names(self):
        with Session({"board": Bin(10, 10), "wall": Bin(5, 5)}) as session:
            session.place_at("board", "knot", Section(0, 0, 0, 1, 1, 1))
            before, kept = seen_of(session), self.kept_by(session)
            errors = {2: OutOfMemory, 5: UnknownBin, 7: NumbersUsedUp, 13: BinInUse, 14: TooLarge, 15: NotFree}
            for status, error in errors.items():
                with mock.patch.object(rectangle_pack._library, "call", return_value=status):
                    self.assertRaises(error, session.clear_bin, "board")
                    self.assertRaises(error, session.remove_bin, "wall")
                    self.assertRaises(error, session.grow_bin, "wall", "y", 1)
                    self.assertRaises(error, session.place_at, "wall", "hat", Section(0, 0, 0, 1, 1, 1))
                self.assertEqual((seen_of(session), self.kept_by(session)), (before, kept))

    def kept_by(self, session):
        """A copy of what is kept beside the library."""
        sides = {id: list(it) for id, it in session._sides.items()}
        return dict(session._names), sides, dict(session._ids), dict(session._boxes), session._next_id

    def test_an_unknown_bin_is_named(self):
        with Session({"board": Bin(10, 10)}) as session:
            for call, *rest in (
                (session.clear_bin,), (session.remove_bin,), (session.grow_bin, "x", GREATEST),
                (session.place_at, "hat", Section(0, 0, 0, 20, 1, 1)),
            ):
                with self.assertRaises(UnknownBin) as refused:
                    call("wall", *rest)
                self.assertEqual(str(refused.exception), "There is no such bin: 'wall'")


if __name__ == "__main__":
    unittest.main()
