#!/usr/bin/env python3
"""Straight cuts that part a bin into boxes: by hand, drawn, and beside sessions that are cut anew."""
import doctest
import random
import unittest
from collections import Counter
from unittest import mock

import rectangle_pack
from rectangle_pack import (
    Bin, Box, Cut, Leaf, NotEnoughBinSpace, OutOfMemory, Placement, Section, Session, WrongBoxes, pack, straight_cuts,
)
from rectangle_pack._cuts import tree_of

from .test_cuts import checked_leaves

DRAWS = 3000

# Four strips round a free cell.
PINWHEEL = [(0, 0, 0, 2, 1, 1), (2, 0, 0, 1, 2, 1), (1, 2, 0, 2, 1, 1), (0, 1, 0, 1, 2, 1)]


def at(x, y, width, height):
    """A box of depth 1."""
    return Section(x, y, 0, width, height, 1)


def volume(box):
    return box.width * box.height * box.depth


def do_share(one, other):
    """Whether two boxes have a cell in common."""
    axes = zip(one[:3], one[3:], other[:3], other[3:])
    return all(max(a, b) < min(a + side, b + other_side) for a, side, b, other_side in axes)


class ByHand(unittest.TestCase):
    SHEET = Bin(10, 10)

    def refusal(self, boxes, bin=SHEET):
        """The two indices of what is wrong, and what is said of it."""
        with self.assertRaises(ValueError) as refused:
            straight_cuts(bin, boxes)
        self.assertIs(type(refused.exception), WrongBoxes)
        return refused.exception.first, refused.exception.second, str(refused.exception)

    def test_a_part_without_two_boxes_or_sections_is_not_cut(self):
        for bin, boxes in (
            (self.SHEET, []), (self.SHEET, [at(0, 0, 10, 10)]), (Bin(0, 5), []), (Bin(0, 5), [at(0, 2, 0, 3)]),
        ):
            self.assertEqual(straight_cuts(bin, boxes), [Leaf()])

    def test_a_part_is_cut_at_the_first_place_of_the_first_axis(self):
        # The left box goes from bottom to top. Beside it the corner has a section above it.
        plan = straight_cuts(self.SHEET, iter([at(4, 0, 6, 3), at(0, 0, 4, 10)]))
        self.assertEqual(plan, [Cut("x", 4), Leaf(), Cut("y", 3), Leaf(), Leaf()])
        self.assertEqual(straight_cuts(Bin(1, 1, 5), [Section(0, 0, 2, 1, 1, 3)]), [Cut("z", 2), Leaf(), Leaf()])
        self.assertEqual(straight_cuts((10, 10), [(0, 0, 0, 4, 10, 1)]), [Cut("x", 4), Leaf(), Leaf()])

    def test_placements_stand_for_their_sections(self):
        packing = pack({"sheet": self.SHEET}, {"hat": Box(4, 10), "cap": Box(6, 3)})
        self.assertEqual(straight_cuts(self.SHEET, packing), straight_cuts(self.SHEET, [it.section for it in packing]))
        elsewhere = Placement("hat", "hats", "attic", 0, 0, 0, 4, 10, 1)
        self.assertEqual(straight_cuts(self.SHEET, [elsewhere]), [Cut("x", 4), Leaf(), Leaf()])

    def test_a_pinwheel_has_no_plan(self):
        strips = [Section(*it) for it in PINWHEEL]
        self.assertIsNone(straight_cuts(Bin(3, 3), strips))
        self.assertIsNotNone(straight_cuts(Bin(3, 3), strips[1:]))

    def test_boxes_outside(self):
        said = "These boxes do not stand in the bin: boxes[2] is not inside it"
        # What is outside comes before what shares a cell.
        boxes = [at(0, 0, 4, 10), at(3, 9, 2, 1), at(9, 0, 2, 1), at(0, 10, 1, 1)]
        self.assertEqual(self.refusal(boxes), (2, None, said))
        self.assertEqual(self.refusal([at(10, 10, 0, 1)])[:2], (0, None))
        # Numbers are not added up in 32 bits.
        largest = 2**32 - 1
        self.assertEqual(self.refusal([at(1, 0, largest, 1)], Bin(largest, 1))[:2], (0, None))
        self.assertEqual(straight_cuts(Bin(largest, 1), [at(0, 0, largest, 1)]), [Leaf()])

    def test_boxes_that_share_a_cell(self):
        boxes = [at(6, 6, 1, 1), at(0, 0, 4, 10), at(3, 9, 2, 1), at(6, 6, 1, 1)]
        said = "These boxes do not stand in the bin: boxes[1] and boxes[2] share a cell"
        self.assertEqual(self.refusal(boxes), (1, 2, said))
        # What has no cells shares none.
        self.assertEqual(straight_cuts(self.SHEET, [at(1, 1, 0, 3), at(0, 0, 4, 10)]), [Cut("x", 4), Leaf(), Leaf()])

    def test_long_plans_are_whole(self):
        # Each box has a leaf, and free sections on most sides, which is more than the first array has room for.
        boxes = [Section(at, at, at, 1, 1, 1) for at in range(1, 151, 3)]
        plan = straight_cuts(Bin(151, 151, 151), boxes)
        self.assertGreater(len(plan), 8 * (len(boxes) + 1))
        check_plan(self, Bin(151, 151, 151), boxes, plan)


class Refusals(unittest.TestCase):
    def test_numbers_are_not_cut(self):
        wrong = ((-1, ValueError), (2**32, ValueError), (1.5, TypeError), (True, TypeError), (None, TypeError))
        for bad, error in wrong:
            for field in Section._fields:
                self.assertRaises(error, straight_cuts, Bin(9, 9), [at(0, 0, 1, 1)._replace(**{field: bad})])
            for field in ("width", "height", "depth"):
                self.assertRaises(error, straight_cuts, Bin(9, 9)._replace(**{field: bad}), [])
        self.assertRaises(TypeError, straight_cuts, Bin(9, 9), [(0, 0, 1, 1)])

    def test_want_of_memory(self):
        with mock.patch.object(rectangle_pack._library, "call", return_value=2), self.assertRaises(OutOfMemory):
            straight_cuts(Bin(1, 1), [])


def check_plan(test, bin, boxes, plan):
    """Each box with cells is a leaf, once. The other leaves share no cell with a box; so all cells of the bin are in a leaf."""
    whole = Section(0, 0, 0, *bin[:3])
    leaves = checked_leaves(tree_of(plan, whole), whole)
    with_cells = [it for it in boxes if volume(it)]
    free = Counter(leaves) - Counter(with_cells)
    test.assertEqual(sum(free.values()), len(leaves) - len(with_cells), "a box is no leaf")
    test.assertEqual(sum(map(volume, leaves)), volume(whole), "leaves do not fill the bin")
    test.assertFalse([it for it in free for box in with_cells if do_share(it, box)], "a free section has a cell of a box")


def drawn_parts(r, part, most):
    """The parts into which drawn cuts part a box, as many deep as this at most."""
    axis = r.randrange(3)
    side = part[3 + axis]
    if most == 0 or side < 2:
        return [part]
    below = r.randint(1, side - 1)
    lower, upper = list(part), list(part)
    lower[3 + axis], upper[3 + axis] = below, side - below
    upper[axis] += below
    return [it for half in (lower, upper) for it in drawn_parts(r, Section(*half), most - 1)]


def pinwheel_in(r, part):
    """Four strips round the middle of a part that is three cells wide and high, or more."""
    left, right = sorted(r.sample(range(1, part.width), 2))
    low, high = sorted(r.sample(range(1, part.height), 2))
    corners = [
        (0, 0, right, low), (right, 0, part.width - right, high), (left, high, part.width - left, part.height - high),
        (0, low, left, part.height - low)]
    return [Section(part.x + x, part.y + y, part.z, width, height, part.depth) for x, y, width, height in corners]


class Drawn(unittest.TestCase):
    def drawn_boxes(self, r, bin):
        """Boxes that drawn cuts leave, some of which are left out; and one without cells."""
        parts = drawn_parts(r, Section(0, 0, 0, *bin[:3]), r.randint(0, 6))
        empty = Section(*(r.randint(0, side) for side in bin[:3]), 0, 0, 0)
        return [*(it for it in parts if r.random() < 0.7), empty]

    def test_boxes_from_cuts_have_a_plan(self):
        r = random.Random(5)
        for number in range(DRAWS):
            bin = Bin(r.randint(1, 12), r.randint(1, 12), r.choice([1, r.randint(1, 12)]))
            boxes = self.drawn_boxes(r, bin)
            r.shuffle(boxes)
            with self.subTest(number):
                check_plan(self, bin, boxes, straight_cuts(bin, boxes))

    def test_a_pinwheel_among_them_has_none(self):
        r, pinwheels = random.Random(6), 0
        while pinwheels < DRAWS // 3:
            bin = Bin(r.randint(3, 12), r.randint(3, 12), r.randint(1, 3))
            parts = drawn_parts(r, Section(0, 0, 0, *bin[:3]), r.randint(0, 4))
            home = next((it for it in parts if it.width > 2 and it.height > 2), None)
            if home is None:
                continue
            boxes = [*pinwheel_in(r, home), *(it for it in parts if it is not home and r.random() < 0.7)]
            r.shuffle(boxes)
            self.assertIsNone(straight_cuts(bin, boxes), (bin, boxes))
            pinwheels += 1

    def first_wrong(self, bin, boxes):
        """The index of the first box that is outside, or those of the first that shares a cell with an earlier one."""
        for index, it in enumerate(boxes):
            if any(corner + side > most for corner, side, most in zip(it[:3], it[3:], bin)):
                return index, None
        for second, it in enumerate(boxes):
            for first in range(second):
                if do_share(boxes[first], it):
                    return first, second
        return None

    def test_wrong_boxes_are_named(self):
        r, found = random.Random(7), Counter()
        for number in range(DRAWS):
            bin = Bin(r.randint(1, 12), r.randint(1, 12), r.randint(1, 3))
            boxes = self.drawn_boxes(r, bin)
            more = Section(*(r.randrange(side) for side in bin[:3]), *(r.randint(1, 2) for _ in bin[:3]))
            boxes.insert(r.randint(0, len(boxes)), more)
            wrong = self.first_wrong(bin, boxes)
            try:
                straight_cuts(bin, boxes)
                said = None
            except WrongBoxes as error:
                said = error.first, error.second
            self.assertEqual(said, wrong, (number, bin, boxes))
            found["right" if wrong is None else "outside" if wrong[1] is None else "shares"] += 1
        self.assertGreater(min(found.values()), DRAWS // 10, found)
        self.assertEqual(len(found), 3)

    def test_plans_are_those_of_sessions_that_are_cut_anew(self):
        r, count = random.Random(8), 0
        for number in range(DRAWS // 10):
            bin = Bin(r.randint(1, 20), r.randint(1, 20), r.choice([1, 6]))
            with Session([bin]) as session:
                for _ in range(r.randint(0, 40)):
                    try:
                        session.place_best("box", *(r.randint(1, min(side, 5)) for side in bin[:3]))
                    except NotEnoughBinSpace:
                        continue
                session.release_all(it.number for it in session.outstanding() if r.random() < 0.3)
                session.recut(0)
                self.assertEqual(straight_cuts(bin, session.outstanding()), session.cut_plan(0), number)
                count += len(session.outstanding())
        self.assertGreater(count, DRAWS // 2)


def load_tests(loader, tests, pattern):
    tests.addTests(doctest.DocTestSuite(rectangle_pack._cutting))
    return tests


if __name__ == "__main__":
    unittest.main()
