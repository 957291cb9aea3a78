#!/usr/bin/env python3
"""Cutting plans, as steps and as trees."""
import gc
import random
import unittest

from rectangle_pack import Bin, Box, Cut, CutNode, Leaf, NotEnoughBinSpace, Section, Session
from rectangle_pack._cuts import tree_of


def steps_of(tree):
    """The steps of a plan, by its tree."""
    steps, waiting = [], [tree]
    while waiting:
        part = waiting.pop()
        if isinstance(part, CutNode):
            steps.append(Cut(part.axis, part.place))
            waiting += [part.upper, part.lower]
        else:
            steps.append(Leaf())
    return steps


def checked_leaves(tree, whole):
    """The leaves of a tree, in order. Each cut goes through its part, and the leaves are what the cuts leave."""
    parts, leaves = [(tree, whole)], []
    while parts:
        tree, part = parts.pop()
        if isinstance(tree, Section):
            assert tree == part, "a leaf is another part"
            leaves.append(tree)
            continue
        side = {"x": "width", "y": "height", "z": "depth"}[tree.axis]
        below = tree.place - getattr(part, tree.axis)
        above = getattr(part, side) - below
        assert below > 0 and above > 0, "a cut at the end of a part"
        upper, lower = part._replace(**{tree.axis: tree.place, side: above}), part._replace(**{side: below})
        parts += [(tree.upper, upper), (tree.lower, lower)]
    return leaves


class Plans(unittest.TestCase):
    def test_by_hand(self):
        with Session({7: Bin(10, 10), 8: Bin(1, 1, 3), 9: Bin(0, 5)}) as session:
            self.assertEqual([session.cut_plan(bin) for bin in (7, 8, 9)], [[Leaf()]] * 3)
            self.assertEqual(session.cut_tree(9), Section(0, 0, 0, 0, 5, 1))
            session.pack([Box(1, 1, 2)])
            self.assertEqual(session.cut_plan(8), [Cut("z", 2), Leaf(), Leaf()])
            tree = session.cut_tree(8)
            self.assertEqual((tree.axis, tree.place), ("z", 2))
            self.assertEqual((tree.lower, tree.upper), (Section(0, 0, 0, 1, 1, 2), Section(0, 0, 2, 1, 1, 1)))
            # 4x3 leaves 6x10 beside it and 4x7 above it, or 6x3 and 10x7: the smallest of these is 6x3, so a cut at x would
            # go through 10x7.
            session.pack([Box(4, 3)])
            self.assertEqual(session.cut_plan(7), [Cut("y", 3), Cut("x", 4), Leaf(), Leaf(), Leaf()])
            tree = session.cut_tree(7)
            self.assertEqual((tree.axis, tree.place, tree.lower.axis, tree.lower.place), ("y", 3, "x", 4))
            self.assertEqual((tree.lower.lower, tree.lower.upper), (Section(0, 0, 0, 4, 3, 1), Section(4, 0, 0, 6, 3, 1)))
            self.assertEqual(tree.upper, Section(0, 3, 0, 10, 7, 1))

    def test_a_pinwheel_has_no_plan(self):
        with Session({7: Bin(3, 3)}) as session:
            session.pack([Box(1, 1)] * 9)
            for number in (0, 1, 2, 6, 7, 8, 3, 4):
                session.release(number)
            self.assertEqual(len(session.cut_plan(7)), 17)
            # Four strips round the box that stays: each straight cut would go through one of them.
            for index in range(4):
                session.coalesce(7, index, index, index + 2)
            strips = [(0, 0, 0, 2, 1, 1), (2, 0, 0, 1, 2, 1), (1, 2, 0, 2, 1, 1), (0, 1, 0, 1, 2, 1)]
            self.assertEqual(session.free_sections(7), strips)
            self.assertIsNone(session.cut_plan(7))
            self.assertIsNone(session.cut_tree(7))
            # All of it is free now, and still no two share a whole face.
            session.release(5)
            session.coalesce_all(7)
            self.assertEqual(session.free_sections(7), [*strips, (1, 1, 0, 1, 1, 1)])
            self.assertIsNone(session.cut_plan(7))

    def test_of_boxes_that_come_and_go(self):
        r, sizes, none = random.Random(5), {"a": (6, 5, 4), "b": (9, 9, 1)}, 0
        with Session({name: Bin(*size) for name, size in sizes.items()}) as session:
            for _ in range(200):
                try:
                    session.pack([Box(*(r.randint(1, 3) for _ in range(3))) for _ in range(r.randint(1, 4))])
                except NotEnoughBinSpace:
                    for it in r.sample(session.outstanding(), len(session.outstanding()) // 2):
                        session.release(it.number)
                bin = r.choice("ab")
                if r.random() < 0.5:
                    session.coalesce(bin, *(r.randint(0, 12) for _ in range(3)))
                none += session.cut_tree(bin) is None
                self.check(session, bin, sizes[bin])
        self.assertGreater(none, 0)

    def check(self, session, bin, size):
        """The leaves are the free sections and the boxes, each once. Without joins there is a plan."""
        plan, tree = session.cut_plan(bin), session.cut_tree(bin)
        if plan is None:
            self.assertIsNone(tree)
            self.assertTrue(session.was_coalesced(bin))
            return
        self.assertEqual(steps_of(tree), plan)
        boxes = [it.section for it in session.outstanding() if it.bin == bin]
        self.assertCountEqual(checked_leaves(tree, Section(0, 0, 0, *size)), [*session.free_sections(bin), *boxes])


class Trees(unittest.TestCase):
    def test_one_prints_its_own_cut_alone(self):
        self.assertEqual(repr(tree_of([Cut("y", 2), Leaf(), Leaf()], Section(0, 0, 0, 3, 4, 1))), "CutNode(axis='y', place=2)")

    def test_of_a_row(self):
        count = 3000
        with Session({"row": Bin(count, 1)}) as session:
            packing = session.pack([Box(1, 1)] * count)
            tree = session.cut_tree("row")
            self.assertEqual(checked_leaves(tree, Section(0, 0, 0, count, 1, 1)), [it.section for it in packing])

    def test_a_deep_one_is_made_and_goes_without_recursion(self):
        count = 200_000
        pile, row = Section(0, 0, 0, 1, 1, count), Section(0, 0, 0, count, 1, 1)
        lower_is_cut = tree_of([Cut("z", count - i) for i in range(1, count)] + [Leaf()] * count, pile)
        upper_is_cut = tree_of([it for i in range(1, count) for it in (Cut("x", i), Leaf())] + [Leaf()], row)
        for tree in (lower_is_cut, upper_is_cut):
            repr(tree), hash(tree)
            self.assertNotEqual(tree, None)
        self.assertEqual(len(checked_leaves(lower_is_cut, pile)), count)
        self.assertEqual(len(checked_leaves(upper_is_cut, row)), count)
        del tree, lower_is_cut, upper_is_cut
        gc.collect()


if __name__ == "__main__":
    unittest.main()
