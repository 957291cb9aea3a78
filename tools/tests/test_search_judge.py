"""The judge of searches finds what is wrong with a packing, and nothing else."""
import unittest
from collections.abc import Sequence
from typing import Any

from packing_model import Bin, Box, Collection, Name, Placement, Three
from search_judge import Case, Row, Said, beside_heuristics, do_share, faults, is_better, outlay

FLAT = frozenset({2})


def case(
    boxes: Sequence[tuple[Three, int]], bins: Sequence[Three], standing: Sequence[Placement] = (),
    excluded: Sequence[tuple[Name, Name]] = (), **more: object,
) -> Case:
    """Boxes, each with its group, and empty bins. All has to be placed, and ten tries are made, if nothing else is said."""
    collection = Collection(excluded={frozenset(pair) for pair in excluded})
    for entry, (size, group) in enumerate(boxes):
        collection.sizes.append(size)
        collection.push(entry, group)
    given: dict[str, Any] = {"turns": {}, "costs": {}, "may_leave": False, "tries": 10, **more}
    return Case(collection, {number: Bin.new(size) for number, size in enumerate(bins)}, standing, excluded, **given)


def at(entry: int, bin: int, corner: Three, size: Three) -> Placement:
    return Placement(entry, bin, Box(corner, size))


def group(number: int) -> Name:
    return number, 0


# Two boxes that fill the half of a bin each, and where they stand.
HALVES = [((10, 5, 1), 0), ((10, 5, 1), 0)]
SHEETS = [(10, 10, 1)] * 2
BOTH: list[Row] = [at(0, 0, (0, 0, 0), (10, 5, 1)), at(1, 0, (0, 5, 0), (10, 5, 1))]
SAID = Said(0, 1, 1, True, 0)


class Judge(unittest.TestCase):
    def finds(self, case: Case, rows: Sequence[Row], said: Said, *words: str) -> None:
        """There are as many faults as words, and each has its words."""
        found = faults(case, rows, said)
        self.assertEqual(len(found), len(words), found)
        for fault, part in zip(found, words):
            self.assertIn(part, fault)

    def test_a_packing(self) -> None:
        self.finds(case(HALVES, SHEETS), BOTH, SAID)

    def test_boxes(self) -> None:
        self.finds(case(HALVES, SHEETS), [BOTH[0], at(1, 0, (0, 6, 0), (10, 5, 1))], SAID, "is not inside")
        self.finds(case(HALVES, SHEETS), [BOTH[0], at(1, 0, (0, 4, 0), (10, 5, 1))], SAID, "share a cell")
        unknown = [BOTH[0], at(1, 2, (0, 0, 0), (10, 5, 1))]
        self.assertIn("box 1 is in no bin", faults(case(HALVES, SHEETS), unknown, SAID))
        stood = [at(7, 0, (9, 9, 0), (1, 1, 1))]
        self.assertIn("share a cell", faults(case(HALVES, SHEETS, stood), BOTH, SAID)[0])

    def test_turns(self) -> None:
        # The second panel goes beside the first where it is turned.
        panels = [((4, 10, 1), 0), ((10, 6, 1), 0)]
        turned: list[Row] = [at(0, 0, (0, 0, 0), (4, 10, 1)), at(1, 0, (4, 0, 0), (6, 10, 1))]
        self.finds(case(panels, SHEETS, turns={1: FLAT}), turned, SAID)
        self.finds(case(panels, SHEETS), turned, Said(0, 1, 2, True, 0), "another size")

    def test_groups(self) -> None:
        apart: list[Row] = [BOTH[0], at(1, 1, (0, 0, 0), (10, 5, 1))]
        one = [(size, 1) for size, _ in HALVES]
        self.assertIn("is not whole", faults(case(one, SHEETS), apart, Said(0, 2, 1, False, 0))[0])
        left = case(one, SHEETS, may_leave=True)
        self.assertIn("is not whole", faults(left, [BOTH[0], None], Said(1, 1, 1, False, 0))[0])
        two = [(HALVES[0][0], 1), (HALVES[1][0], 2)]
        excluded = [(group(1), group(2))]
        self.finds(case(two, SHEETS, excluded=excluded), apart, Said(0, 2, 2, True, 0))
        self.finds(case(two, SHEETS, excluded=excluded), BOTH, Said(0, 1, 2, True, 0), "are in one bin")

    def test_what_is_said(self) -> None:
        for said in (Said(1, 1, 1, True, 0), Said(0, 2, 1, True, 0), Said(0, 1, None, True, 0), Said(0, 1, 1, False, 0)):
            self.finds(case(HALVES, SHEETS), BOTH, said, "is said")
        self.finds(case(HALVES, SHEETS), BOTH, Said(0, 1, 1, True, 11), "were asked for")

    def test_what_is_left(self) -> None:
        # Three halves do not go on one sheet.
        halves, rows = [*HALVES, HALVES[0]], [*BOTH, None]
        self.finds(case(halves, SHEETS[:1], may_leave=True), rows, Said(1, 1, None, False, 0))
        self.finds(case(halves, SHEETS[:1]), rows, Said(1, 1, None, False, 0), "what may not be left is")
        nothing: list[Row] = [None, None, None]
        worse = faults(case(halves, SHEETS[:1], may_leave=True), nothing, Said(3, 0, None, False, 0))
        self.assertEqual(len(worse), 8, "each heuristic leaves one box")

    def test_heuristics(self) -> None:
        apart: list[Row] = [BOTH[0], at(1, 1, (0, 0, 0), (10, 5, 1))]
        worse = faults(case(HALVES, SHEETS), apart, Said(0, 2, 1, False, 0))
        self.assertEqual(len(worse), 8, "each heuristic needs one bin")
        self.assertEqual(len([*beside_heuristics(case(HALVES, SHEETS), None)]), 8)
        self.assertEqual([*beside_heuristics(case([*HALVES, HALVES[0]], SHEETS[:1]), None)], [])

    def test_outlays(self) -> None:
        # The heuristics take the dear sheet, which stands first.
        dear = case(HALVES, SHEETS, costs={0: 5})
        cheap: list[Row] = [at(0, 1, (0, 0, 0), (10, 5, 1)), at(1, 1, (0, 5, 0), (10, 5, 1))]
        self.assertEqual(outlay(dear, BOTH), (0, 5, 1, 100))
        self.assertEqual(outlay(dear, cheap), (0, 1, 1, 100))
        self.assertEqual(outlay(case(HALVES, SHEETS), [BOTH[0], None]), (50, 1, 1, 50))
        self.assertTrue(is_better(dear, cheap))
        self.assertFalse(is_better(dear, BOTH))

    def test_shared_cells(self) -> None:
        one = Box((0, 0, 0), (2, 2, 2))
        self.assertTrue(do_share(one, Box((1, 1, 1), (5, 5, 5))))
        self.assertFalse(do_share(one, Box((2, 0, 0), (2, 2, 2))))
        self.assertFalse(do_share(one, Box((1, 1, 1), (0, 1, 1))))


if __name__ == "__main__":
    unittest.main()
