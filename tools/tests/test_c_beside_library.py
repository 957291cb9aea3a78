"""What the library for C and the program over the library are compared by, and the lines that are drawn for them."""
import random
import unittest

from asked_in_c import Asked
from c_beside_library import UNANSWERED, as_compared, counted, difference, without_numbers
from drawn_calls import Drawn, DrawnOnce, DrawnSession

# These forget what lines told of a packing, or of a release.
ENDS = {"pack", "fitting", "told", "search", "least", "place", "fit", "find"}


class Answers(unittest.TestCase):
    def test_groups_that_are_left_are_in_order(self) -> None:
        self.assertEqual(as_compared("fitting", "3 7 2 4 0 0 9 0 1 "), "3 7 2 0 1 0 9 4 0")
        self.assertEqual(as_compared("fitting", "3 7 2"), "3 7 2")

    def test_a_search_is_compared_without_its_time(self) -> None:
        self.assertEqual(as_compared("search", "0 5 2 -1 0 30 1 412"), "0 5 2 -1 0 30 1")
        self.assertEqual(as_compared("search", "-1"), "-1")
        self.assertEqual(as_compared("told", "-1 2 4 "), "-1 2 4")

    def test_what_stands_in_bins_of_one_call_has_no_number(self) -> None:
        self.assertEqual(without_numbers("placed", "0 2 0 0 0 0 1 1 3 4 5 6"), "1 3 4 5 6 2 0 0 0 0")
        self.assertEqual(without_numbers("placed", ""), "")
        self.assertEqual(without_numbers("least", "4"), "4")

    def test_differences(self) -> None:
        ours = [("bin", "0"), ("least", "1")]
        self.assertEqual(difference(ours, [*ours]), "")
        self.assertIn("('least', '1') and ('least', '2')", difference(ours, [ours[0], ("least", "2")]))
        self.assertIn("and None", difference(ours, ours[:1]))
        self.assertIn("None and", difference(ours[:1], ours))

    def test_counts(self) -> None:
        answers = [("told", "-1 2 4"), ("told", "0 3"), ("least", "-1"), ("plan", "")]
        self.assertEqual(counted(answers), {"told refused": 1, "told": 1, "least refused": 1, "plan": 1})


class Lists(unittest.TestCase):
    def test_lines_tell_of_the_next_call(self) -> None:
        asked = Asked()
        lines = (
            ("box", (4, 5, 6, 0)), ("box", (1, 2, 3, 7)), ("member", (0, 7)), ("member", (1, 0)), ("exclude", (7, 8, 0, 0)),
            ("turn", (1, 0, 1, 1)), ("turn", (3, 0, 1, 1)), ("cost", (9, 5)))
        for word, numbers in lines:
            self.assertTrue(asked.take(word, numbers))
        self.assertFalse(asked.take("pack", (0,)))
        self.assertEqual([asked.name(entry) for entry in range(asked.count())], [(0, 0), (7, 0), (7, 0), (0, 3)])
        self.assertEqual([asked.size(entry) for entry in range(asked.count())], [(4, 5, 6), (1, 2, 3), (4, 5, 6), (1, 2, 3)])
        self.assertEqual(asked.names([3, 2, 1]), [(0, 3), (7, 0)])
        self.assertEqual((asked.exclusions, asked.costs), ([(7, 8)], [(9, 5)]))
        # Height and depth are changed about x, width and depth about y, width and height about z.
        self.assertEqual(asked.turns, {1: 6, 3: 6})
        self.assertEqual(asked.turned()[1], 2)


class Lines(unittest.TestCase):
    def all_drawn(self, drawn: list[Drawn]) -> set[str]:
        """Nothing that was told is left at the end. The words of all lines."""
        for it in drawn:
            words = [word for word, _ in it.lines]
            last = max((place for place, word in enumerate(words) if word in UNANSWERED), default=-1)
            self.assertTrue({*words[last + 1 :]} & (ENDS | {"releases"}), words)
        return {word for it in drawn for word, _ in it.lines}

    def test_sessions(self) -> None:
        words = self.all_drawn([DrawnSession(random.Random(seed)) for seed in range(30)])
        self.assertLessEqual({*ENDS, *UNANSWERED, "bin", "releases", "placed_in", "plan", "free", "recut", "grow", "remove"}, words)

    def test_packings_of_one_call(self) -> None:
        drawn: list[Drawn] = [DrawnOnce(random.Random(seed)) for seed in range(200)]
        words = self.all_drawn(drawn)
        self.assertEqual(words, {"bin", "placed", "pack", "fitting", "told", "search", "least", *UNANSWERED} - {"number"})
        self.assertTrue(all(sum(word in ENDS for word, _ in it.lines) == 1 for it in drawn))

    def test_members_are_turned_as_their_boxes(self) -> None:
        for seed in range(100):
            lines = DrawnOnce(random.Random(seed)).lines
            turns = {numbers[0]: numbers[1:] for word, numbers in lines if word == "turn"}
            boxes = sum(word == "box" for word, _ in lines)
            members = [numbers[0] for word, numbers in lines if word == "member"]
            for place, box in enumerate(members):
                self.assertEqual(turns.get(boxes + place), turns.get(box))


if __name__ == "__main__":
    unittest.main()
