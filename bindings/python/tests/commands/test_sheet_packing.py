"""Which sprites share a page, and how small pages get: without PNG files, so that no Pillow is needed."""
from __future__ import annotations

import random
import unittest
from collections import Counter
from collections.abc import Sequence

try:
    from rectangle_pack import Bin, Box, pack
except OSError as why:
    raise unittest.SkipTest(f"the shared library is not there: {why}") from None

from rectangle_pack import NotEnoughBinSpace
from rectangle_pack.commands._common import NoRoom
from rectangle_pack.commands._sheet.rules import PageRules
from rectangle_pack.commands._sheet.share import shared_out
from rectangle_pack.commands._sheet.shrink import Smallest, shrunk

HEURISTICS = ("volume", "height", "width", "depth", "side-sum", "longest-side", "shortest-side", "side-area")


def pages_of(rules: PageRules, boxes: Sequence[Box], heuristic: str = "best") -> list[Smallest]:
    return shrunk(shared_out(boxes, rules, heuristic), boxes, rules, heuristic)  # type: ignore[arg-type]


class Packing(unittest.TestCase):
    def check(self, rules: PageRules, boxes: Sequence[Box], pages: Sequence[Smallest]) -> None:
        """Each box stands once, in its page and off the others, and each group is on one page."""
        placed: Counter[int] = Counter()
        homes: dict[object, int] = {}
        for number, it in enumerate(pages):
            self.assertLessEqual(it.size[0], rules.limit[0])
            self.assertLessEqual(it.size[1], rules.limit[1])
            room = rules.bin(it.size)
            taken: set[tuple[int, int]] = set()
            for index, (x, y) in it.page.corners.items():
                box = boxes[index]
                self.assertLessEqual(x + box.width, room.width)
                self.assertLessEqual(y + box.height, room.height)
                cells = {(i, j) for i in range(x, x + box.width) for j in range(y, y + box.height)}
                self.assertFalse(cells & taken)
                taken |= cells
                placed[index] += 1
                if box.group is not None:
                    self.assertEqual(homes.setdefault(box.group, number), number)
        self.assertEqual(placed, Counter(range(len(boxes))))

    def test_drawn_boxes_with_all_rules(self) -> None:
        r = random.Random(3)
        for _ in range(60):
            side, grouped = r.choice((24, 40)), r.random() < 0.5
            padding, border, extrude = r.randint(0, 3), r.randint(0, 2), r.randint(0, 2)
            rules = PageRules((side, side + r.randint(0, 9)), r.random() < 0.3, padding, border, extrude)
            most = min(rules.most_for_one)
            boxes = [
                rules.box((r.randint(1, most // 2), r.randint(1, most // 2)), r.choice(["", *"abcdef"]) if grouped else "")
                for _ in range(r.randint(1, 40))]
            try:
                pages = pages_of(rules, boxes, r.choice(("best", "best", *HEURISTICS)))
            except NoRoom:
                self.assertTrue(grouped)
                continue
            self.check(rules, boxes, pages)

    def test_no_more_pages_than_by_one_call_of_the_library(self) -> None:
        fewer = 0
        for seed in range(40):
            r = random.Random(seed)
            boxes = [Box(r.randint(10, 60), r.randint(10, 60)) for _ in range(60)]
            used = len({it.bin for it in pack([Bin(100, 100)] * 60, boxes, heuristic="best")})
            pages = pages_of(PageRules((100, 100)), boxes)
            self.assertLessEqual(len(pages), used)
            fewer += len(pages) < used
        self.assertGreater(fewer, 0)

    def test_no_more_pixels_than_by_cutting_off(self) -> None:
        for seed in range(20):
            r = random.Random(seed)
            boxes = [Box(r.randint(1, 20), r.randint(1, 20)) for _ in range(r.randint(2, 60))]
            whole = list(pack([Bin(300, 300)], boxes))
            cut_off = max(it.x + it.width for it in whole) * max(it.y + it.height for it in whole)
            it, = pages_of(PageRules((300, 300)), boxes)
            self.assertLess(it.size[0] * it.size[1], cut_off)

    def test_boxes_that_fill_a_square(self) -> None:
        for side, count in ((1, 1), (7, 4), (12, 25), (5, 100)):
            it, = pages_of(PageRules((500, 500)), [Box(side, side)] * count)
            self.assertEqual(it.size, (side * round(count**0.5),) * 2)

    def test_the_least_power_of_two_of_all(self) -> None:
        # No smaller one takes them, by any heuristic, and of equal ones the one that is most like a square is taken.
        for seed in range(30):
            r, rules = random.Random(seed), PageRules((256, 256), powers_of_two=True, padding=1)
            boxes = [rules.box((r.randint(1, 40), r.randint(1, 40))) for _ in range(r.randint(1, 30))]
            it, = pages_of(rules, boxes)
            sizes = [(2**i, 2**j) for i in range(9) for j in range(9)]
            for size in sizes:
                if (size[0] * size[1], max(size)) < (it.size[0] * it.size[1], max(it.size)):
                    with self.assertRaises(NotEnoughBinSpace):
                        pack([Bin(size[0] + 1, size[1] + 1)], boxes, heuristic="best")
            self.assertIn(it.size, sizes)

    def test_groups_that_no_one_heuristic_takes(self) -> None:
        # One of them fits a page only by the longest side, the other only by width or by the area of a side.
        one = [(5, 4), (7, 3), (3, 1), (1, 7), (3, 9), (1, 7)]
        two = [(3, 3), (3, 5), (5, 7), (7, 3), (2, 4)]
        boxes = [Box(*size, group=name) for name, sizes in (("one", one), ("two", two)) for size in sizes]
        rules = PageRules((10, 10))
        for name in HEURISTICS:
            with self.assertRaises(NotEnoughBinSpace):
                pack([Bin(10, 10)] * 2, boxes, heuristic=name)  # type: ignore[call-overload]
            with self.assertRaises(NoRoom):
                pages_of(rules, boxes, name)
        # They have 85 and 88 cells. With 36 more there are more than 200.
        for squares, count in ((0, 2), (9, 3)):
            whole = boxes + [Box(2, 2)] * squares
            pages = pages_of(rules, whole)
            self.assertEqual(len(pages), count)
            self.check(rules, whole, pages)

    def test_a_page_is_filled_by_a_smaller_group(self) -> None:
        # Beside the one of 60 cells only the one of 40 has room, though both of 50 come before it.
        boxes = [Box(5, high, group=name) for name, high in (("a", 6), ("b", 5), ("c", 4), ("d", 5)) for _ in range(2)]
        pages = pages_of(PageRules((10, 10)), boxes)
        self.assertEqual([it.size for it in pages], [(10, 10)] * 2)
        self.check(PageRules((10, 10)), boxes, pages)

    def test_a_group_goes_with_boxes_that_are_alone(self) -> None:
        # A box that is larger than all of the group goes first.
        boxes = [Box(10, 9), *[Box(3, 3, group="g")] * 2, Box(10, 7), Box(10, 1)]
        pages = pages_of(PageRules((10, 10)), boxes)
        self.assertEqual(len(pages), 2)
        self.check(PageRules((10, 10)), boxes, pages)

    def test_equal_boxes_get_equal_pages(self) -> None:
        r = random.Random(5)
        boxes = [Box(r.randint(1, 30), r.randint(1, 30), group=r.choice([None, *"abc"])) for _ in range(60)]
        rules = PageRules((99, 99))
        self.assertEqual(pages_of(rules, boxes), pages_of(rules, list(boxes)))


if __name__ == "__main__":
    unittest.main()
