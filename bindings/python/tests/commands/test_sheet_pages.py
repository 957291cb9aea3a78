"""How many pages the command sheet needs, and how long it looks for them: without PNG files, so that no Pillow is needed."""
from __future__ import annotations

import random
import time
import unittest
from collections.abc import Sequence
from unittest.mock import patch

try:
    from rectangle_pack import Bin, Box, pack
except OSError as why:
    raise unittest.SkipTest(f"the shared library is not there: {why}") from None

from rectangle_pack.commands._common import NoRoom
from rectangle_pack.commands._sheet import packer
from rectangle_pack.commands._sheet.rules import PageRules
from rectangle_pack.commands._sheet.share import Page, shared_out

SIDE = 64
RULES = PageRules((SIDE, SIDE))


def squares(r: random.Random, side: int, least: int, group: str | None = None) -> list[Box]:
    """Squares that fill a square of this side. Each side is a power of two."""
    if side == least or side < SIDE and r.random() < 0.4:
        return [Box(side, side, group=group)]
    return [box for _ in range(4) for box in squares(r, side // 2, least, group)]


def shuffled(r: random.Random, boxes: Sequence[Box]) -> list[Box]:
    return r.sample(list(boxes), len(boxes))


class Fewest(unittest.TestCase):
    """Of squares whose sides are powers of two the larger ones go first. So each free section has sides that are multiples of the
    next square, which fits as long as a cell is free: as many pages are needed as the area says."""

    def check(self, boxes: Sequence[Box], count: int) -> list[Page]:
        """All boxes stand on so many pages, each box once, and each group on one page. All pages are full."""
        self.assertEqual(sum(box.width * box.height for box in boxes), count * SIDE * SIDE)
        pages = shared_out(boxes, RULES, "best")
        self.assertEqual(len(pages), count)
        self.assertEqual(sorted(index for page in pages for index in page.corners), list(range(len(boxes))))
        homes: dict[object, int] = {}
        for number, page in enumerate(pages):
            cells: set[tuple[int, int]] = set()
            for index, (x, y) in page.corners.items():
                box = boxes[index]
                cells.update((x + i, y + j) for i in range(box.width) for j in range(box.height))
                if box.group is not None:
                    self.assertEqual(homes.setdefault(box.group, number), number, box.group)
            self.assertEqual(cells, {(x, y) for x in range(SIDE) for y in range(SIDE)})
        return pages

    def test_boxes_that_are_alone(self) -> None:
        for seed in range(4):
            r = random.Random(seed)
            boxes = [box for _ in range(20) for box in squares(r, SIDE, 4)]
            self.check(shuffled(r, boxes), 20)

    def test_a_wide_box_and_a_narrow_one_on_each_page(self) -> None:
        # Two wide ones are wider than a page, and of narrow ones one fits beside a wide one.
        boxes = [Box(width, SIDE) for width in range(33, 63)] + [Box(SIDE - width, SIDE) for width in range(33, 63)]
        self.check(shuffled(random.Random(1), boxes), 30)

    def test_pairs_of_groups(self) -> None:
        # Each group has half of a page, so any two of them fill one.
        r = random.Random(2)
        boxes = [box for name in range(40) for _ in range(2) for box in squares(r, SIDE // 2, 4, f"g{name}")]
        self.check(shuffled(r, boxes), 20)

    def test_a_large_group_and_a_small_one_on_each_page(self) -> None:
        r = random.Random(3)
        boxes = [
            box for name in range(15) for part in ("large", "large", "large", "small")
            for box in squares(r, SIDE // 2, 4, f"{part} {name}")]
        self.check(shuffled(r, boxes), 15)

    def test_groups_and_boxes_that_are_alone(self) -> None:
        # What a group leaves of a page is filled by boxes that are smaller than all of the groups.
        r = random.Random(4)
        boxes = [box for name in range(12) for _ in range(3) for box in squares(r, SIDE // 2, 8, f"g{name}")]
        boxes += [Box(4, 4)] * (12 * 64)
        self.check(shuffled(r, boxes), 12)


class Groups(unittest.TestCase):
    def test_they_stay_together_on_many_pages(self) -> None:
        r = random.Random(5)
        boxes = [Box(r.randint(3, 20), r.randint(3, 20), group=r.choice([None, *range(150)])) for _ in range(700)]
        pages = shared_out(boxes, RULES, "best")
        self.assertGreater(len(pages), 20)
        homes = [(boxes[index].group, number) for number, page in enumerate(pages) for index in page.corners]
        named = {(group, number) for group, number in homes if group is not None}
        self.assertEqual(len(homes), len(boxes))
        self.assertEqual(len(named), len({group for group, _ in named}))

    def test_one_that_fits_no_page_is_named(self) -> None:
        # Four squares of 33 have more cells than a page, though each fits one, and so does the group before it.
        boxes = [Box(60, 60, group="fits"), *[Box(33, 33, group="too large")] * 4]
        with self.assertRaisesRegex(NoRoom, r"^the group 'too large' \(4 sprites\) fits no page of 64x64$"):
            shared_out(boxes, RULES, "best")

    def test_one_that_fits_in_the_order_of_its_sizes_alone_is_packed(self) -> None:
        """Boxes that are rated alike go in one of two orders, and a group is refused only where neither takes it."""
        for seed in range(300):
            r = random.Random(seed)
            boxes = [Box(r.randint(1, 6), r.randint(1, 6), group="g") for _ in range(8)]
            alone = [Box(*box[:2]) for box in boxes]
            falling = sorted(alone, key=lambda box: box.width + box.height, reverse=True)
            fits = [not pack([Bin(10, 10)], order, partial=True).left for order in (alone, falling)]
            if any(fits):
                self.assertEqual(len(shared_out(boxes, PageRules((10, 10)), "volume")), 1)
            else:
                with self.assertRaises(NoRoom):
                    shared_out(boxes, PageRules((10, 10)), "volume")


class Time(unittest.TestCase):
    """2,000 tiny sprites, alone and in groups, on three pages: they have 24,152 cells, and two pages have 20,000."""

    def setUp(self) -> None:
        r = random.Random(6)
        sizes = [(r.randint(1, 6), r.randint(1, 6)) for _ in range(2000)]
        self.sets = [
            [Box(*size, group=number % groups if groups else None) for number, size in enumerate(sizes)]
            for groups in (0, 50, 1000)]

    def test_seconds_of_the_processor(self) -> None:
        for boxes in self.sets:
            begin = time.process_time()
            self.assertEqual(len(shared_out(boxes, PageRules((100, 100)), "best")), 3)
            self.assertLess(time.process_time() - begin, 20)

    def test_how_often_boxes_are_packed(self) -> None:
        # If groups of two were tried one by one, a page that takes 300 of them would have its boxes packed 150 times in the mean.
        for boxes in self.sets:
            with patch.object(packer, "pack", wraps=pack) as packed:
                shared_out(boxes, PageRules((100, 100)), "best")
            self.assertLess(sum(len(call.args[1]) for call in packed.call_args_list), 100 * len(boxes))


if __name__ == "__main__":
    unittest.main()
