"""Pages of the command sheet whose sides are squares, multiples or powers of two, and what is said where none is left."""
from __future__ import annotations

import random
import unittest

from rectangle_pack import NotEnoughBinSpace, pack
from rectangle_pack.commands._sheet.rules import PageRules
from rectangle_pack.commands._sheet.share import shared_out
from rectangle_pack.commands._sheet.shrink import shrunk

from .test_sheet_tools import SheetCase, drawn, full, noise, run

WRONG, NO_ROOM = 2, 1


class Sides(SheetCase):
    def pages(self, count: int, size: tuple[int, int], *words: object) -> list[tuple[int, int]]:
        """The sizes of the pages of so many sprites of this size, without padding."""
        self.clean()
        self.write({str(number): noise(random.Random(number), *size) for number in range(count)})
        return [(page.width, page.height) for page in self.sheet("--padding", 0, *words).pages]

    def test_squares(self) -> None:
        # Three in a row are 30x10; a square that takes three takes four.
        self.assertEqual(self.pages(3, (10, 10), "--square"), [(20, 20)])
        self.assertEqual(self.pages(5, (10, 10), "--square"), [(30, 30)])
        self.assertEqual(self.pages(1, (100, 7), "--square"), [(100, 100)])
        # Two of 100x7 stand one above the other.
        self.assertEqual(self.pages(2, (100, 7), "--square"), [(100, 100)])

    def test_squares_have_the_smaller_side_of_the_size_at_most(self) -> None:
        self.assertEqual(self.pages(9, (30, 30), "--square", "--size", "100x60"), [(60, 60), (60, 60), (30, 30)])

    def test_multiples(self) -> None:
        self.assertEqual(self.pages(1, (10, 9), "--multiple-of", 4), [(12, 12)])
        self.assertEqual(self.pages(1, (12, 8), "--multiple-of", 4), [(12, 8)])
        self.assertEqual(self.pages(9, (16, 16), "--multiple-of", 16), [(48, 48)])
        # Four of 10x10 on 100x100 have room, and so on a page of 20x20, which is 24x24 in steps of 12.
        self.assertEqual(self.pages(4, (10, 10), "--multiple-of", 12), [(24, 24)])

    def test_multiples_below_the_size(self) -> None:
        # The largest page is 100x50, which holds two of 50x50.
        self.assertEqual(self.pages(3, (50, 50), "--multiple-of", 50, "--size", "120x70"), [(100, 50), (50, 50)])

    def test_all_together(self) -> None:
        # Five of 32x32 have more cells than 64x64.
        self.assertEqual(self.pages(5, (32, 32), "--square", "--power-of-two"), [(128, 128)])
        self.assertEqual(self.pages(3, (10, 10), "--square", "--multiple-of", 12), [(24, 24)])
        self.assertEqual(self.pages(1, (3, 20), "--power-of-two", "--multiple-of", 8), [(8, 32)])
        self.assertEqual(self.pages(1, (3, 20), "--power-of-two", "--multiple-of", 8, "--square"), [(32, 32)])

    def test_drawn_sprites(self) -> None:
        for seed, (multiple, words) in enumerate((
            (1, ("--square",)), (4, ("--multiple-of", 4)), (6, ("--square", "--multiple-of", 6)),
            (1, ("--square", "--power-of-two")), (16, ("--power-of-two", "--multiple-of", 16)),
        )):
            with self.subTest(words=words):
                self.clean()
                pictures = drawn(seed, 60, 2, 24)
                self.write(pictures)
                atlas = self.sheet("--size", "100x90", "--trim", "--extrude", 1, "--border", 2, *words)
                self.check_sprites(atlas, pictures)
                self.check_places(atlas, padding=2, border=2, extrude=1)
                for page in atlas.pages:
                    self.assertLessEqual(page.width, 100)
                    self.assertLessEqual(page.height, 90)
                    self.assertTrue("--square" not in words or page.width == page.height)
                    for side in (page.width, page.height):
                        self.assertEqual(side % multiple, 0)
                        self.assertTrue("--power-of-two" not in words or side & (side - 1) == 0)

    def test_no_smaller_square_takes_the_boxes(self) -> None:
        for seed in range(30):
            r, step = random.Random(seed), seed % 3 + 1
            rules = PageRules((300, 300), padding=1, square=True, multiple_of=step)
            boxes = [rules.box((r.randint(1, 40), r.randint(1, 40))) for _ in range(r.randint(1, 30))]
            it, = shrunk(shared_out(boxes, rules, "best"), boxes, rules, "best")
            self.assertEqual((it.size[0] % step, it.size[0]), (0, it.size[1]))
            for side in range(step, it.size[0], step):
                with self.assertRaises(NotEnoughBinSpace):
                    pack([rules.bin((side, side))], boxes, heuristic="best")


class Refusals(SheetCase):
    def refused(self, status: int, *words: object) -> str:
        done = run(self.source, "-o", self.out / "x", *words)
        self.assertEqual((done.status, done.out, done.err.count("\n")), (status, "", 1), done)
        self.assertFalse(self.out.exists())
        return done.err[:-1]

    def test_why_a_page_is_smaller_than_the_size(self) -> None:
        self.write({"big": full(600, 600)})
        head = f"{self.source}/big.png: is 600x600, and a page of"
        for words, tail in (
            (("--size", 1000, "--power-of-two"),
             "512x512 takes 512x512 at most (512 is the greatest power of two up to 1000)"),
            (("--size", "1000x80", "--power-of-two"),
             "512x64 takes 512x64 at most "
             "(512 is the greatest power of two up to 1000, and 64 is the greatest power of two up to 80)"),
            (("--size", "1000x512", "--power-of-two"),
             "512x512 takes 512x512 at most (512 is the greatest power of two up to 1000)"),
            (("--size", "590", "--multiple-of", 100),
             "500x500 takes 500x500 at most (500 is the greatest multiple of 100 up to 590)"),
            (("--size", "1000x500", "--square"), "500x500 takes 500x500 at most (pages are squares)"),
            (("--size", "1000x590", "--square", "--power-of-two"),
             "512x512 takes 512x512 at most (pages are squares, and 512 is the greatest power of two up to 590)"),
            (("--size", "512", "--power-of-two"), "512x512 takes 512x512 at most"),
        ):
            self.assertEqual(self.refused(NO_ROOM, *words), f"{head} {tail}")

    def test_why_a_page_is_too_small_for_a_group(self) -> None:
        self.write({f"a/{number}": full(60, 60) for number in range(2)})
        words = ("--size", "100", "--power-of-two", "--group-by", "folder")
        self.assertEqual(
            self.refused(NO_ROOM, *words),
            "the group 'a' (2 sprites) fits no page of 64x64 (64 is the greatest power of two up to 100)")

    def test_words_that_leave_no_side(self) -> None:
        self.write({"a": full(4, 4)})
        for words, line in (
            (("--power-of-two", "--multiple-of", 12),
             "no power of two is a multiple of 12: name another --multiple-of, or no --power-of-two"),
            (("--size", "100x50", "--multiple-of", 60), "--size has the side 50, and by --multiple-of a side is 60 at least"),
            (("--power-of-two", "--scale", "1,0.75"),
             "no power of two is one at scale 0.75 too: name another --scale, or no --power-of-two"),
            (("--size", 7, "--scale", "0.125"), "--size has the side 7, and by --scale a side is 8 at least"),
            (("--size", 7, "--scale", "0.5", "--multiple-of", 4),
             "--size has the side 7, and by --multiple-of and --scale a side is 8 at least"),
        ):
            self.assertEqual(self.refused(WRONG, *words), line)

    def test_a_multiple_that_is_no_number(self) -> None:
        self.write({"a": full(4, 4)})
        done = run(self.source, "--multiple-of", 0)
        self.assertEqual((done.status, done.out), (WRONG, ""))
        self.assertTrue(done.err.endswith("error: argument --multiple-of: '0' is no whole number from 1 to 16384\n"), done.err)


if __name__ == "__main__":
    unittest.main()
