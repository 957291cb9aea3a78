"""The command check on tables."""
from __future__ import annotations

import unittest
from pathlib import Path

from .check_cases import CheckCase

FLAT = ["name,page,x,y,width,height,bin_width,bin_height", "hat,one,0,0,10,20,20,30", "cap,one,10,0,10,8,20,30",
        "wig,one,10,8,10,22,,", "boot,two,0,0,5,5,5,5"]
SOLID = ["name,bin,x,y,z,width,height,depth", "milk,van,0,0,0,1.2,1.05,0.8", "paint,van,1.2,0,0,1,0.95,1.2",
         "lathe,van,0,0,1.2,1.1,1.6,2.1"]


class TableCase(CheckCase):
    def table(self, lines: list[str], old: str = "", new: str = "") -> Path:
        """A table in which one line is changed."""
        if old:
            self.assertEqual(lines.count(old), 1)
        return self.file("boxes.csv", "".join(f"{new if old and line == old else line}\n" for line in lines))


class Flat(TableCase):
    def test_sound(self) -> None:
        self.assert_sound(self.table(FLAT), "4 boxes on 2 pages")
        semicolons = self.table(["height;y;x;width;name", "2;0;0;2;hat", "", "1,5;0;2;2;cap"])
        self.assert_sound(semicolons, "2 boxes in 1 bin", "--size", "4x2")
        self.assert_sound(self.table(["name,x,y,width,height"]), "0 boxes in 0 bins")

    def test_faults(self) -> None:
        cases = {
            (FLAT[1], "hat,one,0.5,0,10,20,20,30"):
                '"hat" and "cap" share a cell of page "one": (0.5, 0) 10x20 and (10, 0) 10x8',
            (FLAT[3], "wig,one,9,8,10,22,,"): '"hat" and "wig" share a cell of page "one": (0, 0) 10x20 and (9, 8) 10x22',
            (FLAT[3], "wig,one,10,8,10,22.001,,"): '"wig" is not inside page "one" of 20x30: (10, 8) 10x22.001',
            (FLAT[3], "wig,one,10,-8,10,22,,"): '"wig" is not inside page "one" of 20x30: (10, -8) 10x22',
            (FLAT[4], "boot,two,0,0,5,5,5,4.9"): '"boot" is not inside page "two" of 5x4.9: (0, 0) 5x5',
            (FLAT[4], "hat,two,0,0,10,20,10,20"):
                '"hat" is placed twice: (0, 0) 10x20 on page "one" and (0, 0) 10x20 on page "two"',
            (FLAT[4], "hat,two,0,0,5,5,5,5"): '"hat" has two sizes: (0, 0) 10x20 on page "one" and (0, 0) 5x5 on page "two"',
        }
        for (old, new), text in cases.items():
            with self.subTest(new):
                self.assert_fault(self.table(FLAT, old, new), text)

    def test_boxes_that_share_a_place_are_two(self) -> None:
        lines = ["name,x,y,width,height", "a,0,0,1,1", "b,0,0,1,1"]
        text = '"a" and "b" share a cell of bin "boxes.csv": (0, 0) 1x1 and (0, 0) 1x1'
        self.assert_fault(self.table(lines), text, "--size", "1x1")

    def test_groups(self) -> None:
        lines = ["name,bin,group,x,y,width,height", "a,1,g,0,0,1,1", "b,2,,0,0,1,1", "c,2,h,1,0,1,1", "d,1,g,1,0,1,1"]
        self.assert_sound(self.table(lines), "4 boxes in 2 bins", "--size", "2x1")
        text = '"a" and "c" belong together, and are in bin "1" and bin "2"'
        self.assert_fault(self.table(lines, lines[3], "c,2,g,1,0,1,1"), text, "--size", "2x1")

    def test_padding(self) -> None:
        lines = ["name,x,y,width,height", "a,0,0,1,1", "b,1.3,0,1,1"]
        self.assert_sound(self.table(lines), "2 boxes in 1 bin", "--size", "2.3x1", "--padding", "0.3")
        text = '"a" and "b" are not 0.31 apart in bin "boxes.csv": (0, 0) 1x1 and (1.3, 0) 1x1'
        self.assert_fault(self.table(lines), text, "--size", "2.3x1", "--padding", "0.31")


class Solid(TableCase):
    SIZE = ("--size", "2.2x1.6x3.3")

    def test_sound(self) -> None:
        self.assert_sound(self.table(SOLID), "3 boxes in 1 bin", *self.SIZE)
        sizes = ("bin_width,bin_height,bin_depth", "2.2,1.6,3.3", ",,", "2.2,1.6,3.3")
        self.assert_sound(self.table([",".join(it) for it in zip(SOLID, sizes)]), "3 boxes in 1 bin")

    def test_faults(self) -> None:
        cases = {
            "lathe,van,0,0,1.1,1.1,1.6,2.1": None,
            "lathe,van,0,0,0.7,1.1,1.6,2.1":
                '"milk" and "lathe" share a cell of bin "van": (0, 0, 0) 1.2x1.05x0.8 and (0, 0, 0.7) 1.1x1.6x2.1',
            "lathe,van,0,0,1.3,1.1,1.6,2.1": '"lathe" is not inside bin "van" of 2.2x1.6x3.3: (0, 0, 1.3) 1.1x1.6x2.1',
            # What is as flat as a page is told as the others are.
            "lathe,van,0,0,0,1,1,1": '"milk" and "lathe" share a cell of bin "van": (0, 0, 0) 1.2x1.05x0.8 and (0, 0, 0) 1x1x1',
        }
        for new, text in cases.items():
            with self.subTest(new):
                path = self.table(SOLID, SOLID[3], new)
                if text is None:
                    self.assert_sound(path, "3 boxes in 1 bin", *self.SIZE)
                else:
                    self.assert_fault(path, text, *self.SIZE)

    def test_a_size_without_a_depth(self) -> None:
        text = '"lathe" is not inside bin "van" of 2.2x1.6x1: (0, 0, 1.2) 1.1x1.6x2.1'
        self.assert_fault(self.table([SOLID[0], SOLID[3]]), text, "--size", "2.2x1.6")


class Refusals(TableCase):
    def test_tables_that_are_wrong(self) -> None:
        cases = [
            (FLAT[3], "wig,one,ten,8,10,22,,", ":4: x is 'ten', and must be a number"),
            (FLAT[3], "wig,one,10,8,-10,22,,", ":4: width is -10, and must be at least 0"),
            (FLAT[3], "wig,one,10,8,10,4294967296,,", ":4: height is 4294967296, and must be at most 4294967295"),
            (FLAT[3], "wig,one,10,8.0123456789,10,22,,", ":4: y is 8.0123456789, and must have at most 9 decimals"),
            (FLAT[3], "wig,one,1E999999999,8,10,22,,", ":4: x is 1E999999999, and must be at most 4294967295"),
            (FLAT[3], "wig,one,-1E999999999,8,10,22,,", ":4: x is -1E999999999, and must be at least -4294967295"),
            (FLAT[3], ",one,10,8,10,22,,", ":4: name is missing"),
            (FLAT[3], "wig,one,10,8,10,,,", ":4: height is missing"),
            (FLAT[3], "wig,one,10,8,10,22,20,", ":4: bin_height is missing"),
            (FLAT[3], "wig,one,10,8,10,22,20,31", ':4: says that "one" has the size 20x31, and it had 20x30 before'),
            (FLAT[4], "boot,two,0,0,5,5,,",
             ':5: says no size of the bin "two": give bin_width and bin_height, or say --size WxH'),
            (FLAT[0], "name,page,x,y,width,high,bin_width,bin_height",
             ":1: the column 'high' is not known; there are: name, x, y, width, height, bin, page, z, depth, group, bin_width, "
             "bin_height, bin_depth"),
            (FLAT[0], "name,page,x,y,width,group,bin_width,bin_height", ":1: the column 'height' is missing"),
            (FLAT[4], 'boot,two,0,0,5,5,5,"5', ": is no table: unexpected end of data"),
            (FLAT[4], "boot,two,0,0.000000001,5,5,4294967295,5",
             ": has the side 20; 4.294967295 is the greatest, where all is measured in steps of 0.000000001"),
            (FLAT[4], "boot,two,0,0.1,0,4294967295,5,5",
             ": has the side 4294967295; 429496729.5 is the greatest, where all is measured in steps of 0.1"),
        ]
        for old, new, why in cases:
            with self.subTest(new):
                self.assert_refused(self.table(FLAT, old, new), why)

    def test_a_padding_that_is_too_large(self) -> None:
        why = ": has the side 20; 5 is the greatest, where all is measured in steps of 1"
        self.assert_refused(self.table(FLAT), why, "--padding", 2**32 - 6)

    def test_a_bin_and_a_page(self) -> None:
        path = self.table(["name,page,bin,x,y,width,height", "a,one,,0,0,1,1", "b,one,two,0,0,1,1"])
        self.assert_refused(path, ":3: has a bin and a page, which mean the same", "--size", "2x2")


if __name__ == "__main__":
    unittest.main()
