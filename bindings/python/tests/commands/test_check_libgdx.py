"""The command check on the .atlas of libGDX and Spine, in both forms."""
from __future__ import annotations

import unittest
from pathlib import Path

from .check_cases import CheckCase

# Two pages. On the first hat is 10 x 20, cap is turned and takes 10 x 8, and wig is 10 x 22.
OLDER = """
first.png
size: 20,30
format: RGBA8888
filter: Nearest,Nearest
repeat: none
hat
  rotate: false
  xy: 0, 0
  size: 10, 20
  orig: 10, 20
  offset: 0, 0
  index: -1
hats/cap
  rotate: true
  xy: 10, 0
  size: 8, 10
  orig: 8, 10
  offset: 0, 0
  index: -1
wig
  rotate: false
  xy: 10, 8
  size: 10, 22
  orig: 16, 28
  offset: 3, 3
  index: -1

second.png
size: 4,4
format: RGBA8888
filter: Nearest,Nearest
repeat: none
walk
  rotate: false
  xy: 0, 0
  size: 2, 4
  orig: 2, 4
  offset: 0, 0
  index: 1
walk
  rotate: false
  xy: 2, 0
  size: 2, 4
  orig: 2, 4
  offset: 0, 0
  index: 2
"""

NEWER = """first.png
size:20,30
repeat:none
pma:true
hat
bounds:0,0,10,20
hats/cap
bounds:10,0,8,10
rotate:90
split:1,2,3,4
wig
bounds:10,8,10,22
offsets:3,3,16,28

second.png
size:4,4
scale:0.5
walk
index:1
bounds:0,0,2,4
walk
index:2
bounds:2,0,2,4
"""


class Forms(CheckCase):
    def edited(self, text: str, old: str, new: str) -> Path:
        """A file of this text with one line changed, which stands in it once."""
        self.assertEqual(text.count(f"{old}\n"), 1, old)
        return self.file("a.atlas", text.replace(f"{old}\n", f"{new}\n"))

    def test_sound(self) -> None:
        for text in (OLDER, NEWER, OLDER.replace("\n", "\r\n"), NEWER.strip(), f"\n \n{NEWER}\n\n", f"a: header\n\n{NEWER}"):
            for name in ("a.atlas", "a.atlas.txt", "a.pack"):
                self.assert_sound(self.file(name, text), "5 boxes on 2 pages")

    def test_faults(self) -> None:
        cases = [
            ("size: 10, 20", "size: 11, 20", "bounds:0,0,10,20", "bounds:0,0,11,20",
             '"hat" and "hats/cap" share a cell of page "first.png": (0, 0) 11x20 and (10, 0) 10x8'),
            # Not turned it takes 8 x 10.
            ("rotate: true", "rotate: 0", "rotate:90", "rotate:180",
             '"hats/cap" and "wig" share a cell of page "first.png": (10, 0) 8x10 and (10, 8) 10x22'),
            ("size: 8, 10", "size: 9, 10", "bounds:10,0,8,10", "bounds:10,0,9,10",
             '"hats/cap" and "wig" share a cell of page "first.png": (10, 0) 10x9 and (10, 8) 10x22'),
            ("xy: 10, 8", "xy: 10, 9", "bounds:10,8,10,22", "bounds:10,9,10,22",
             '"wig" is not inside page "first.png" of 20x30: (10, 9) 10x22'),
            ("xy: 10, 8", "xy: -10, 8", "bounds:10,8,10,22", "bounds:-10,8,10,22",
             '"wig" is not inside page "first.png" of 20x30: (-10, 8) 10x22'),
            ("xy: 2, 0", "xy: 1, 0", "bounds:2,0,2,4", "bounds:1,0,2,4",
             '"walk 1" and "walk 2" share a cell of page "second.png": (0, 0) 2x4 and (1, 0) 2x4'),
            ("index: 2", "index: 1", "index:2", "index:1",
             '"walk 1" is placed twice: (0, 0) 2x4 on page "second.png" and (2, 0) 2x4 on page "second.png"'),
            ("size: 4,4", "size: 4,3", "size:4,4", "size:4,3", '"walk 1" is not inside page "second.png" of 4x3: (0, 0) 2x4'),
        ]
        for old, new, old_bounds, new_bounds, text in cases:
            with self.subTest(new):
                self.assert_fault(self.edited(OLDER, old, new), text)
                self.assert_fault(self.edited(NEWER, old_bounds, new_bounds), text)

    def test_regions_that_share_a_place_are_one_box(self) -> None:
        again = NEWER.replace("\n\n", "\nsame as hat\nbounds:0,0,10,20\n\n")
        self.assert_sound(self.file("a.atlas", again), "5 boxes on 2 pages")
        other = NEWER.replace("\n\n", "\nother\nbounds:0,0,10,19\n\n")
        self.assert_fault(
            self.file("a.atlas", other), '"hat" and "other" share a cell of page "first.png": (0, 0) 10x20 and (0, 0) 10x19')

    def test_pages_without_a_size(self) -> None:
        text = "a.png\nformat: RGBA8888\nhat\nbounds: 0, 0, 4, 4\n"
        path = self.file("a.atlas", text)
        self.assert_sound(path, "1 box on 1 page", "--size", "4x4")
        self.assert_fault(path, '"hat" is not inside page "a.png" of 4x3: (0, 0) 4x4', "--size", "4x3")
        self.assert_refused(path, ':1: "a.png" has no size: say --size WxH')

    def test_padding(self) -> None:
        path = self.file("a.atlas", NEWER)
        text = '"hat" and "hats/cap" are not 1 apart on page "first.png": (0, 0) 10x20 and (10, 0) 10x8'
        self.assert_fault(path, text, "--padding", 1)


class Refusals(CheckCase):
    def test_lines_that_are_wrong(self) -> None:
        cases = {
            ("bounds:10,8,10,22", "bounds:10,8,10"): ":12: bounds is '10,8,10', and must be 4 whole numbers",
            ("bounds:10,8,10,22", "bounds:10,8,10,2.5"): ":12: bounds is '10,8,10,2.5', and must be 4 whole numbers",
            ("bounds:10,8,10,22", "bounds:10,8,-1,22"): ":12: bounds has -1, which must be at least 0",
            ("bounds:10,8,10,22", "bounds:10,8,4294967296,22"): ":12: bounds has 4294967296, which must be at most 4294967295",
            ("bounds:10,8,10,22", "xy:10,8"): ':11: "wig" has neither bounds nor xy and size',
            ("rotate:90", "rotate:45"): ":9: rotate is '45', and must be true, false, 0, 90, 180 or 270",
            ("size:4,4", "size:4"): ":16: size is '4', and must be 2 whole numbers",
            ("size:4,4", "\nsize:4,4"): ':17: "size" stands behind an empty line, and so in no page',
            ("second.png", "first.png"): ':15: says that "first.png" has the size 4x4, and it had 20x30 before',
        }
        for (old, new), why in cases.items():
            with self.subTest(new):
                self.assertEqual(NEWER.count(f"{old}\n"), 1)
                self.assert_refused(self.file("a.atlas", NEWER.replace(f"{old}\n", f"{new}\n")), why)

    def test_files_without_a_page(self) -> None:
        for text in ("", "\n \n", "a: b\n"):
            self.assert_refused(self.file("a.atlas", text), ": has no page")
        self.assert_refused(self.file("a.atlas", "Some words.\n"), ':1: "Some words." has no size: say --size WxH')


if __name__ == "__main__":
    unittest.main()
