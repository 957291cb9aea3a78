#!/usr/bin/env python3
"""What the example programs print."""
import os
import subprocess
import sys
import unittest
from pathlib import Path

PYTHON = Path(__file__).resolve().parents[1]


def lines_of(name):
    words, env = [sys.executable, str(PYTHON / "examples" / name)], {**os.environ, "PYTHONPATH": str(PYTHON)}
    run = subprocess.run(words, env=env, capture_output=True, text=True, check=True)
    return run.stdout.splitlines()


class Examples(unittest.TestCase):
    def test_an_atlas_of_two_sheets(self):
        lines = lines_of("atlas.py")
        self.assertEqual([line.split()[0] for line in lines], ["hat", "shoe", "tree", "sun", "moon"])
        sheets = {line.split()[0]: line.split()[3] for line in lines}
        self.assertEqual(sheets["hat"], sheets["shoe"])

    def test_a_session_by_hand(self):
        # 64x40 leaves 64x24 above it, 10x24 leaves 54x24, and 20x24 leaves 34x24, which is 816 cells. 50x20 needs the 54x24
        # that are there again. It leaves 4x24 and 50x4, or 4x20 and 54x4: the smallest is 4x20, so these stay, 296 cells.
        self.assertEqual(lines_of("session.py"), [
            "map is placement 0, on sheet 7 at 0 0",
            "hat is placement 1, on sheet 7 at 0 40",
            "shoe is placement 2, on sheet 7 at 10 40",
            "4096 cells: 816 free (sections: 1), 3280 placed (placements: 3)",
            "the shoe is released",
            "4096 cells: 1296 free (sections: 2), 2800 placed (placements: 2)",
            "banner is placement 3, on sheet 7 at 10 40",
            "4096 cells: 296 free (sections: 2), 3800 placed (placements: 3)",
        ])

    def test_the_plan_of_a_sheet(self):
        lines = lines_of("sheet_plan.py")
        # The left side is the first of the largest panels, so it stands in the corner. It leaves 650x2500 beside it and
        # 600x1700 above it, or 650x800 and 1250x1700: the smallest is 650x800. A cut across x would go through 1250x1700.
        self.assertEqual(lines[:3], ["1. cut across y at 800", "   2. cut across x at 600", "      left side: 600x800"])
        cuts = [line.split(".")[0].strip() for line in lines if "cut across" in line]
        self.assertEqual(cuts, [str(i) for i in range(1, len(cuts) + 1)])
        leaves = [line.split(":") for line in lines if "cut across" not in line]
        self.assertEqual(len(leaves), len(cuts) + 1)
        self.assertEqual(len([name for name, _ in leaves if name.strip() != "left over"]), 7)
        sides = [map(int, size.split("x")) for _, size in leaves]
        self.assertEqual(sum(width * height for width, height in sides), 1250 * 2500)

    def test_an_atlas_is_unloaded(self):
        first, *gone, last = lines_of("unload.py")
        self.assertEqual(first, "7 sprites, 8 free sections")
        # The one with the fewest cells was packed last, so it goes first. Each takes one section with it.
        sprites = ["fish", "coin", "lamp", "door", "bridge", "hat", "house"]
        self.assertEqual(gone, [f"the {name} is gone, {7 - i} free sections" for i, name in enumerate(sprites)])
        self.assertEqual(last, "free again: Section(x=0, y=0, z=0, width=128, height=128, depth=1)")

    def test_shelves_on_few_sheets(self):
        # 27832 x 20532 takes three columns of three shelves 8032 x 6032 as they stand: nine. Each is more than a quarter as wide, and as
        # high, so that no packer places ten. Two sheets are needed for the cells of 20.
        self.assertEqual(lines_of("panels.py"), [
            "as they stand: 3 sheets, and no packer needs fewer", "turned: 2 sheets, and no packer needs fewer"])

    def test_customers_are_kept_apart(self):
        refused, *lines = lines_of("customers.py")
        self.assertEqual(refused, "one container is not enough")
        second = lines.index("the second container:")
        self.assertEqual(lines[0], "the first container:")
        crates = [[line.split(" at ")[0].strip() for line in part] for part in (lines[1:second], lines[second + 1:])]
        # The crates for dairy have more cells, so they go first. Each customer has straps.
        self.assertEqual(crates, [
            ["milk of dairy", "butter of dairy", "cheese of dairy", "straps of dairy"],
            ["varnish of paint", "thinner of paint", "straps of paint"],
        ])


if __name__ == "__main__":
    unittest.main()
