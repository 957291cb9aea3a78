"""What is measured is as wide as a panel: what is left over is what may be wider."""
from __future__ import annotations

import unittest

from rectangle_pack import Section
from rectangle_pack.commands._cut.job import Job, Kind, Laid, Panel
from rectangle_pack.commands._cut.packing import Filled
from rectangle_pack.commands._cut.plan import steps_of
from rectangle_pack.commands._cut.saw import sawn
from rectangle_pack.commands._cut.unit import Lengths
from rectangle_pack.commands._scale import Scale

from .test_cut_runs import Case

# In tenths of a mm. 223.2 is 100, the blade and 120.
KERF, WIDTH, HEIGHT = 32, 2232, 1000
PANELS = [
    Panel(name, key, name, width, height, False, key + 1)
    for key, (name, width, height) in enumerate((("a", 1000, 1000), ("b", 1150, 400), ("c", 1100, 500)), 1)]


class Measures(Case):
    def first_step(self, *corners: tuple[int, int]) -> str:
        """The first cut of a sheet in which the panels stand with these corners."""
        kind = Kind("s", WIDTH, HEIGHT, 1, None, False, 0)
        job = Job(PANELS, [kind], KERF, (2000, 2000), Lengths(1), Scale())
        places = [Section(x, y, 0, it.width + KERF, it.height + KERF, 1) for (x, y), it in zip(corners, PANELS)]
        return steps_of(job, sawn(job, Filled(kind, tuple(map(Laid, PANELS)), tuple(places))))[0].text

    def test_what_is_measured_is_what_counts(self) -> None:
        # Of the 120 the panels use 115 and 110, at either end: so the 100 are measured, and not the 120.
        measured = 'A 223.2 x 100: cut across x at 100 -> panel "a" 100 x 100, B 120 x 100'
        self.assertEqual(self.first_step((0, 0), (1032, 0), (1132, 432)), measured)
        self.assertEqual(self.first_step((1232, 0), (0, 0), (100, 432)), measured)

    def test_wherever_panels_are_packed(self) -> None:
        # Either "a" is cut off first, or "b" with "c" above it: 115 is the width of "b", and what is left is 105, 5 more than "a".
        run = self.cut_tables(
            "name,width,height\na,100,100\nb,115,40\nc,110,50\n", "width,height,cost\n223.2,100,1\n", "--kerf", "3.2")
        text = (run.folder / "sheet-1.txt").read_text(encoding="utf-8")
        self.assertRegex(text, r"\n1\. A 223\.2 x 100: cut across x at (100|115) -> ")


if __name__ == "__main__":
    unittest.main()
