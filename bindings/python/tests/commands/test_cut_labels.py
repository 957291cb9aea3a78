"""What is written on panels in a drawing: the name stays longest, and nothing is too small to be read."""
from __future__ import annotations

import unittest
import xml.etree.ElementTree as ElementTree

from rectangle_pack.commands._cut.label import Words, label
from rectangle_pack.commands._cut.page import LINE_HEIGHT, Area, text_width

from .test_cut_drawings import ODD, SVG
from .test_cut_runs import Case, write_example

SHEETS = "name,count,width,height,cost\n"

# The least sizes in mm: 6 points for names and their numbers, 7 for the numbers of cuts.
LEAST, LEAST_OF_CUTS = 2.1, 2.5


def written(name: str, width: float, height: float, tail: str = "") -> list[str]:
    """What is written on a part that is so large on paper."""
    return [it.text for it in label(Words(name, tail, "1200.5", "350", "7", "#000000"), Area(0, 0, width, height))]


class Labels(unittest.TestCase):
    def test_from_large_to_small(self) -> None:
        """As there is less room, the measures go first, then the end of the name, and then all but its number in the list."""
        line = 2.1 * LINE_HEIGHT
        name = text_width("drawer", 2.1, True)
        both = name + text_width("  1200.5 x 350", 2.1)
        self.assertEqual(written("drawer", 80, 40), ["drawer", "1200.5", "350"])
        self.assertEqual(written("drawer", both + 2, line + 0.1), ["drawer  1200.5 x 350"])
        self.assertEqual(written("drawer", both - 2, line + 0.1), ["drawer"])
        self.assertEqual(written("drawer", name + 1.3, line + 0.1), ["drawer"])
        # It stands where it does not lie.
        self.assertEqual(written("drawer", line + 0.1, name + 1.3), ["drawer"])
        self.assertEqual(written("drawer", name + 0.5, line + 0.1), ["draw…"])
        self.assertEqual(written("drawer", name / 3, line + 0.1), ["7"])
        self.assertEqual(written("drawer", 1, 1), [])

    def test_a_name_goes_without_its_number_before_it_is_cut_short(self) -> None:
        self.assertEqual(written("drawer", text_width("drawer #3", 2.1, True) + 1.3, 2.7, " #3"), ["drawer #3"])
        self.assertEqual(written("drawer", text_width("drawer #3", 2.1, True) + 1, 2.7, " #3"), ["drawer"])
        # The end of an offcut's name is not left out.
        self.assertEqual(written("offcut s", text_width("offc… 1-1", 2.1, True) + 1.3, 2.7, " 1-1"), ["offc… 1-1"])

    def test_a_long_name_is_cut_short_before_its_number(self) -> None:
        width = text_width("side of t… #12", 2.1, True) + 1.3
        self.assertEqual(written("side of the drawer", width, 2.7, " #12"), ["side of t… #12"])

    def test_less_than_half_of_a_name_is_not_written(self) -> None:
        self.assertEqual(written("side of the drawer", text_width("side…", 2.1, True) + 1.3, 2.7), ["7"])

    def test_a_long_name_has_its_measures_where_there_is_room(self) -> None:
        texts = written("side of the very long drawer of the other cabinet", 60, 12)
        self.assertEqual(texts[1], "1200.5 x 350")
        self.assertTrue(texts[0].startswith("side of the very long "))

    def test_sizes(self) -> None:
        """Whatever the room, nothing is smaller than can be read, or beyond its part."""
        for width in range(1, 60, 2):
            for height in range(1, 60, 3):
                area = Area(5, 5, width, height)
                for it in label(Words("drawer", " #3", "1200.5", "350", "12", "#000000"), area):
                    self.assertGreaterEqual(it.size, LEAST)
                    self.assertTrue(area.has(it.area), (width, height, it))


class Drawings(Case):
    def test_no_text_is_too_small(self) -> None:
        write_example(self.folder)
        words = ["--stock", self.folder / "sheets.csv", "--kerf", 3.2, "--trim", 10, "--tries", 10]
        for name, panels in (("example", self.folder / "panels.csv"), ("odd", self.write("odd.csv", ODD))):
            run = self.cut(panels, *words, out=name)
            self.assertEqual(run.status, 0)
            numbers = 0
            for path in run.folder.glob("*.svg"):
                for it in ElementTree.parse(path).getroot().iter(f"{SVG}text"):
                    is_cut = it.get("fill") == "#b3261e"
                    numbers += is_cut
                    self.assertGreaterEqual(float(it.get("font-size", "")), LEAST_OF_CUTS if is_cut else LEAST, it.text)
            self.assertGreater(numbers, 5)

    def test_numbers_that_have_no_room_stand_in_the_text(self) -> None:
        run = self.cut_tables("name,count,width,height\npin,60,4,3\n", f"{SHEETS}s,,900,600,1\n", "--kerf", 1)
        root = ElementTree.parse(run.folder / "sheet-1.svg").getroot()
        drawn = {it.text for it in root.iter(f"{SVG}text") if it.get("fill") == "#b3261e"}
        [text] = run.sheets()
        steps = [line.split(".")[0].strip() for line in text.splitlines() if ": cut across" in line]
        self.assertGreater(len(steps), 60)
        self.assertTrue(0 < len(drawn) < len(steps) and drawn <= set(steps))
        notes = [it.text or "" for it in root.iter(f"{SVG}text") if "Numbers in circles" in (it.text or "")]
        self.assertEqual(notes, ["Numbers in circles: the cuts of sheet-1.txt, which has all of them. Hatched: waste. "
                                 "Too small for a number: 60."])


if __name__ == "__main__":
    unittest.main()
