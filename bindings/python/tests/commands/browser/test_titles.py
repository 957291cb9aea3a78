"""Titles and names in a browser: long ones go on in further lines, and what is cut off is said to those who point at it or use
keys. And how full bins are."""
from __future__ import annotations

import unittest

from rectangle_pack.commands._filled import filled_text
from rectangle_pack.commands._scene import Item, Room, Scene, Step

from .browser import DESK, PHONE, BrowserCase, Keys

LONG = "A load of fourteen containers for the customers of the north, by the packing list of November, "
# What is written on canvases, with its place.
WRITTEN = """window.written = [];
    const real = CanvasRenderingContext2D.prototype.fillText;
    CanvasRenderingContext2D.prototype.fillText = function (text, x, y) {
      window.written.push([text, x, y]);
      return real.call(this, text, x, y);
    };"""
LINES = "const it = document.getElementById('title'); return it.clientHeight / parseFloat(getComputedStyle(it).lineHeight)"


def named(*names: str) -> Scene:
    """Bins with these names, each with a box."""
    rooms = [Room(name, (100, 50, 1)) for name in names]
    items = [Item(number, f"box {number}", name, (0, 0, 0), (50, 50, 1)) for number, name in enumerate(names)]
    return Scene("named", rooms, [Step("packed", items)])


class Title(BrowserCase):
    def attribute(self, name: str) -> object:
        return self.js("return document.getElementById('title').getAttribute(arguments[0])", name)

    def titled(self, title: str, size: tuple[int, int] = DESK) -> None:
        self.open(Scene(title, [Room("bin", (10, 10, 1))], [Step("packed")]), size=size)

    def test_a_long_title_goes_on_in_a_second_line(self) -> None:
        self.titled(LONG + "second version")
        self.assertAlmostEqual(self.js(LINES), 2, places=1)
        # All of it is seen, so there is nothing to be said.
        self.assertEqual((self.attribute("title"), self.attribute("tabindex")), (None, None))
        self.titled("short")
        self.assertAlmostEqual(self.js(LINES), 1, places=1)

    def test_what_is_cut_off_is_said_on_hover_and_to_keys(self) -> None:
        for size in (DESK, PHONE):
            self.titled(LONG * 5, size)
            short = self.js(LINES)
            self.assertLess(short, 3.1)
            self.assertEqual((self.attribute("title"), self.attribute("tabindex")), (LONG * 5, "0"))
            self.keys(Keys.TAB, Keys.TAB)
            self.assertEqual(self.js("return document.activeElement.id"), "title")
            self.assertGreater(self.js(LINES), short)
            whole, seen = self.js("const it = document.getElementById('title'); return [it.scrollHeight, it.clientHeight]")
            self.assertTrue(whole <= seen + 1 or self.js(
                "return getComputedStyle(document.getElementById('title')).overflowY") == "auto")
            self.keys(Keys.TAB)
            self.assertAlmostEqual(self.js(LINES), short, places=1)
            self.assertEqual(self.js("return document.documentElement.scrollWidth"), size[0])

    def test_a_word_without_blanks_is_broken(self) -> None:
        for size in (DESK, PHONE):
            self.titled("x" * 200, size)
            self.assertEqual(self.js("return document.documentElement.scrollWidth"), size[0])
            self.assertGreater(self.js(LINES), 1.5)


class Names(BrowserCase):
    """The names of bins."""

    def setUp(self) -> None:
        super().setUp()
        script = self.told("Page.addScriptToEvaluateOnNewDocument", {"source": WRITTEN})
        self.addCleanup(self.told, "Page.removeScriptToEvaluateOnNewDocument", script)

    def captions(self) -> list[str]:
        """The lines above each bin, as they are written now, bin by bin."""
        self.js("window.written = []; window.dispatchEvent(new Event('resize')); document.getElementById('names').click();")
        self.settle()
        columns: dict[float, list[tuple[float, str]]] = {}
        for text, x, y in self.js("return window.written"):
            columns.setdefault(x, []).append((y, text))
        return [" ".join(text for _, text in sorted(lines)) for _, lines in sorted(columns.items()) if len(lines) > 1]

    def test_a_long_name_has_several_lines(self) -> None:
        names = [f"sheet {number}: birch plywood, 18 mm, film faced" for number in range(1, 6)]
        self.open(named(*names))
        # The bins stand in rows, so those in one column are written at one place from the left.
        found = " ".join(self.captions())
        for name in names:
            self.assertIn(name, found)
        self.assertNotIn("…", found)
        self.assertEqual(found.count("50 % filled"), 5)

    def test_a_name_that_is_cut_off_is_said_whole(self) -> None:
        names = [LONG * 2 + str(number) for number in range(1, 15)]
        self.open(named(*names))
        self.assertIn("…", " ".join(self.captions()))
        self.keys("b", "b")
        self.assertTrue(self.text("tip").startswith(names[1] + "100 × 50 · 50 % filled · 1 box"), self.text("tip"))
        self.wait_for("spoken-bin", f"{names[1]}, bin 2 of 14, 100 × 50, 50 % filled, 1 box, Enter shows it alone")
        self.keys(Keys.ESCAPE)
        self.assertEqual(self.text("tip"), "")
        seen = set()
        for x in range(20, round(self.stage[2]), 40):
            for y in range(15, round(self.stage[3]), 20):
                self.point(x, y)
                seen |= {name for name in names if self.text("tip").startswith(name + "100 × 50")}
        self.assertEqual(seen, set(names))
        self.keys("b", Keys.ENTER)
        self.assertTrue(self.text("alone-name").startswith(names[0]))

    def test_names_without_blanks_and_very_small_bins(self) -> None:
        self.open(named(*(f"{'x' * 120}{number}" for number in range(40))), size=PHONE)
        self.keys("-", "-", "-", "-", "-", "b", "+")
        self.assert_quiet()

    def test_cells_of_the_table(self) -> None:
        self.open(named(LONG, "short"))
        cells = self.js("return [...document.querySelectorAll('#table tbody tr')].map((row) => row.cells[2])")
        for cell, title in zip(cells, (LONG, "")):
            self.js("arguments[0].dispatchEvent(new MouseEvent('mouseover', {bubbles: true}))", cell)
            self.assertEqual(self.js("return arguments[0].title", cell), title)
        # By keys the row is chosen, and what is said of its box is whole.
        self.keys("t", Keys.ENTER)
        self.assertIn(LONG, self.js("return [...document.querySelectorAll('#box dd')].map((it) => it.textContent)"))

    def test_the_list_of_steps_says_all_on_hover(self) -> None:
        scene = Scene("steps", [Room("a", (9, 9, 1))], [Step(LONG), Step("short")])
        self.open(scene)
        titles = self.js("return [...document.getElementById('steps').options].map((it) => it.title)")
        self.assertEqual(titles, [f"1. {LONG}".strip(), "2. short"])
        self.keys(Keys.HOME)
        self.assertEqual(self.text("command"), LONG)


class Filled(BrowserCase):
    def test_the_picture_rounds_as_the_text_does(self) -> None:
        """The share of a bin is said by the rule of the commands."""
        parts = [(1, 3), (2, 3), (999, 1000), (9999, 10_000), (1, 1001), (1, 7), (500, 1000), (3, 3)]
        rooms = [Room(f"bin {i}", (whole, 1, 1)) for i, (_, whole) in enumerate(parts)]
        items = [Item(i, "x", f"bin {i}", (0, 0, 0), (part, 1, 1)) for i, (part, _) in enumerate(parts)]
        self.open(Scene("parts", [*rooms, Room("empty", (2, 2, 1))], [Step("packed", items)]))
        seen = []
        for _ in [*parts, None]:
            self.keys("b")
            seen.append(self.text("tip").split(" · ")[1])
        self.assertEqual(seen, [
            "33.3 % filled", "66.6 % filled", "99.9 % filled", "99.9 % filled", "under 0.1 % filled", "14.2 % filled",
            "50 % filled", "100 % filled", "0 % filled"])
        self.assertEqual(seen[:-1], [f"{filled_text(*part)} filled" for part in parts])


if __name__ == "__main__":
    unittest.main()
