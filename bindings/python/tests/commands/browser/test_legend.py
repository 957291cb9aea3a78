"""Colours in a browser: the legend of many groups, and boxes that keep the colours of the legend while steps go on."""
from __future__ import annotations

import unittest
from collections.abc import Sequence

from rectangle_pack.commands._scene import Item, Room, Scene, Step

from ..test_view_tools import cut_scene
from .browser import BrowserCase, Keys, program

ENTRIES = """return [...document.querySelectorAll('#groups li')].map((it) => (
    [it.querySelector('.name').textContent, it.querySelector('.count').textContent]))"""
# The colour in the middle of each swatch.
SWATCHES = """return [...document.querySelectorAll('#groups canvas')].map((it) => (
    [...it.getContext('2d').getImageData(14, 14, 1, 1).data].slice(0, 3)))"""
SIDE = 20


def grouped(*groups: str) -> Scene:
    """A page with a box for each of these groups, row by row. An empty name is no group."""
    items = [
        Item(number, f"b{number}", "page", (number % SIDE * 10, number // SIDE * 10, 0), (9, 9, 1), group)
        for number, group in enumerate(groups)]
    return Scene("groups", [Room("page", (SIDE * 10, SIDE * 10, 1))], [Step("packed", items)])


class Legend(BrowserCase):
    def entries(self) -> list[tuple[str, int]]:
        return [(name, int(count)) for name, count in self.js(ENTRIES)]

    def colours(self, *numbers: int) -> list[list[int]]:
        """The colours of boxes of a grouped page, whose rows go upward."""
        self.driver.execute_async_script("setTimeout(arguments[0], 300)")
        width, height = (round(side) for side in self.stage[2:])
        # The page is a square that is as high as the drawing, without its margin of 18 and what stands above it, 22.
        side = height - 2 * 18 - 22
        left, low = (width - side) / 2, height - 18
        cell = side / (SIDE * 10)
        points = [
            (round(left + (it % SIDE * 10 + 4.5) * cell), round(low - (it // SIDE * 10 + 4.5) * cell)) for it in numbers]
        return self.pixels(self.picture(), points)

    def test_boxes_that_are_alone_have_one_entry(self) -> None:
        self.open(grouped(*(f"group {number}" for number in range(300))))
        self.click("names")
        self.assertEqual(self.entries(), [("alone in a group", 300)])
        swatch, = self.js(SWATCHES)
        self.assertEqual(self.colours(0, 7, 150, 299), [swatch] * 4)
        self.js("document.querySelector('#groups input').click()")
        self.settle()
        self.assertEqual({row.now for row in self.rows()}, {"hidden"})
        self.keys("H")
        self.assertEqual({row.now for row in self.rows()}, {""})
        self.assert_quiet()

    def test_few_groups_of_one_box_have_colours_of_their_own(self) -> None:
        for count, entries in ((10, 10), (11, 1)):
            self.open(grouped(*(f"group {number}" for number in range(count))))
            self.click("names")
            self.assertEqual(len(self.entries()), entries)
            self.assertEqual(len({tuple(it) for it in self.colours(*range(count))}), entries)

    def test_the_colours_of_a_legend_are_those_of_the_drawing(self) -> None:
        pairs = [f"pair {number // 2}" for number in range(16)]
        self.open(grouped("one", *pairs, "two", "three", "", "four"))
        self.click("names")
        self.assertEqual(self.entries(), [*((f"pair {number}", 2) for number in range(8)), ("no group, or alone in one", 5)])
        swatches = self.js(SWATCHES)
        self.assertEqual(self.colours(0, 1, 3, 15, 17, 18, 19, 20), [
            swatches[8], swatches[0], swatches[1], swatches[7], *[swatches[8]] * 4])

    def test_a_long_legend_is_cut_and_goes_on(self) -> None:
        self.open(grouped(*(f"group {number // 2}" for number in range(600)), "x", ""))
        first = [(f"group {number}", 2) for number in range(20)]
        self.assertEqual(self.entries(), [*first, ("no group, or alone in one", 2)])
        self.assertEqual(self.text("more-groups"), "and 280 more")
        self.js("document.querySelector('#groups input').click()")
        self.js("document.getElementById('more-groups').focus()")
        self.keys(Keys.ENTER)
        self.assertEqual(self.entries()[:-1], [(f"group {number}", 2) for number in range(220)])
        self.assertEqual(self.text("more-groups"), "and 80 more")
        # The first that is new has the focus, and what was hidden stays so.
        self.assertEqual(self.js("return document.activeElement.closest('li').textContent"), "group 202")
        self.assertFalse(self.js("return document.querySelector('#groups input').checked"))
        self.click("more-groups")
        self.assertEqual((len(self.entries()), self.text("more-groups")), (301, ""))
        self.assertEqual(self.entries()[-1], ("no group, or alone in one", 2))
        high, whole = self.js("const it = document.getElementById('groups'); return [it.clientHeight, it.scrollHeight]")
        self.assertLess(high, 600)
        self.assertGreater(whole, 300 * 20)
        self.assert_quiet()


class Stepping(BrowserCase):
    """Boxes keep their colours: at points that are away from all lines the picture has the colour of the legend."""

    def plain(self, points: Sequence[tuple[int, int]], margin: int) -> dict[tuple[int, int], list[int]]:
        """The colours at those points from which there is one colour for so many pixels in each direction: lines are thin."""
        shifts = range(-margin, margin + 1)
        around = [it for x, y in points for by in shifts for it in ((x + by, y), (x, y + by))]
        colours, each = self.pixels(self.picture(), around), len(around) // len(points)
        found = {}
        for index, point in enumerate(points):
            near = colours[index * each:(index + 1) * each]
            if near.count(near[0]) == each:
                found[point] = near[0]
        return found

    def grid(self) -> list[tuple[int, int]]:
        width, height = (round(side) for side in self.stage[2:])
        return [(x, y) for x in range(30, width - 30, 15) for y in range(50, height - 30, 15)]

    def inside(self, margin: int) -> dict[tuple[int, int], list[int]]:
        """The points in boxes, and the colours of their groups."""
        swatches = self.js(SWATCHES)
        found = {point: colour for point, colour in self.plain(self.grid(), margin).items() if colour in swatches}
        self.assertGreater(len(found), 60)
        self.assertGreater(len({tuple(colour) for colour in found.values()}), 1)
        return found

    def test_in_a_cutting_plan(self) -> None:
        for colours in ("light", "dark"):
            scene = cut_scene()
            self.open(scene, colours=colours)
            self.click("names")
            self.keys("b", Keys.ENTER)
            self.look_for_stage()
            whole = self.inside(12)
            self.keys("c")
            pictures = set()
            for cut in range(len(scene.cuts[scene.rooms[0].name])):
                self.point(2, 2)
                pictures.add(self.picture())
                seen = dict(zip(whole, self.pixels(self.picture(), list(whole))))
                self.assertEqual(seen, whole, (colours, cut))
                self.keys("n")
            # Each cut is marked.
            self.assertEqual(len(pictures), len(scene.cuts[scene.rooms[0].name]))

    def test_step_by_step(self) -> None:
        scene = program("panels")[0]
        self.open(scene)
        self.click("names")
        whole = self.inside(6)
        there = len(whole)
        for _ in range(12):
            self.keys("p")
            seen = dict(zip(whole, self.pixels(self.picture(), list(whole))))
            kept = [point for point, colour in seen.items() if colour == whole[point]]
            # What is not placed yet shows the empty bin, which no group has as its colour.
            self.assertFalse([seen[point] for point in whole if point not in kept and seen[point] in self.js(SWATCHES)])
            self.assertLessEqual(len(kept), there)
            there = len(kept)
        self.assertLess(there, len(whole))


if __name__ == "__main__":
    unittest.main()
