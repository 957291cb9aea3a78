"""The picture in a browser: zoomed, shifted, turned, with layers and boxes hidden, in each theme and window."""
from __future__ import annotations

import unittest
from collections.abc import Callable
from itertools import product

from ..test_view_tools import EXAMPLES, cut_scene
from .browser import DESK, PHONE, BrowserCase, Keys, program, session, standing

from rectangle_pack.commands._scene import Item, Room, Scene, Step

# What can be used and is not whole in the window, from left to right.
BESIDE = """return [...document.querySelectorAll('button, input, select')].filter((it) => {
    const { left, right } = it.getBoundingClientRect();
    return it.checkVisibility() && (left < 0 || right > innerWidth || right - left < 14);
  }).map((it) => it.id)"""
BACK = "return getComputedStyle(document.body).backgroundColor"


def is_shade(colour: list[int], fill: str) -> bool:
    """Whether a colour is that of a group, as one of the three faces has it."""
    sides = [int(fill[i:i + 2], 16) for i in (1, 3, 5)]
    return bool(colour) and any(
        all(abs(min(255, side * by) - it) <= 3 for side, it in zip(sides, colour)) for by in (0.86, 1.06, 0.97))


class Look(BrowserCase):
    """Zoom, shift and turn."""

    def test_zoom_and_shift_by_mouse_and_keys(self) -> None:
        for scene in (program("atlas")[0], program("container")[0]):
            self.open(scene)
            self.keys("g")
            fitted = self.picture()
            seen = {fitted}
            acts: list[Callable[[], None]] = [
                lambda: self.keys("+"), lambda: self.keys(Keys.ARROW_LEFT), lambda: self.keys(Keys.ARROW_UP),
                lambda: self.point(300, 200, "mouseWheel", deltaX=0, deltaY=-300), lambda: self.drag((300, 300), (360, 340)),
                lambda: self.click("closer"), lambda: self.shift(Keys.ARROW_LEFT), lambda: self.keys("-"),
            ]
            for act in acts:
                act()
                self.point(2, 2)
                picture = self.picture()
                self.assertNotIn(picture, seen)
                seen.add(picture)
            self.keys("0", "g")
            self.driver.execute_async_script("setTimeout(arguments[0], 300)")
            self.assertEqual(self.picture(), fitted)

    def test_a_container_turns(self) -> None:
        self.open(program("container")[0])
        first = self.picture()
        self.drag((480, 250), (700, 250))
        turned = self.picture()
        self.drag((480, 250), (480, 330))
        tilted = self.picture()
        self.assertEqual(len({first, turned, tilted}), 3)
        self.click("turned")
        straight = self.picture()
        self.assertNotIn(straight, (first, turned, tilted))
        self.choose("side-from", "the front (low z)")
        self.assertNotEqual(self.picture(), straight)
        self.click("turned")
        self.assertEqual(self.js("return document.getElementById('turned').getAttribute('aria-pressed')"), "true")
        self.assert_quiet()

    def test_without_webgl_a_container_is_drawn_from_a_side(self) -> None:
        source = """const real = HTMLCanvasElement.prototype.getContext;
            HTMLCanvasElement.prototype.getContext = function (kind, ...more) {
              return kind === 'webgl2' ? null : real.call(this, kind, ...more);
            };"""
        script = self.told("Page.addScriptToEvaluateOnNewDocument", {"source": source})
        self.addCleanup(self.told, "Page.removeScriptToEvaluateOnNewDocument", script)
        self.open(program("container")[0])
        self.assertEqual(self.text("turned"), "")
        pictures = {self.picture()}
        for act in ("v", "j", Keys.ARROW_LEFT, "l", "s"):
            self.keys(act)
            pictures.add(self.picture())
        # The key V alone changes nothing.
        self.assertEqual(len(pictures), 5)
        self.assert_quiet()

    def test_a_graphics_card_that_forgets_is_told_again(self) -> None:
        self.open(program("container")[0])
        picture = self.picture()
        self.driver.execute_async_script("""const done = arguments[0];
            const canvas = document.getElementById('solid');
            const card = canvas.getContext('webgl2').getExtension('WEBGL_lose_context');
            canvas.addEventListener('webglcontextlost', () => setTimeout(() => card.restoreContext(), 50), {once: true});
            canvas.addEventListener('webglcontextrestored', () => setTimeout(done, 100), {once: true});
            card.loseContext();""")
        self.assertEqual(self.picture(), picture)

    def test_two_fingers_zoom_and_one_shifts(self) -> None:
        self.open(program("atlas")[0], size=PHONE)
        first = self.picture()
        self.touch("touchStart", (150, 200), (240, 200))
        for by in (10, 30, 50):
            self.touch("touchMove", (150 - by, 200), (240 + by, 200))
        self.touch("touchEnd")
        zoomed = self.picture()
        self.touch("touchStart", (150, 200))
        for by in (10, 30, 50):
            self.touch("touchMove", (150, 200 + by))
        self.touch("touchEnd")
        self.assertEqual(len({first, zoomed, self.picture()}), 3)
        # The page itself has not moved, and nothing of it is beside the window.
        self.assertEqual(self.js("return [scrollX, scrollY, document.documentElement.scrollWidth]"), [0, 0, PHONE[0]])

    def test_layers_are_hidden_one_by_one(self) -> None:
        scene = program("container")[0]
        items = list(standing(scene, len(scene.steps) - 1).values())
        self.open(scene)
        whole = self.picture()
        # How far from the side a box begins; containers are 23 x 23 x 58.
        sides: dict[str, Callable[[Item], int]] = {
            "above (high y)": lambda it: 23 - it.at[1] - it.size[1], "the front (low z)": lambda it: it.at[2],
            "the right (high x)": lambda it: 23 - it.at[0] - it.size[0], "the left (low x)": lambda it: it.at[0],
            "behind (high z)": lambda it: 58 - it.at[2] - it.size[2], "below (low y)": lambda it: it.at[1]}
        for side, near in sides.items():
            self.choose("side-from", side)
            layers = sorted({near(it) for it in items})
            for count in (1, len(layers) - 1):
                self.slide("peel", count)
                hidden = {str(it.number) for it in items if near(it) < layers[count]}
                self.assertEqual({row.number for row in self.rows() if row.now == "hidden"}, hidden)
                self.assertEqual(self.text("peeled"), f"{count} of {len(layers)} hidden")
                self.assertEqual(self.text("show-all"), f"Show all boxes ({len(hidden)} hidden)")
            self.assertNotEqual(self.picture(), whole)
            self.click("show-all")
            self.assertEqual({row.now for row in self.rows()}, {""})

    def test_boxes_and_groups_are_hidden(self) -> None:
        self.open(program("container")[0])
        first = self.picture()
        self.keys("j", "h")
        self.assertEqual([row.name for row in self.rows() if row.now == "hidden"], ["dairy-1.1"])
        self.js("document.querySelector('#groups input').click()")
        self.settle()
        self.assertEqual({row.rest[-1] for row in self.rows() if row.now == "hidden"}, {"dairy"})
        self.assertNotEqual(self.picture(), first)
        self.keys("H", Keys.ESCAPE)
        self.assertEqual({row.now for row in self.rows()}, {""})
        self.assertEqual(self.js("return document.querySelector('#groups input').checked"), True)
        self.js("document.activeElement.blur()")
        self.assertEqual(self.picture(), first)

    def test_what_is_in_front_hides_what_is_behind(self) -> None:
        """At each point the box that the pointer finds, by a ray, has the colour that is drawn, by the depth of pixels. Some of
        the boxes hide one another in a ring, so that they have no order from back to front."""
        ring = [
            ((0, 4, 2), (10, 2, 2)), ((4, 0, 0), (2, 10, 2)), ((2, 2, 2), (2, 2, 8)), ((4, 6, 2), (2, 2, 8)),
            ((7, 1, 4), (3, 9, 2))]
        items = [Item(i, f"box {i}", "bin", at, size, f"group {i}") for i, (at, size) in enumerate(ring)]
        self.open(Scene("ring", [Room("bin", (10, 10, 10))], [Step("packed", items)]))
        self.click("names")
        fills = self.js("const style = getComputedStyle(document.documentElement);"
                        "return [0, 1, 2, 3, 4].map((i) => style.getPropertyValue(`--group-${i}`).trim())")
        points = list(product(range(300, 660, 30), range(90, 450, 30)))
        checked: set[tuple[int, str]] = set()
        for turn in range(3):
            for (x, y), colour in zip(points, self.plain_colours(points)):
                boxes = [index for index, fill in enumerate(fills) if is_shade(colour, fill)]
                if boxes:
                    self.point(x, y)
                    self.assertTrue(self.text("tip").startswith(f"box {boxes[0]}"), (turn, x, y, colour))
                    checked.add((turn, f"{x} {y}"))
            self.point(2, 2)
            self.drag((400, 250), (640, 250 + 60 * turn))
        self.assertGreater(len(checked), 60)

    def plain_colours(self, points: list[tuple[int, int]]) -> list[list[int]]:
        """The colours at points; none where a line is near."""
        around = [(x + dx, y + dy) for x, y in points for dx, dy in ((0, 0), (-3, 0), (3, 0), (0, -3), (0, 3))]
        colours = self.pixels(self.picture(), around)
        return [colours[i] if colours[i:i + 5] == [colours[i]] * 5 else [] for i in range(0, len(colours), 5)]

    def test_light_and_dark(self) -> None:
        for scene in (*(program(name)[0] for name in EXAMPLES), session("van.txt"), cut_scene()):
            self.open(scene)
            light, picture = self.js(BACK), self.picture()
            self.click("theme")
            dark = self.js(BACK)
            self.assertNotEqual(dark, light)
            self.assertNotEqual(self.picture(), picture)
            self.keys("d")
            self.assertEqual(self.js(BACK), light)
            self.assert_quiet()

    def test_a_system_that_is_dark(self) -> None:
        self.open(cut_scene(), colours="dark")
        self.assertEqual(self.js(BACK), "rgb(18, 23, 26)")
        self.assertEqual(self.js("return document.getElementById('theme').getAttribute('aria-pressed')"), "true")

    def test_the_theme_of_the_system_is_followed_while_none_is_chosen(self) -> None:
        self.open(cut_scene())
        light = self.js(BACK)
        self.prefer("dark")
        self.settle()
        dark = self.picture()
        self.assertNotEqual(self.js(BACK), light)
        self.prefer("light")
        self.settle()
        self.assertNotEqual(self.picture(), dark)

    def test_each_size_of_window(self) -> None:
        for size in (DESK, PHONE, (1920, 1080), (700, 500), (820, 1180)):
            for scene in (session("van.txt"), cut_scene()):
                self.open(scene, size=size)
                self.keys("j", "h", "c")
                self.assertEqual(self.js("return document.documentElement.scrollWidth"), size[0])
                width, height = self.js("const it = document.getElementById('stage'); return [it.clientWidth, it.clientHeight]")
                self.assertGreater(min(width, height), 150)
                self.assertEqual(self.js(BESIDE), [])
                self.assert_quiet()


class Large(BrowserCase):
    def test_thousands_of_boxes_stay_fluid(self) -> None:
        for side, high, count in ((50, 1, 2000), (20, 20, 5000)):
            size = (3, 3, 1 if high == 1 else 3)
            corners = ((i % side * 3, i // side % side * 3, i // side // side * 3) for i in range(count))
            items = [Item(i, f"box {i}", "bin", at, size, f"g{i % 30}") for i, at in enumerate(corners)]
            self.open(Scene("many", [Room("bin", (side * 3, side * 3, high * size[2]))], [Step(it.name, [it]) for it in items]))
            self.assertEqual(len(self.rows()), count)
            # What a step costs the script itself: here no graphics card draws.
            took = self.js("""const times = [];
                for (let i = 0; i < 12; i += 1) {
                  const start = performance.now();
                  document.dispatchEvent(new KeyboardEvent('keydown', {key: i % 2 ? 'j' : 'p'}));
                  times.push(performance.now() - start);
                }
                return times.sort((a, b) => a - b)[6]""")
            self.assertLess(took, 250)
            self.assert_quiet()


if __name__ == "__main__":
    unittest.main()
