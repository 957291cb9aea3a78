"""One bin of several in a browser: chosen, shown alone, and left again, by keys, mouse and touch, in each theme."""
from __future__ import annotations

import unittest

from rectangle_pack.commands._scene import Item, Room, Scene, Step

from ..test_view_tools import cut_scene, replay
from .browser import DESK, PHONE, BrowserCase, Keys, program

COUNT, COLOURS = 14, 5


def full_bins(depth: int = 1) -> Scene:
    """Bins that are full of one box each. Their groups take turns."""
    rooms = [Room(f"bin {number + 1}", (10, 10, depth)) for number in range(COUNT)]
    items = [
        Item(number, f"box {number + 1}", room.name, (0, 0, 0), room.size, f"group {number % COLOURS}")
        for number, room in enumerate(rooms)]
    return Scene("full", rooms, [Step(f"{it.name} is placed", [it]) for it in items])


class Bins(BrowserCase):
    def alone(self) -> str:
        """The name of the bin that is shown alone, or nothing."""
        found: str = self.js("const it = document.querySelector('#alone-name strong');"
                             "return it && it.checkVisibility() ? it.textContent : ''")
        return found

    def check_alone(self, number: int) -> None:
        """This bin is alone, and so large that its box fills most of the drawing."""
        self.assertEqual(self.alone(), f"bin {number}")
        self.look_for_stage()
        width, height = (round(side) for side in self.stage[2:])
        reach = round(min(width, height) * 0.35)
        points = [(width // 2 + x, height // 2 + y) for x in (-reach, reach) for y in (-reach, reach)]
        fill = self.fills(COLOURS)[(number - 1) % COLOURS]
        self.assertEqual(self.pixels(self.picture(), points), [fill] * 4)

    def place_of(self, name: str) -> tuple[int, int]:
        """A point of the drawing of all bins at which the box of this name is."""
        width, height = (round(side) for side in self.stage[2:])
        for y in range(20, height, 25):
            for x in range(20, width, 25):
                self.point(x, y)
                if self.text("tip").startswith(name + "1"):
                    return x, y
        self.fail(f"{name} is nowhere")

    def test_by_keys(self) -> None:
        for colours in ("light", "dark"):
            self.open(full_bins(), colours=colours)
            self.click("names")
            self.keys("g")
            first = self.picture()
            self.keys("b", "b")
            self.assertNotEqual(self.picture(), first)
            self.assertEqual(self.alone(), "")
            self.wait_for("spoken-bin", "bin 2, bin 2 of 14, 10 × 10, 100 % filled, 1 box, Enter shows it alone")
            self.keys(Keys.ENTER)
            self.check_alone(2)
            self.wait_for("spoken-bin", "bin 2, bin 2 of 14, 10 × 10, 100 % filled, 1 box, shown alone")
            self.keys(Keys.ARROW_RIGHT)
            self.check_alone(3)
            self.keys(*[Keys.ARROW_LEFT] * 3)
            self.check_alone(14)
            self.keys("b")
            self.check_alone(1)
            self.keys("B")
            self.check_alone(14)
            self.keys(Keys.ESCAPE)
            self.assertEqual(self.alone(), "")
            # The bin that was alone stays chosen.
            self.keys(Keys.ENTER)
            self.check_alone(14)
            self.keys(Keys.ESCAPE, Keys.ESCAPE)
            self.assertEqual(self.js("return document.activeElement.id"), "flat")
            self.assertEqual(self.picture(), first)
            self.assert_quiet()

    def test_by_mouse(self) -> None:
        self.open(full_bins(), colours="dark")
        self.click("names")
        place = self.place_of("box 7")
        self.click_at(*place)
        self.check_alone(7)
        # The box under the pointer is chosen, and the bar is for the mouse too.
        self.assertEqual(self.js("return document.querySelector('#box dd').textContent"), "box 7")
        self.click("bin-after")
        self.check_alone(8)
        self.click("bin-before")
        self.check_alone(7)
        self.click("all-bins")
        self.assertEqual(self.alone(), "")
        self.assertEqual(self.js("return document.activeElement.id"), "flat")
        self.assert_quiet()

    def test_by_touch(self) -> None:
        for colours in ("light", "dark"):
            self.open(full_bins(), size=PHONE, colours=colours)
            place = self.place_of("box 3")
            self.point(1, 1)
            self.tap(*place)
            self.assertEqual(self.alone(), "bin 3")
            self.assertEqual(self.js("return document.documentElement.scrollWidth"), PHONE[0])
            self.look_for_stage()
            # A tap on what is alone chooses a box, and shows no other bin.
            self.tap(round(self.stage[2] / 2), round(self.stage[3] / 2))
            self.assertEqual((self.alone(), self.text("tip")[:5]), ("bin 3", "box 3"))
            self.click("bin-after")
            self.assertEqual(self.alone(), "bin 4")
            self.click("all-bins")
            self.assertEqual(self.alone(), "")
            self.assert_quiet()

    def test_a_drag_opens_no_bin(self) -> None:
        self.open(full_bins())
        x, y = self.place_of("box 3")
        self.drag((x, y), (x + 60, y + 20))
        self.assertEqual(self.alone(), "")

    def test_containers(self) -> None:
        scene = program("container")[0]
        names = [room.name for room in scene.rooms]
        self.assertGreater(len(names), 1)
        self.open(scene)
        self.keys("g", Keys.ENTER)
        self.assertEqual(self.alone(), names[0])
        seen = {self.picture()}
        # Commas and dots turn it, as arrows go to other bins; with Shift they shift it.
        for act in (",", ".", ".", Keys.ARROW_UP):
            self.keys(act)
            seen.add(self.picture())
        self.shift(Keys.ARROW_LEFT)
        seen.add(self.picture())
        self.assertEqual(len(seen), 5)
        self.assertEqual(self.alone(), names[0])
        self.keys(Keys.ARROW_RIGHT)
        self.assertEqual(self.alone(), names[1])
        self.keys("v", Keys.ARROW_LEFT)
        self.assertEqual(self.alone(), names[0])
        self.keys(Keys.ESCAPE)
        self.assertEqual(self.alone(), "")
        self.assert_quiet()

    def test_what_is_alone_follows_the_steps(self) -> None:
        self.open(full_bins())
        self.keys("b", Keys.ENTER, Keys.HOME)
        self.assertEqual(self.alone(), "bin 1")
        for number in (2, 3):
            self.keys("n")
            self.assertEqual(self.alone(), f"bin {number}")
        self.keys("p")
        self.assertEqual(self.alone(), "bin 2")

    def test_what_is_alone_follows_the_cuts(self) -> None:
        scene = cut_scene()
        counts = [len(scene.cuts[room.name]) for room in scene.rooms]
        self.open(scene)
        self.keys("b", "b", Keys.ENTER, "c")
        # The plan begins with the first cut of the sheet that is shown.
        self.assertEqual((self.alone(), self.text("place")), ("sheet 2", f"cut {counts[0] + 1} / {sum(counts)}"))
        self.keys("p")
        self.assertEqual(self.alone(), "sheet 1")
        self.keys("n")
        self.assertEqual(self.alone(), "sheet 2")

    def test_what_is_found_in_another_bin_is_shown(self) -> None:
        self.open(full_bins())
        self.keys("b", Keys.ENTER, "/", *"box 1")
        # Those are box 1 and box 10 to box 14.
        self.assertEqual(self.text("found"), "6")
        seen = []
        for rank in range(1, 7):
            self.keys(Keys.ENTER)
            self.assertEqual(self.text("found"), f"{rank} of 6")
            seen.append(self.alone())
        self.assertEqual(seen, ["bin 1", "bin 10", "bin 11", "bin 12", "bin 13", "bin 14"])
        self.keys(Keys.ESCAPE)
        self.assertEqual(self.alone(), "bin 14")

    def test_a_row_of_the_table_shows_its_bin(self) -> None:
        self.open(full_bins())
        self.keys("b", Keys.ENTER)
        self.js("document.querySelectorAll('#table tbody tr')[4].click()")
        self.settle()
        self.check_alone(5)

    def test_a_bin_that_is_not_there_yet(self) -> None:
        self.open(replay("bin a 4 4 1\nrect x 4 4 1\npack\nbin b 4 4 1\n"))
        self.keys("b", "b", Keys.ENTER)
        self.assertEqual(self.alone(), "b")
        self.keys(Keys.HOME)
        self.assertEqual(self.text("empty"), "This bin is not there yet.")
        self.keys(Keys.ESCAPE)
        self.assertEqual(self.text("empty"), "")
        self.assert_quiet()

    def test_a_bin_without_others_is_not_shown_alone(self) -> None:
        self.open(Scene("one", [Room("bin", (10, 10, 1))], [Step("packed", [Item(1, "x", "bin", (0, 0, 0), (5, 5, 1))])]))
        self.keys("b", Keys.ENTER)
        self.click_at(480, 250)
        self.assertEqual(self.alone(), "")
        self.keys("?")
        shown = self.js("return [...document.querySelectorAll('#help kbd')].map((it) => it.textContent)")
        self.assertFalse({"B", "Enter"} & set(shown))

    def test_the_key_enter_is_left_to_buttons(self) -> None:
        self.open(full_bins())
        self.js("document.getElementById('theme').focus()")
        self.keys(Keys.ENTER)
        self.assertEqual(self.alone(), "")
        self.assertEqual(self.js("return document.getElementById('theme').getAttribute('aria-pressed')"), "true")

    def test_the_bar_is_reached_by_the_key_tab(self) -> None:
        self.open(full_bins())
        self.keys("b", Keys.ENTER)
        self.js("document.getElementById('keys').focus()")
        seen = []
        for _ in range(4):
            self.keys(Keys.TAB)
            seen.append(self.js("return document.activeElement.id"))
        self.assertEqual(seen, ["all-bins", "bin-before", "bin-after", "flat"])
        # What had the focus is gone then, so the drawing takes it.
        for _ in range(3):
            self.shift(Keys.TAB)
        self.keys(Keys.ENTER)
        self.assertEqual((self.alone(), self.js("return document.activeElement.id")), ("", "flat"))

    def test_bins_of_other_drawings_are_forgotten(self) -> None:
        first, second = program("atlas")
        self.open(first, second)
        self.keys("b", Keys.ENTER)
        self.assertNotEqual(self.alone(), "")
        self.choose("scene", second.title)
        self.assertEqual(self.alone(), "")
        self.assert_quiet()

    def test_each_size_of_window(self) -> None:
        for size in (DESK, (700, 500), PHONE):
            self.open(full_bins(10), size=size)
            self.keys("b", Keys.ENTER)
            label = self.js("return document.getElementById('flat').getAttribute('aria-label')")
            self.assertEqual((self.alone(), label), ("bin 1", "Drawing of bin bin 1 alone with 1 box"))
            self.assertEqual(self.js("return document.documentElement.scrollWidth"), size[0])
            self.assertGreater(self.js("return document.getElementById('stage').clientHeight"), 150)


if __name__ == "__main__":
    unittest.main()
