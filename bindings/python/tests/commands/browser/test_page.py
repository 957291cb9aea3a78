"""The page in a browser: gone through step by step, searched, and its boxes pointed at."""
from __future__ import annotations

import unittest

from ..test_view_tools import EXAMPLES, replay
from .browser import BrowserCase, Keys, Row, program, session, standing

from rectangle_pack.commands._scene import Item, Room, Scene, Step


def row_of(it: Item, scene: Scene) -> Row:
    """What the table has to say of a box."""
    axes = 2 if all(room.size[2] <= 1 for room in scene.rooms) else 3
    items = [item for step in scene.steps for item in step.placed]
    more = [it.group] if any(item.group for item in items) else []
    more += [it.note] if any(item.note for item in items) else []
    return Row(str(it.number), it.name, it.bin, (*map(str, it.at[:axes]), *map(str, it.size[:axes]), *more), "")


class Steps(BrowserCase):
    """Each scene is gone through, and the table has after each step what stands in the bins."""

    def check_step(self, scene: Scene, step: int) -> None:
        rows = [row for row in self.rows() if not row.now.startswith("released")]
        self.assertEqual({row._replace(now="") for row in rows}, {row_of(it, scene) for it in standing(scene, step).values()})
        placed = {str(it.number) for it in scene.steps[step].placed}
        self.assertEqual({row.number for row in rows if row.now == "placed"}, placed)
        gone = {row.number for row in self.rows() if row.now == "released"}
        self.assertEqual(gone, {str(number) for number in scene.steps[step].released})
        self.assertEqual(self.text("place"), f"{step + 1} / {len(scene.steps)}")
        self.assertEqual(self.text("answer"), "\n".join(scene.steps[step].answer))

    def test_examples(self) -> None:
        for name in EXAMPLES:
            scenes = program(name)
            self.open(*scenes)
            for scene in scenes:
                with self.subTest(name=name, scene=scene.title):
                    if len(scenes) > 1:
                        self.choose("scene", scene.title)
                    last = len(scene.steps) - 1
                    # At first the whole is shown, and nothing is marked.
                    self.assertEqual(self.rows(), [row_of(it, scene) for it in standing(scene, last).values()])
                    self.click("back")
                    self.check_step(scene, last - 1)
                    self.slide("slider", 20)
                    self.check_step(scene, 19)
                    self.click("first")
                    self.check_step(scene, 0)
                    self.click("last")
                    self.check_step(scene, last)
            self.assert_quiet()

    def test_sessions(self) -> None:
        for name in ("pages.txt", "van.txt"):
            scene = session(name)
            self.open(scene)
            self.keys(Keys.HOME)
            for step, it in enumerate(scene.steps):
                self.check_step(scene, step)
                self.assertEqual((self.text("command"), self.text("note")), (it.text, it.note))
                is_marked = self.js("return document.getElementById('command').className === 'refused'")
                self.assertEqual(is_marked, it.refused)
                self.keys("n")
            self.keys("p")
            self.check_step(scene, len(scene.steps) - 2)
            self.assert_quiet()

    def test_what_a_step_does_is_spoken(self) -> None:
        scene = session("pages.txt")
        self.open(scene)
        self.wait_for("status", "Step 17 of 17. 4 boxes stand in 1 bin.")
        self.slide("slider", 11)
        self.wait_for("status", "Step 11 of 17. 1 box is released. 3 boxes stand in 1 bin.")
        self.slide("slider", 9)
        self.wait_for("status", "Step 9 of 17. Refused, nothing changes. 5 boxes stand in 1 bin.")
        self.slide("slider", 7)
        self.wait_for("status", "Step 7 of 17. 5 boxes are placed. 5 boxes stand in 1 bin.")
        self.slide("slider", 2)
        self.wait_for("status", "Step 2 of 17. No box stands in a bin.")

    def test_keys_go_to_the_steps_that_change_something(self) -> None:
        self.open(session("pages.txt"))
        seen = [self.text("place")]
        for _ in range(5):
            self.keys("P")
            seen.append(self.text("place"))
        self.assertEqual(seen, ["17 / 17", "15 / 17", "11 / 17", "10 / 17", "7 / 17", "1 / 17"])
        self.keys("N")
        self.assertEqual(self.text("place"), "7 / 17")

    def test_the_list_of_steps(self) -> None:
        self.open(session("pages.txt"))
        self.choose("steps", "13. pack (refused)")
        self.assertEqual(self.text("place"), "13 / 17")
        self.assertEqual(self.text("answer"), "refused: Not enough space to place all of the rectangles.")

    def test_a_step_changes_the_picture(self) -> None:
        for scene in (session("pages.txt"), session("van.txt"), program("atlas")[0]):
            self.open(scene)
            last = self.picture()
            self.keys(Keys.HOME)
            first = self.picture()
            self.keys(Keys.END)
            self.assertNotEqual(first, last)

    def test_where_there_is_no_bin(self) -> None:
        self.open(replay("rect x 1 1 1\nbin a 2 2 1\n"))
        self.assertEqual(self.text("empty"), "")
        self.keys("p")
        self.assertEqual(self.text("empty"), "There is no bin yet.")
        self.open(Scene("nothing", [], []))
        self.assertEqual(self.text("empty"), "There is no bin.")
        self.wait_for("status", "No box stands in a bin.")
        self.assertEqual(self.rows(), [])
        self.keys("j", "k", "n", "p", "+", "0", "h", "H", "?", Keys.ESCAPE)
        self.assert_quiet()

    def test_bins_and_boxes_without_cells_and_as_large_as_they_get(self) -> None:
        most = 2**32 - 1
        for depth in (0, 1, most):
            text = f"bin a 0 {most} {depth}\nbin b {most} {most} {depth}\nbin c 0 0 0\nbin d 1 {most} 1\n"
            text += f"rect x 0 0 0\nrect y {most} 1 {depth}\nrect z 1 1 {min(depth, 1)}\npack\n"
            scene = replay(text)
            self.open(scene)
            self.keys("p", "n")
            self.check_step(scene, len(scene.steps) - 1)
            self.keys("j", "+", "+", Keys.ARROW_LEFT, "v", "j", "l", "0")
            self.assert_quiet()


class Find(BrowserCase):
    def find(self, text: str) -> None:
        self.keys("/")
        self.keys(*text)

    def test_names_are_found_one_after_another(self) -> None:
        for name, asked, count in (("atlas", "bush-1", 3), ("panels", "door", 10), ("container", "glass-9.1", 2)):
            scene = program(name)[0]
            self.open(scene)
            plain = self.picture()
            self.find(asked)
            self.assertEqual(self.text("found"), str(count))
            self.assertNotEqual(self.picture(), plain)
            names = [it.name for it in standing(scene, len(scene.steps) - 1).values() if asked in it.name]
            self.assertEqual(len(names), count)
            self.assertEqual([row.name for row in self.rows() if row.now == "found"], names)
            seen = []
            for rank in range(count):
                self.keys(Keys.ENTER)
                self.assertEqual(self.text("found"), f"{rank + 1} of {count}")
                seen.append(self.js("return document.querySelector('#box dd').textContent"))
            self.assertEqual(sorted(seen), sorted(names))
            self.shift(Keys.ENTER)
            self.assertEqual(self.text("found"), f"{count - 1} of {count}")
            self.keys(Keys.ESCAPE)
            self.assertEqual(self.text("found"), "")
            self.assertEqual(self.js("return document.activeElement.id"), "flat")

    def test_a_name_of_another_step(self) -> None:
        self.open(session("pages.txt"))
        self.find("BUSH")
        self.assertEqual(self.text("found"), "none here, 1 at other steps or hidden")
        self.slide("slider", 7)
        self.assertEqual(self.text("found"), "1")
        self.find("x")
        self.assertEqual(self.text("found"), "none")

    def test_a_box_outside_of_the_window_is_moved_into_it(self) -> None:
        for motion in ("no-preference", "reduce"):
            self.open(program("atlas")[0], motion=motion)
            self.keys(*"++++++++")
            before = self.picture()
            self.find("bush-5")
            self.keys(Keys.ENTER)
            soon = self.picture()
            self.driver.execute_async_script("setTimeout(arguments[0], 700)")
            later = self.picture()
            self.assertNotEqual(before, later)
            if motion == "reduce":
                self.assertEqual(soon, later)

    def test_hover_says_what_a_box_is(self) -> None:
        for image in ("", "data:image/gif;base64,R0lGODlhAQABAIAAAAAAAP///yH5BAEAAAAALAAAAAABAAEAAAIBRAA7"):
            item = Item(7, "<i>one", "bin", (0, 0, 0), (10, 5, 1), "a group", "a note")
            other = Item(8, "two", "bin", (0, 5, 0), (10, 5, 1))
            self.open(Scene("one", [Room("bin", (10, 10, 1), image)], [Step("packed", [item, other])], unit="mm"))
            # y goes upward, and downward where there is a picture.
            for y, name in ((200, "two"), (400, "<i>one")) if not image else ((200, "<i>one"), (400, "two")):
                self.point(480, y)
                self.settle()
                self.assertTrue(self.text("tip").startswith(name), self.text("tip"))
                if name == "<i>one":
                    self.assertEqual(self.text("tip"), "<i>one10 × 5 mmno. 7, at 0, 0group a groupa note")
            self.point(5, 5)
            self.settle()
            self.assertEqual(self.text("tip"), "")

    def test_a_click_chooses_a_box(self) -> None:
        self.open(session("pages.txt"))
        self.js("document.activeElement.blur()")
        self.point(300, 400, "mousePressed", button="left", buttons=1, clickCount=1)
        self.point(300, 400, "mouseReleased", button="left", clickCount=1)
        self.settle()
        terms = self.js("return [...document.querySelectorAll('#box dt, #box dd')].map((it) => it.textContent)")
        self.assertEqual(dict(zip(terms[::2], terms[1::2])), {
            "Name": "map", "Size": "48 × 40 cells", "Bin": "page", "Corner": "0, 0", "Number": "0", "Placed": "step 7"})
        self.assertEqual(self.js("return document.querySelector('[aria-current]').cells[1].textContent"), "map")


if __name__ == "__main__":
    unittest.main()
