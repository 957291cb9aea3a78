"""The page for people who use keys alone, a screen reader, large contrast or no motion."""
from __future__ import annotations

import unittest
from typing import Any

from ..test_view_tools import EXAMPLES, cut_scene
from .browser import DESK, PHONE, BrowserCase, Keys, program, session, standing

from rectangle_pack.commands._scene import Scene

FOCUS = """const it = document.activeElement; const style = getComputedStyle(it);
    const id = it === document.body ? '' : it.id || it.closest('[id]').id;
    return [id, style.outlineStyle !== 'none' && parseFloat(style.outlineWidth) >= 2]"""
# Each element that shows text of its own: the text, its colour, and the first colour behind it that is not clear.
TEXTS = """const found = [];
    for (const it of document.querySelectorAll('body *')) {
      const text = [...it.childNodes].filter((node) => node.nodeType === 3).map((node) => node.data.trim()).join('');
      const input = it instanceof HTMLInputElement && it.type === 'search';
      if (!(text || input) || !it.checkVisibility() || it.closest('script, style, .unseen, canvas, option')) continue;
      let behind = it;
      while (behind && getComputedStyle(behind).backgroundColor === 'rgba(0, 0, 0, 0)') behind = behind.parentElement;
      const colour = (pseudo) => getComputedStyle(it, pseudo).color;
      const back = getComputedStyle(behind || document.body).backgroundColor;
      found.push([text || 'input', colour(), back]);
      if (input) found.push(['placeholder', colour('::placeholder'), back]);
    }
    return found"""


def scenes() -> list[Scene]:
    return [*(program(name)[-1] for name in EXAMPLES), session("pages.txt"), cut_scene()]


def light(colour: str) -> float:
    """The relative luminance of `rgb(1, 2, 3)`, by WCAG 2.2."""
    parts = [float(it) / 255 for it in colour[colour.index("(") + 1:-1].split(",")[:3]]
    red, green, blue = (it / 12.92 if it <= 0.04045 else float(((it + 0.055) / 1.055) ** 2.4) for it in parts)
    return 0.2126 * red + 0.7152 * green + 0.0722 * blue


class Keyboard(BrowserCase):
    def order(self) -> list[str]:
        """The ids that the key Tab goes through."""
        order: list[str] = []
        for _ in range(80):
            self.keys(Keys.TAB)
            id, is_marked = self.js(FOCUS)
            if not id:
                break
            self.assertTrue(is_marked, id)
            order.append(id)
        return order

    def test_the_key_tab_goes_through_the_page_as_it_is_read(self) -> None:
        self.open(*program("atlas"))
        order = self.order()
        firsts = [id for i, id in enumerate(order) if id not in order[:i]]
        self.assertEqual(firsts, [
            "skip", "scene", "query", "theme", "keys", "flat", "first", "back", "next", "last", "slider", "closer", "farther",
            "fit", "steps", "names", "groups", "table"])
        # All that can be used is reached.
        usable = self.js("""return [...document.querySelectorAll('button, input, select, [tabindex="0"]')]
            .filter((it) => it.checkVisibility()).length""")
        self.assertEqual(len(order), usable + 1)

    def test_what_is_skipped_to(self) -> None:
        self.open(program("atlas")[0])
        self.keys(Keys.TAB, Keys.ENTER, Keys.TAB)
        self.assertEqual(self.js("return document.activeElement.tagName"), "TR")

    def test_each_example_by_keys_alone(self) -> None:
        for scene in scenes():
            with self.subTest(scene.title):
                self.open(scene)
                last = len(scene.steps) - 1
                self.keys("/", *scene.steps[0].placed[0].name if scene.steps[0].placed else "map", Keys.ENTER, Keys.ESCAPE, "g")
                chosen = self.js("return document.querySelector('#box dd').textContent")
                self.keys("j")
                self.assertNotEqual(self.js("return document.querySelector('#box dd').textContent"), chosen)
                first = self.picture()
                self.keys("+", Keys.ARROW_LEFT, Keys.ARROW_DOWN)
                self.assertNotEqual(self.picture(), first)
                self.keys("h")
                self.assertEqual([row.now for row in self.rows()].count("hidden"), 1)
                self.keys("H", "d", "0", Keys.HOME)
                if last:
                    self.assertEqual(self.text("place"), f"1 / {last + 1}")
                    self.keys(Keys.END, "p")
                    self.assertEqual(len([row for row in self.rows() if row.now != "released"]), len(standing(scene, last - 1)))
                self.keys("t")
                self.assertEqual(self.js("return document.activeElement.tagName"), "TR")
                self.keys(Keys.ARROW_DOWN)
                self.assertEqual(self.js("return document.activeElement.getAttribute('aria-current')"), "true")
                self.assert_quiet()

    def test_a_container_by_keys(self) -> None:
        scene = program("container")[0]
        places = [it.at for step in scene.steps for it in step.placed]
        self.open(scene)
        self.keys("g", "l", "l", "L")
        self.assertEqual(self.text("peeled"), "1 of 13 hidden")
        self.keys("s")
        self.assertEqual(self.js("return document.getElementById('side-from').value"), "front")
        self.assertEqual(self.text("peeled"), f"{len({z for _, _, z in places})} layers, none hidden")
        turned = self.picture()
        self.keys("v")
        self.assertNotEqual(self.picture(), turned)

    def test_the_help_has_the_keys_that_are_of_use(self) -> None:
        for scene, has, has_not in ((program("container")[0], ["L", "V", "N"], ["C"]), (cut_scene(), ["C", "N"], ["L", "V"])):
            self.open(scene)
            self.keys("g", "?")
            shown = self.js("return [...document.querySelectorAll('#help kbd')].map((it) => it.textContent)")
            self.assertLessEqual({*has, "?", "Esc", "Arrows", "Shift H"}, set(shown))
            self.assertFalse(set(has_not) & set(shown))
            self.keys(Keys.ESCAPE)
            self.assertFalse(self.js("return document.getElementById('help').open"))
            self.assertEqual(self.js("return document.activeElement.id"), "flat")

    def test_letters_can_be_switched_off(self) -> None:
        self.open(session("pages.txt"))
        self.keys("?")
        self.shift(Keys.TAB)
        self.keys(" ", Keys.ESCAPE, "p", "d")
        self.assertEqual(self.text("place"), "17 / 17")
        self.assertEqual(self.js("return document.getElementById('theme').getAttribute('aria-pressed')"), "false")
        self.keys(Keys.HOME)
        self.assertEqual(self.text("place"), "1 / 17")

    def test_keys_with_control_are_left_to_the_browser(self) -> None:
        self.open(session("pages.txt"))
        for flag in ("ctrlKey", "altKey", "metaKey"):
            self.js("document.dispatchEvent(new KeyboardEvent('keydown', {key: 'p', [arguments[0]]: true}))", flag)
        self.settle()
        self.assertEqual(self.text("place"), "17 / 17")


class Reader(BrowserCase):
    def tree(self) -> list[dict[str, Any]]:
        """What a screen reader is told: the nodes of the accessibility tree that are not passed over."""
        self.told("Accessibility.enable", {})
        nodes = self.told("Accessibility.getFullAXTree", {})["nodes"]
        return [{
            "role": it["role"]["value"], "name": it.get("name", {}).get("value", ""),
            **{entry["name"]: entry["value"].get("value") for entry in it.get("properties", ())},
        } for it in nodes if not it["ignored"]]

    def test_all_that_takes_the_focus_has_a_name(self) -> None:
        for scene in scenes():
            self.open(scene)
            for it in self.tree():
                if it.get("focusable") and it["role"] not in ("RootWebArea", "row", "generic"):
                    self.assertTrue(it["name"].strip(), it)

    def test_the_table_is_told_as_a_table(self) -> None:
        scene = program("container")[0]
        self.open(scene)
        roles = [it["role"] for it in self.tree()]
        self.assertEqual(roles.count("table"), 1)
        names = [it["name"] for it in self.tree() if it["role"] == "table"]
        self.assertEqual(names, ["73 boxes after step 73 of 73, sizes in cells"])
        # A row for each box, and the head; also those that are not in sight.
        self.assertEqual((roles.count("row"), roles.count("rowheader"), roles.count("columnheader")), (74, 73, 11))
        self.assertEqual([it["name"] for it in self.tree() if it["role"] == "columnheader"], [
            "No.", "Name", "Bin", "X", "Y", "Z", "Width", "Height", "Depth", "Group", "Now"])
        self.keys(Keys.HOME)
        self.assertEqual([it["role"] for it in self.tree()].count("row"), 2)

    def test_what_changes_is_told_politely(self) -> None:
        self.open(session("pages.txt"))
        live = {it["name"]: it for it in self.tree() if it["role"] == "status"}
        self.assertEqual({it["live"] for it in live.values()}, {"polite"})
        for id in ("status", "found", "spoken"):
            self.assertEqual(self.js("return document.getElementById(arguments[0]).getAttribute('role')", id), "status")

    def test_the_drawing_says_what_is_in_it(self) -> None:
        self.open(program("panels")[0])
        self.assertIn("Drawing of 5 bins with 60 boxes", [it["name"] for it in self.tree()])
        headings = [it["name"] for it in self.tree() if it["role"] == "heading"]
        self.assertEqual(headings[:2], [program("panels")[0].title, "Step"])
        self.assertEqual(self.js("return document.getElementById('slider').getAttribute('aria-valuetext')"), "step 60 of 60")

    def test_a_chosen_box_is_spoken(self) -> None:
        self.open(session("pages.txt"))
        self.keys("j")
        self.wait_for("spoken", "map, 48 × 40 cells, number 0, in page at 0, 0")

    def test_text_can_be_read(self) -> None:
        for scene in scenes():
            for theme, size in (("light", DESK), ("dark", DESK), ("dark", PHONE)):
                self.open(scene, size=size, colours=theme)
                self.keys("j", "?")
                texts = self.js(TEXTS)
                self.assertGreater(len(texts), 30)
                for text, colour, back in texts:
                    low, high = sorted((light(colour), light(back)))
                    self.assertGreaterEqual((high + 0.05) / (low + 0.05), 4.5, (scene.title, theme, text, colour, back))

    def test_what_is_touched_is_large_enough(self) -> None:
        self.open(program("container")[0], size=PHONE)
        for width, height in self.js("""return [...document.querySelectorAll('button')].filter((it) => it.checkVisibility())
                .map((it) => [it.offsetWidth, it.offsetHeight])"""):
            self.assertGreaterEqual(min(width, height), 34)


if __name__ == "__main__":
    unittest.main()
