"""The page that the command view writes, without a browser: what is in it, and how the command ends."""
from __future__ import annotations

import base64
import dataclasses
import hashlib
import json
import re
import shutil
import subprocess
import unittest

from .parsed import Parsed
from .test_view_tools import EXAMPLES, PARTS, TOP, ViewCase, cut_scene, example, replay, run, run_alone, table, with_everything

from rectangle_pack.commands._common import Wrong
from rectangle_pack.commands._scene import Item, Room, Scene, Step
from rectangle_pack.commands._view._json import from_json, to_json
from rectangle_pack.commands._view._page import SCRIPTS, page_of
from rectangle_pack.commands.view import write_page

# Attributes that make a browser fetch something.
FETCHING = {"src", "href", "srcset", "action", "formaction", "poster", "background", "ping", "data", "manifest", "icon"}


def scenes() -> list[Scene]:
    """Scenes of all kinds."""
    found = [it for name in EXAMPLES for it in table((TOP / "crates" / f"example_{name}" / "stdout").read_text(encoding="utf-8"))]
    text = "bin a 9 9 1\nrect x 2 2 1 g\nrect y 2 9 1\npack\nrelease 0\nsections a\nsweep a\nsweep b\nrect z 1 1 1\npack\n"
    session = replay(text)
    return [*found, session, cut_scene(), with_everything(), Scene("nothing", [], [])]


def settled(scene: Scene) -> object:
    """The scene with lists in place of all sequences, so that two can be compared."""
    return json.loads(json.dumps([
        scene.title, scene.unit, scene.facts, [vars(it) for it in scene.rooms],
        {name: [dataclasses.asdict(cut) for cut in cuts] for name, cuts in scene.cuts.items()},
        [{**vars(step), "placed": [vars(it) for it in step.placed]} for step in scene.steps]]))


class Json(unittest.TestCase):
    def test_scenes_are_read_back(self) -> None:
        for scene in scenes():
            with self.subTest(scene.title):
                again = from_json(json.loads(json.dumps(to_json(scene))))
                self.assertEqual(settled(again), settled(scene))

    def test_numbers_are_exact_for_programs_that_read_floats(self) -> None:
        def look(value: object) -> None:
            if isinstance(value, dict):
                value = list(value.values())
            if isinstance(value, list):
                for it in value:
                    look(it)
            elif isinstance(value, int):
                self.assertEqual(int(float(value)), value)
        look(to_json(with_everything()))

    def test_a_scene_that_cannot_be_is_an_error(self) -> None:
        room, item = Room("a", (9, 9, 1)), Item(1, "x", "a", (0, 0, 0), (1, 1, 1))
        for scene in (
            Scene("bins", [room, room], []), Scene("bin", [], [Step("", [item])]),
            Scene("number", [room], [Step("", [item, item])]), Scene("free", [room], [Step("", free={"b": []})]),
            Scene("cuts", [room], [], {"b": []}),
        ):
            with self.subTest(scene.title), self.assertRaises(ValueError):
                to_json(scene)
        # A number may be given anew once it is released.
        to_json(Scene("anew", [room], [Step("", [item]), Step("", [item], [1])]))

    def test_the_page_has_the_scenes(self) -> None:
        for scene in scenes():
            data = json.loads(Parsed(page_of(scene.title, [scene])).text("script", id="data"))
            self.assertEqual([settled(from_json(it)) for it in data["scenes"]], [settled(scene)])


class Page(unittest.TestCase):
    def setUp(self) -> None:
        self.page = page_of("a <title> & more", [with_everything(), cut_scene()])
        self.parsed = Parsed(self.page)

    def test_nothing_is_fetched(self) -> None:
        for tag, attributes in self.parsed.elements:
            for name in FETCHING & attributes.keys():
                self.assertRegex(attributes[name], r"^(#\w+|data:,)$", (tag, name))
        self.assertNotIn(("base", {}), self.parsed.elements)
        style, script = self.parsed.text("style"), self.parsed.text("script")
        self.assertNotRegex(style, r"url\(|@import|@font-face|image-set")
        self.assertNotRegex(script, r"\bfetch\(|XMLHttpRequest|WebSocket|EventSource|sendBeacon|\bimport\b|Worker\(|https?:")
        self.assertNotRegex(script, r"innerHTML|outerHTML|insertAdjacentHTML|document\.write|\beval\b|new Function")
        tags = {tag for tag, _ in self.parsed.elements}
        self.assertEqual(tags & {"iframe", "object", "embed", "img", "audio", "video"}, set())

    def test_the_policy_lets_in_this_style_and_this_script_alone(self) -> None:
        policies = [it["content"] for tag, it in self.parsed.elements if it.get("http-equiv") == "Content-Security-Policy"]
        rules = dict(rule.strip().split(" ", 1) for rule in policies[0].split(";"))
        self.assertEqual(len(policies), 1)
        self.assertEqual(rules["default-src"], "'none'")
        self.assertEqual(rules["img-src"], "data:")
        for rule, tag in (("style-src", "style"), ("script-src", "script")):
            digest = hashlib.sha256(self.parsed.text(tag).encode()).digest()
            self.assertEqual(rules[rule], f"'sha256-{base64.b64encode(digest).decode()}'")
        self.assertEqual(set(rules) - {"default-src", "img-src", "style-src", "script-src"}, {"base-uri", "form-action"})

    def test_names_end_no_element(self) -> None:
        plain = Parsed(page_of("plain", [Scene("plain", [], [])]))
        self.assertEqual([tag for tag, _ in self.parsed.elements], [tag for tag, _ in plain.elements])
        self.assertEqual(self.page.count("</script"), 2)
        self.assertNotIn("<!--", self.page)
        data = self.parsed.text("script", id="data")
        self.assertTrue(data.isascii())
        self.assertNotRegex(data, "[<>&]")
        self.assertIn("<title>a &lt;title&gt; &amp; more</title>", self.page)
        self.assertEqual(self.parsed.text("title"), "a <title> & more")

    def test_a_title_of_bytes_that_are_no_text(self) -> None:
        page = page_of("a \udcff b", [Scene("a \udcff b", [], [])])
        self.assertIn("<title>a ? b</title>", page)
        page.encode()

    def test_equal_scenes_make_equal_pages(self) -> None:
        self.assertEqual(self.page, page_of("a <title> & more", [with_everything(), cut_scene()]))

    def test_what_stands_in_braces_stays(self) -> None:
        page = page_of("{{data}} {{title}}", [Scene("{{script}}", [], [])])
        self.assertIn("<title>{{data}} {{title}}</title>", page)
        self.assertEqual(json.loads(Parsed(page).text("script", id="data"))["scenes"][0]["title"], "{{script}}")

    def test_all_names_in_the_script_are_in_the_page(self) -> None:
        script = self.parsed.text("script")
        ids = {it["id"] for _, it in self.parsed.elements if "id" in it}
        self.assertEqual(len(ids), sum("id" in it for _, it in self.parsed.elements))
        asked = set(re.findall(r'\b(?:any|element|onClick|onValue|isChecked|fillOrHide)\("([\w-]+)"', script))
        self.assertGreater(len(asked), 30)
        self.assertEqual(asked - ids, set())
        for _, attributes in self.parsed.elements:
            for name in ("for", "aria-labelledby", "aria-describedby"):
                self.assertLessEqual(set(attributes.get(name, "").split()), ids)


class Parts(unittest.TestCase):
    def test_each_part_is_used(self) -> None:
        self.assertEqual({it.name for it in PARTS.glob("*.js")}, set(SCRIPTS))
        self.assertEqual({it.name for it in PARTS.iterdir() if it.suffix in (".html", ".css")}, {"page.html", "page.css"})

    @unittest.skipUnless(shutil.which("node"), "no node")
    def test_node_reads_the_script(self) -> None:
        script = Parsed(page_of("x", [])).text("script")
        it = subprocess.run(["node", "--check", "-"], input=script, capture_output=True, text=True)
        self.assertEqual((it.returncode, it.stderr), (0, ""))

    @unittest.skipUnless(shutil.which("tsc"), "no tsc")
    def test_the_types_of_the_script(self) -> None:
        words = ["--allowJs", "--checkJs", "--noEmit", "--strict", "--target", "es2020", "--lib", "es2020,dom,dom.iterable"]
        it = subprocess.run(["tsc", *words, *SCRIPTS], cwd=PARTS, capture_output=True, text=True)
        self.assertEqual((it.returncode, it.stdout), (0, ""))


class Command(ViewCase):
    def test_a_page_of_commands(self) -> None:
        example(self.folder)
        it = run_alone(self.folder, "pages.txt", "--unit", "pixels", "--title", "Pages & more")
        self.assertEqual(it, (0, "pages.html\n", ""))
        data = json.loads(Parsed((self.folder / "pages.html").read_text(encoding="utf-8")).text("script", id="data"))
        scene, = data["scenes"]
        self.assertEqual((data["title"], scene["unit"], len(scene["steps"])), ("Pages & more", "pixels", 17))

    def test_a_page_of_a_table_from_standard_input(self) -> None:
        text = (TOP / "crates/example_atlas/stdout").read_bytes()
        it = run_alone(self.folder, "--table", "-", "--page", "deep/in/atlas.html", given=text)
        self.assertEqual(it, (0, "deep/in/atlas.html\n", ""))
        data = json.loads(Parsed((self.folder / "deep/in/atlas.html").read_text(encoding="utf-8")).text("script", id="data"))
        self.assertEqual([scene["title"] for scene in data["scenes"]], ["the forest", "the cave"])

    def test_the_page_is_the_same_each_time(self) -> None:
        example(self.folder)
        for seed in ("0", "1", "2"):
            it = run_alone(self.folder, "van.txt", "--page", f"{seed}.html", more={"PYTHONHASHSEED": seed})
            self.assertEqual(it.status, 0)
        first, *others = ((self.folder / f"{seed}.html").read_bytes() for seed in "012")
        self.assertEqual(others, [first, first])

    def test_json(self) -> None:
        path = self.file("in.txt", "bin a 2 2 1\nrect x 1 2 1\npack\nrelease 5\n")
        it = run(path, "--page", self.folder / "p.html", "--json")
        self.assertEqual((it.status, it.err), (0, ""))
        told = json.loads(it.out)
        self.assertEqual(told["page"], str(self.folder / "p.html"))
        scene, = told["scenes"]
        self.assertEqual(scene["rooms"], [{"name": "a", "size": [2, 2, 1]}])
        self.assertEqual(scene["steps"], [
            {"text": "bin a 2 2 1", "free": {"a": {"new": [[0, 0, 0, 2, 2, 1]]}}, "answer": ["ok"]},
            {"text": "rect x 1 2 1", "answer": ["ok"], "note": "1 box waits for the next pack"},
            {"text": "pack", "placed": [{"number": 0, "name": "x", "bin": "a", "at": [0, 0, 0, 1, 2, 1]}],
             "free": {"a": {"gone": [0], "new": [[1, 0, 0, 1, 2, 1]]}}, "answer": ["0 x a 0 0 0 1 2 1", "packed 1"]},
            {"text": "release 5", "answer": ["refused: placement 5 is unknown"], "refused": True}])

    def test_a_page_that_cannot_be_written_is_refused(self) -> None:
        path = self.file("in.txt", "pack\n")
        self.assert_refused(run(path, "--page", path / "p.html"), "cannot be written")
        with self.assertRaisesRegex(Wrong, "cannot be written"):
            write_page(Scene("x", [], []), self.folder)
        self.assertEqual([it.name for it in self.folder.iterdir()], ["in.txt"])

    def test_a_file_that_cannot_be_read_is_refused(self) -> None:
        for path in (self.folder / "missing.txt", self.folder):
            self.assert_refused(run(path, "--page", self.folder / "p.html"), f"{path}: cannot be read: ")

    def test_the_file_that_is_read_is_not_overwritten(self) -> None:
        self.file("in.html", "pack\n")
        it = run_alone(self.folder, "in.html")
        self.assert_refused(it, "--page")
        self.assertEqual((self.folder / "in.html").read_bytes(), b"pack\n")

    def test_standard_input_asks_for_the_name_of_the_page(self) -> None:
        self.assert_refused(run_alone(self.folder, "-", given=b"pack\n"), "--page")

    def test_wrong_words(self) -> None:
        for words in ((), ("--page",), ("a", "b"), ("--nothing", "a")):
            self.assertEqual(run(*words).status, 2)

    def test_the_help_says_what_goes_in(self) -> None:
        it = run("--help")
        self.assertEqual((it.status, it.err), (0, ""))
        for part in ("rect hat", "--table", "bin NAME W H D", "N ID NAME X Y Z W H D [GROUP]", "--page session.html", "exit status: 0 done"):
            self.assertIn(part, it.out)


if __name__ == "__main__":
    unittest.main()
