"""Names that end in numbers: animations for PixiJS, and indices for libGDX."""
from __future__ import annotations

import json
import unittest
from typing import Any

from rectangle_pack.commands._sheet.numbered import numbered

from .test_sheet_index import pages_by_keys
from .test_sheet_tools import SheetCase, full, run

WRONG = 2


class Names(unittest.TestCase):
    def test_what_a_name_is_without_its_number(self) -> None:
        for name, found in {
            "walk-1": ("walk", 1), "walk_02": ("walk", 2), "walk3": ("walk", 3), "walk 4": ("walk", 4), "walk.5": ("walk", 5),
            "hero/walk-10": ("hero/walk", 10), "hero/walk/07": ("hero/walk", 7), "a-b-0": ("a-b", 0), "a1b2": ("a1b", 2),
            "walk-1.png": ("walk", 1), "walk-1.PNG": ("walk", 1), "1-2": ("1", 2), "a--3": ("a-", 3), "a/-3": ("a", 3),
            "a -3": ("a", 3), "a999999999": ("a", 999_999_999), "\u00e4-1": ("\u00e4", 1),
        }.items():
            self.assertEqual(numbered(name), found, name)

    def test_names_without_a_number_or_without_a_name(self) -> None:
        # A number of ten digits is none: it may be too great for libGDX.
        for name in ("walk", "walk-", "12", "007.png", "-1", "/1", "walk-1b", "a1234567890", "walk-\u0661", "walk-1.jpg", ""):
            self.assertIsNone(numbered(name), name)


class Animations(SheetCase):
    def index(self, *words: object, file: str = "atlas.json") -> dict[str, Any]:
        self.sheet(*words)
        found: dict[str, Any] = json.loads((self.out / file).read_text(encoding="utf-8"))
        return found

    def test_frames_are_in_the_order_of_their_numbers(self) -> None:
        names = ("walk-2", "walk-10", "walk-1", "hero/run_03", "hero/run_1", "hero/run_2", "spin/2", "spin/1", "still", "jump1")
        self.write({name: full(2, 2 + i) for i, name in enumerate(names)})
        index = self.index()
        self.assertEqual(list(index), ["frames", "animations", "meta"])
        self.assertEqual(index["animations"], {
            "walk": ["walk-1", "walk-2", "walk-10"], "hero/run": ["hero/run_1", "hero/run_2", "hero/run_03"],
            "spin": ["spin/1", "spin/2"], "jump": ["jump1"]})
        for frames in index["animations"].values():
            self.assertLessEqual(set(frames), set(index["frames"]))

    def test_names_with_png_and_aliases(self) -> None:
        self.write({"walk-1": full(3, 3), "walk-2": full(3, 3)})
        index = self.index("--with-png", "--alias")
        self.assertEqual(index["animations"], {"walk": ["walk-1.png", "walk-2.png"]})
        self.assertEqual(set(index["frames"]), {"walk-1.png", "walk-2.png"})

    def test_they_can_be_left_out(self) -> None:
        self.write({"walk-1": full(3, 3)})
        self.assertEqual(list(self.index("--no-animations")), ["frames", "meta"])

    def test_where_no_name_has_a_number_there_are_none(self) -> None:
        self.write({"walk": full(3, 3)})
        self.assertEqual(list(self.index()), ["frames", "meta"])

    def spread(self) -> None:
        """Frames of `wide` that go onto two pages of 40x40, and those of `dot`, which fit onto one."""
        self.write({"wide-1": full(40, 40), "wide-2": full(40, 30), "dot-1": full(4, 4), "dot-2": full(4, 4)})

    def test_an_animation_on_several_pages_is_left_out_and_told(self) -> None:
        self.spread()
        words = ("--size", 40, "--padding", 0)
        done = run(self.source, "-o", self.out / "atlas", *words)
        self.assertEqual((done.status, done.err), (0, ""))
        self.assertEqual(done.out.splitlines()[4:], [
            "no animation 'wide': its frames are on 2 pages, and PixiJS takes them from one"])
        indices = [json.loads((self.out / f"atlas-{page}.json").read_text(encoding="utf-8")) for page in (0, 1)]
        self.assertEqual([it.get("animations") for it in indices if "dot-1" not in it["frames"]], [None])
        self.assertEqual([it["animations"] for it in indices if "dot-1" in it["frames"]], [{"dot": ["dot-1", "dot-2"]}])
        said = json.loads(run(self.source, "-o", self.out / "atlas", *words, "--json").out)
        page = next(it["page"] for it in said["sprites"] if it["name"] == "dot-1")
        self.assertEqual(said["animations"], [
            {"name": "dot", "frames": ["dot-1", "dot-2"], "page": page},
            {"name": "wide", "frames": ["wide-1", "wide-2"], "page": None}])

    def test_nothing_is_told_where_there_is_no_index_for_pixi(self) -> None:
        self.spread()
        for words in (("--no-animations",), ("--format", "libgdx")):
            done = run(self.source, "-o", self.out / "atlas", "--size", 40, "--padding", 0, *words)
            self.assertNotIn("animation", done.out)


class Indices(SheetCase):
    def regions(self, *words: object) -> dict[int, tuple[str, str]]:
        """The names of regions with their indices, as text, by the widths of the sprites."""
        done = run(self.source, "-o", self.out / "atlas", "--format", "libgdx", *words)
        self.assertEqual((done.status, done.err), (0, ""))
        lines = (self.out / "atlas.atlas").read_text(encoding="utf-8").split("\n")[:-1]
        page, = pages_by_keys(lines)
        return {it["size"][0]: (it["name"], it["index"]) for it in page["regions"]}

    def test_names_and_indices(self) -> None:
        names = ("walk_0", "walk_01", "hero/run-7", "still", "12")
        self.write({name: full(1 + i, 3) for i, name in enumerate(names)})
        self.assertEqual(self.regions("--index"), {
            1: ("walk", "0"), 2: ("walk", "1"), 3: ("hero/run", "7"), 4: ("still", "-1"), 5: ("12", "-1")})
        self.assertEqual(self.regions(), {1 + i: (name, "-1") for i, name in enumerate(names)})

    def test_the_judge_takes_them(self) -> None:
        from rectangle_pack.commands import main

        self.write({"walk_0": full(4, 3), "walk_1": full(4, 4), "walk": full(5, 5)})
        self.regions("--index")
        self.assertEqual(main(["check", str(self.out / "atlas.atlas")]), 0)

    def test_equal_indices_are_refused(self) -> None:
        self.write({"walk-1": full(2, 2), "walk_01": full(2, 2)})
        done = run(self.source, "-o", self.out / "atlas", "--format", "libgdx", "--index")
        why = f"{self.source}/walk_01.png: has the name 'walk' and the index 1 for libgdx, as {self.source}/walk-1.png has\n"
        self.assertEqual((done.status, done.out, done.err), (WRONG, "", why))
        self.assertEqual(run(self.source, "-o", self.out / "atlas", "--format", "libgdx").status, 0)

    def test_other_formats_have_no_indices(self) -> None:
        self.write({"walk-1": full(2, 2)})
        done = run(self.source, "-o", self.out / "atlas", "--index")
        self.assertEqual((done.status, done.err), (WRONG, "--index is for libgdx: name it in --format\n"))


if __name__ == "__main__":
    unittest.main()
