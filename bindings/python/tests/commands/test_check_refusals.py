"""What the command check cannot read, what it answers then, and the words that it takes."""
from __future__ import annotations

import os
import unittest
from typing import Any

from .check_cases import CheckCase, changed, frame
from .test_check_ours import CUT, LOAD, SHEET, VIEW

META = {"image": "atlas.png", "size": {"w": 20, "h": 30}}
HASH: dict[str, Any] = {"frames": {"hero/walk-1": frame(0, 0, 10, 20), "cap": frame(10, 0, 8, 10)}, "meta": META}
ARRAY = {"frames": [{"filename": name, **it} for name, it in HASH["frames"].items()], "meta": META}


class Json(CheckCase):
    def test_what_is_no_json(self) -> None:
        cases = {
            "": ":1: is no JSON: Expecting value",
            '{"frames": {}\n"meta": {}}': ":2: is no JSON: Expecting ',' delimiter",
            '{"frames": {},\n"meta": {"size": {"w": NaN}}}': ": is no JSON: NaN is no number",
            '{"frames": {"a": 1, "b": 2, "a": 3}}': ': is no JSON: an object has the key "a" twice',
            "[" * 100_000: ": is nested too deeply",
        }
        for text, why in cases.items():
            self.assert_refused(self.file("a.json", text), why)
        self.assert_refused(self.file("a.json", b'{"frames": "\xff"}'), ": is no text in UTF-8")

    def test_what_is_not_known(self) -> None:
        keys = "frames, textures, sprites, sheets, containers, scenes"
        for value in ({}, {"meta": META}, {"frames": None}):
            self.assert_refused(self.file("a.json", value), f": is no JSON that is known: it has none of the keys {keys}")
        self.assert_refused(self.file("a.json", []), ": is no object")

    def test_a_byte_order_mark_is_passed_over(self) -> None:
        self.assert_sound(self.file("a.json", b"\xef\xbb\xbf" + self.file("b.json", HASH).read_bytes()), "2 boxes on 1 page")

    def test_values_that_are_wrong(self) -> None:
        """Each is told with its place in the file."""
        cases = [
            ("frames cap frame x", "1", ': frames.cap.frame.x is "1", and must be a number'),
            ("frames cap frame w", -1, ": frames.cap.frame.w is -1, and must be at least 0"),
            ("frames cap frame x", -(2**32), ": frames.cap.frame.x is -4294967296, and must be at least -4294967295"),
            ("frames cap frame h", 2**32, ": frames.cap.frame.h is 4294967296, and must be at most 4294967295"),
            ("frames cap frame h", 1e300, ": frames.cap.frame.h is 1E+300, and must be at most 4294967295"),
            ("frames cap frame h", 1e-10, ": frames.cap.frame.h is 1E-10, and must have at most 9 decimals"),
            ("frames cap frame h", True, ": frames.cap.frame.h is true, and must be a number"),
            ("frames cap frame h", [1], ": frames.cap.frame.h is a list, and must be a number"),
            ("frames cap frame", 3, ": frames.cap.frame is no object"),
            ("frames cap frame", {"y": 1}, ": frames.cap.frame.x is missing"),
            ("frames cap frame", None, ": frames.cap.frame is missing"),
            ("frames cap rotated", 1, ": frames.cap.rotated is 1, and must be true or false"),
            ("frames hero/walk-1 frame y", {}, ': frames["hero/walk-1"].frame.y is an object, and must be a number'),
            ("frames hero/walk-1 frame y", "x" * 99,
             ': frames["hero/walk-1"].frame.y is "' + "x" * 39 + ".., and must be a number"),
            ("meta size w", "20", ': meta.size.w is "20", and must be a number'),
            ("meta image", 3, ": meta.image is 3, and must be a text"),
            ("frames", 3, ": frames is no object"),
        ]
        for place, new, why in cases:
            with self.subTest(why):
                self.assert_refused(self.file("a.json", changed(HASH, place, new)), why)

    def test_values_of_lists_that_are_wrong(self) -> None:
        cases: list[tuple[Any, str, object, str]] = [
            (ARRAY, "frames 1 frame x", "1", ': frames[1].frame.x is "1", and must be a number'),
            (ARRAY, "frames 1 filename", None, ": frames[1].filename is missing"),
            (ARRAY, "meta", {"related_multi_packs": [3], "size": {"w": 9, "h": 9}},
             ": meta.related_multi_packs[0] is 3, and must be a text"),
            (ARRAY, "meta", {"related_multi_packs": ["a\0"], "size": {"w": 9, "h": 9}},
             ": meta.related_multi_packs[0] is no name of a file"),
            (ARRAY, "meta", {"related_multi_packs": ["\ud800"], "size": {"w": 9, "h": 9}},
             ": meta.related_multi_packs[0] is no name of a file"),
            (SHEET, "sprites 1 name", 3, ": sprites[1].name is 3, and must be a text"),
            (SHEET, "pages", None, ": pages is missing"),
            (CUT, "sheets 0 panels 1 width", "90", ': sheets[0].panels[1].width is "90", and must be a number'),
            (CUT, "kerf", None, ": kerf is missing"),
            (LOAD, "containers 1 steps 0 high", -1, ": containers[1].steps[0].high is -1, and must be at least 0"),
            (LOAD, "apart 0", ["Dairy"], ": apart[0] must have 2 items, and has 1"),
            (LOAD, "apart 0 1", "Dairy", ": apart[0] names one customer twice"),
            (LOAD, "together", "no", ': together is "no", and must be true or false'),
            (VIEW, "scenes 0 steps 1 placed 0 at", [0, 0, 0, 1, 1],
             ": scenes[0].steps[1].placed[0].at must have 6 items, and has 5"),
            (VIEW, "scenes 0 rooms", {}, ": scenes[0].rooms is no list"),
        ]
        for whole, place, new, why in cases:
            with self.subTest(why):
                self.assert_refused(self.file("a.json", changed(whole, place, new)), why)


class Files(CheckCase):
    def test_files_that_cannot_be_read(self) -> None:
        for name in ("a.json", "a.atlas", "a.csv"):
            self.assert_refused(self.folder / name, ": cannot be read: No such file or directory")
        self.assert_refused(self.folder, ": cannot be read: Is a directory")
        self.assert_refused(self.file("a.atlas", b"a.png\n\xff"), ": is no text in UTF-8")
        self.assert_refused(self.file("a.csv", b"name\n\xff"), ": is no text in UTF-8: save it as CSV in UTF-8")

    def test_a_line_for_each_file(self) -> None:
        sound, other = self.file("sound.json", HASH), self.file("other.json", ARRAY)
        fault = self.file("fault.json", changed(HASH, "frames cap frame x", 9))
        fault_line = f'{fault}: "hero/walk-1" and "cap" share a cell of page "atlas.png": (0, 0) 10x20 and (9, 0) 8x10\n'
        missing = self.folder / "missing.json"
        missing_line = f"{missing}: cannot be read: No such file or directory\n"
        lines = {it: f"{it}: nothing is wrong: 2 boxes on 1 page\n" for it in (sound, other)}
        self.assertEqual(self.check(sound, other), (0, lines[sound] + lines[other], ""))
        self.assertEqual(self.check(sound, fault, other), (1, lines[sound] + fault_line + lines[other], ""))
        self.assertEqual(self.check(missing, fault, sound), (2, fault_line + lines[sound], missing_line))
        self.assertEqual(self.check(fault, missing, missing), (2, fault_line, 2 * missing_line))

    def test_run_alone(self) -> None:
        """As users run it, also where the name of a file is no text."""
        os.rename(self.file("a.json", HASH), os.fsencode(self.folder) + b"/\xff.json")
        self.file("b.json", changed(HASH, "frames cap frame x", 20))
        names = [os.fsdecode(b"\xff.json"), "b.json"]
        answer = self.check_alone(*names)
        self.assertEqual(answer.err, "")
        self.assertEqual(answer.out.splitlines(), [
            "?.json: nothing is wrong: 2 boxes on 1 page",
            'b.json: "cap" is not inside page "atlas.png" of 20x30: (20, 0) 8x10'])
        self.assertEqual(answer.status, 1)


class Words(CheckCase):
    def test_words_that_are_wrong(self) -> None:
        path = self.file("a.json", HASH)
        cases = {
            ("--size", "20"): "argument --size: '20' must be a width and a height, as 512x256, or with a depth",
            ("--size", "1x2x3x4"): "argument --size: '1x2x3x4' must be a width and a height, as 512x256, or with a depth",
            ("--size", "20xten"): "argument --size: 'ten' must be a number",
            ("--size", "20x"): "argument --size: '' must be a number",
            ("--size", "20x4294967296"): "argument --size: '4294967296' must be at most 4294967295",
            ("--padding", "nan"): "argument --padding: 'nan' must be a number",
            ("--padding", "-1"): "argument --padding: '-1' must be at least 0",
            ("--turn",): "unrecognized arguments: --turn",
        }
        for words, error in cases.items():
            with self.subTest(words):
                status, out, printed = self.check(path, *words)
                self.assertEqual((status, out), (2, ""))
                self.assertEqual(printed.splitlines()[-1].split("error: ")[1], error)
        self.assertEqual(self.check()[0], 2)

    def test_help(self) -> None:
        status, out, error = self.check("--help")
        self.assertEqual((status, error), (0, ""))
        for text in ("related_multi_packs", "--size WxH", "--padding N", "exit status: 0 nothing is wrong, 1 there is a fault"):
            self.assertIn(text, out)


if __name__ == "__main__":
    unittest.main()
