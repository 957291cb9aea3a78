"""The command check on atlases in JSON: of TexturePacker, with one page and with several, and for Phaser."""
from __future__ import annotations

import unittest
from pathlib import Path
from typing import Any

from .check_cases import CheckCase, changed, frame

# A page of 20 x 30: hat is 10 x 20, cap is turned and takes 10 x 8, and wig is trimmed.
FRAMES = {
    "hat": frame(0, 0, 10, 20),
    "hats/cap": frame(10, 0, 8, 10, rotated=True),
    "wig": frame(10, 8, 10, 22, trimmed=True, spriteSourceSize={"x": 3, "y": 3, "w": 10, "h": 22}),
}
META: dict[str, Any] = {"app": "texturepacker", "image": "atlas.png", "size": {"w": 20, "h": 30}, "scale": "1"}
HASH: dict[str, Any] = {"frames": FRAMES, "meta": META}
ARRAY: dict[str, Any] = {"frames": [{"filename": name, **it} for name, it in FRAMES.items()], "meta": META}


class OnePage(CheckCase):
    def test_sound(self) -> None:
        for name, atlas in (("hash.json", HASH), ("array.json", ARRAY), ("hash.txt", HASH)):
            self.assert_sound(self.file(name, atlas), "3 boxes on 1 page")
        self.assert_sound(self.file("one.json", {"frames": {"hat": frame(0, 0, 20, 30)}, "meta": META}), "1 box on 1 page")
        self.assert_sound(self.file("none.json", {"frames": {}, "meta": META}), "0 boxes on 1 page")

    def test_faults(self) -> None:
        cases = {
            ("hat frame w", 11): '"hat" and "hats/cap" share a cell of page "atlas.png": (0, 0) 11x20 and (10, 0) 10x8',
            ("hats/cap frame y", 1): '"hats/cap" and "wig" share a cell of page "atlas.png": (10, 1) 10x8 and (10, 8) 10x22',
            # It takes 10 x 9 then.
            ("hats/cap frame w", 9): '"hats/cap" and "wig" share a cell of page "atlas.png": (10, 0) 10x9 and (10, 8) 10x22',
            # Not turned it takes 8 x 10.
            ("hats/cap rotated", False):
                '"hats/cap" and "wig" share a cell of page "atlas.png": (10, 0) 8x10 and (10, 8) 10x22',
            ("wig frame y", 9): '"wig" is not inside page "atlas.png" of 20x30: (10, 9) 10x22',
            ("wig frame h", 23): '"wig" is not inside page "atlas.png" of 20x30: (10, 8) 10x23',
            ("wig frame x", 2**32 - 1): '"wig" is not inside page "atlas.png" of 20x30: (4294967295, 8) 10x22',
            ("hat frame x", -1): '"hat" is not inside page "atlas.png" of 20x30: (-1, 0) 10x20',
            ("hat frame x", 0.5): '"hat" and "hats/cap" share a cell of page "atlas.png": (0.5, 0) 10x20 and (10, 0) 10x8',
        }
        places = list(FRAMES)
        for (place, new), text in cases.items():
            name, rest = place.split(" ", 1)
            with self.subTest(place):
                self.assert_fault(self.file("hash.json", changed(HASH, f"frames {place}", new)), text)
                self.assert_fault(self.file("array.json", changed(ARRAY, f"frames {places.index(name)} {rest}", new)), text)
        smaller = changed(HASH, "meta size w", 19)
        self.assert_fault(self.file("a.json", smaller), '"hats/cap" is not inside page "atlas.png" of 19x30: (10, 0) 10x8')

    def test_the_first_sprite_that_is_wrong_counts(self) -> None:
        atlas = changed(changed(HASH, "frames wig frame y", 7), "frames hats/cap frame x", 11)
        self.assert_fault(self.file("a.json", atlas), '"hats/cap" is not inside page "atlas.png" of 20x30: (11, 0) 10x8')

    def test_one_name_with_two_places(self) -> None:
        def array(**places: tuple[int, int, int, int]) -> Path:
            """The digits of a name are left out: hat1 and hat2 are hat."""
            frames = [{"filename": name.rstrip("12"), **frame(*place)} for name, place in places.items()]
            return self.file("a.json", {"frames": frames, "meta": META})

        self.assert_fault(
            array(hat1=(0, 0, 5, 5), cap=(5, 0, 5, 5), hat2=(10, 0, 5, 5)),
            '"hat" is placed twice: (0, 0) 5x5 on page "atlas.png" and (10, 0) 5x5 on page "atlas.png"')
        self.assert_fault(
            array(hat1=(0, 0, 5, 5), cap=(5, 0, 5, 5), hat2=(10, 0, 5, 6)),
            '"hat" has two sizes: (0, 0) 5x5 on page "atlas.png" and (10, 0) 5x6 on page "atlas.png"')
        # The second one is that of another name.
        self.assert_fault(
            array(hat1=(0, 0, 5, 5), cap=(5, 0, 5, 5), hat2=(5, 0, 5, 5)),
            '"hat" is placed twice: (0, 0) 5x5 on page "atlas.png" and (5, 0) 5x5 on page "atlas.png"')
        # A second name of a place that has a place of its own too.
        self.assert_fault(
            array(hat=(0, 0, 5, 5), cap1=(0, 0, 5, 5), cap2=(5, 0, 5, 5)),
            '"cap" is placed twice: (0, 0) 5x5 on page "atlas.png" and (5, 0) 5x5 on page "atlas.png"')

    def test_names_that_share_a_place_are_one_box(self) -> None:
        more = {**FRAMES, "hat again": FRAMES["hat"], "cap again": FRAMES["hats/cap"]}
        self.assert_sound(self.file("a.json", {"frames": more, "meta": META}), "3 boxes on 1 page")
        again = {"frames": [*ARRAY["frames"], ARRAY["frames"][0]], "meta": META}
        self.assert_sound(self.file("a.json", again), "3 boxes on 1 page")
        other = {**FRAMES, "half": frame(0, 0, 10, 10)}
        self.assert_fault(
            self.file("a.json", {"frames": other, "meta": META}),
            '"hat" and "half" share a cell of page "atlas.png": (0, 0) 10x20 and (0, 0) 10x10')
        turned = {**FRAMES, "turned": frame(0, 0, 20, 10, rotated=True)}
        self.assert_fault(
            self.file("a.json", {"frames": turned, "meta": META}),
            '"hat" and "turned" share a cell of page "atlas.png": (0, 0) 10x20 and (0, 0) 10x20')

    def test_sprites_without_pixels_share_none(self) -> None:
        frames = {**FRAMES, "none": frame(3, 3, 0, 0), "flat": frame(3, 0, 0, 20)}
        self.assert_sound(self.file("a.json", {"frames": frames, "meta": META}), "5 boxes on 1 page")
        # Inside of the page are they all the same.
        out = changed({"frames": frames, "meta": META}, "frames none frame x", 21)
        self.assert_fault(self.file("a.json", out), '"none" is not inside page "atlas.png" of 20x30: (21, 3) 0x0')

    def test_pages_without_a_size_or_a_name(self) -> None:
        atlas = {"frames": FRAMES}
        path = self.file("a.json", atlas)
        self.assert_sound(path, "3 boxes on 1 page", "--size", "20x30")
        self.assert_fault(path, '"wig" is not inside page "a.json" of 20x29: (10, 8) 10x22', "--size", "20X29")
        self.assert_refused(path, ": says no size of the page: say --size WxH")
        # What the file says goes before the words.
        self.assert_sound(self.file("a.json", HASH), "3 boxes on 1 page", "--size", "1x1")

    def test_names_are_told_on_one_line(self) -> None:
        atlas = {"frames": {'a "b"\n\u2028\x1b': frame(0, 0, 10, 31)}, "meta": META}
        self.assert_fault(self.file("a.json", atlas), '"a "b"???" is not inside page "atlas.png" of 20x30: (0, 0) 10x31')

    def test_padding(self) -> None:
        frames = {"hat": frame(2, 2, 5, 5), "cap": frame(9, 2, 5, 5), "wig": frame(4, 10, 5, 5), "dot": frame(8, 8, 0, 3)}
        path = self.file("a.json", {"frames": frames, "meta": {**META, "size": {"w": 14, "h": 15}}})
        for padding in ("0", "1", "2"):
            self.assert_sound(path, "4 boxes on 1 page", "--padding", padding)
        self.assert_fault(
            path, '"hat" and "cap" are not 3 apart on page "atlas.png": (2, 2) 5x5 and (9, 2) 5x5', "--padding", 3)
        self.assert_fault(
            path, '"hat" and "cap" are not 2.5 apart on page "atlas.png": (2, 2) 5x5 and (9, 2) 5x5', "--padding", "2.50")
        path = self.file("a.json", {"frames": {**frames, "cap": frame(6, 2, 5, 5)}, "meta": META})
        self.assert_fault(path, '"hat" and "cap" share a cell of page "atlas.png": (2, 2) 5x5 and (6, 2) 5x5', "--padding", 2)


class SeveralPages(CheckCase):
    def pages(self, *sprites: dict[str, Any], related: bool = True) -> list[Path]:
        """Files of a page each, which name each other."""
        names = [f"atlas-{number}.json" for number in range(len(sprites))]
        return [
            self.file(name, {"frames": frames, "meta": {
                **META, "image": f"atlas-{number}.png",
                **({"related_multi_packs": [other for other in names if other != name]} if related else {})}})
            for number, (name, frames) in enumerate(zip(names, sprites))]

    def test_files_that_name_each_other(self) -> None:
        paths = self.pages({"hat": frame(0, 0, 10, 20)}, {"cap": frame(0, 0, 10, 20)}, {"wig": frame(0, 0, 1, 1)})
        for path in paths:
            self.assert_sound(path, "3 boxes on 3 pages")
        paths = self.pages({"hat": frame(0, 0, 10, 20)}, {"cap": frame(0, 0, 10, 20), "hat": frame(10, 0, 10, 20)})
        twice = '"hat" is placed twice: (0, 0) 10x20 on page "atlas-0.png" and (10, 0) 10x20 on page "atlas-1.png"'
        self.assert_fault(paths[0], twice)
        paths = self.pages({"hat": frame(0, 0, 10, 20)}, {"cap": frame(0, 0, 10, 20), "wig": frame(9, 19, 1, 1)})
        self.assert_fault(paths[0], '"cap" and "wig" share a cell of page "atlas-1.png": (0, 0) 10x20 and (9, 19) 1x1')
        paths[1].unlink()
        answer = self.check(paths[0])
        self.assertEqual(answer, (2, "", f"{paths[1]}: cannot be read: No such file or directory\n"))

    def test_files_that_do_not_name_each_other(self) -> None:
        paths = self.pages({"hat": frame(0, 0, 10, 20)}, {"hat": frame(5, 0, 10, 20)}, related=False)
        for path in paths:
            self.assert_sound(path, "1 box on 1 page")

    def test_two_files_of_one_page(self) -> None:
        first = {"frames": {"hat": frame(0, 0, 10, 20)}, "meta": {**META, "related_multi_packs": ["b.json"]}}
        second = {"frames": {"cap": frame(9, 19, 5, 5)}, "meta": META}
        path = self.file("a.json", first)
        self.file("b.json", second)
        self.assert_fault(path, '"hat" and "cap" share a cell of page "atlas.png": (0, 0) 10x20 and (9, 19) 5x5')
        other = self.file("b.json", changed(second, "meta size w", 21))
        why = 'says that "atlas.png" has the size 21x30, and it had 20x30 before'
        self.assertEqual(self.check(path), (2, "", f"{other}: {why}\n"))


class Phaser(CheckCase):
    ATLAS = {"textures": [
        {"image": f"atlas-{number}.png", "size": {"w": 20, "h": 30}, "frames": [
            {"filename": f"{name} {number}", **it} for name, it in FRAMES.items()]} for number in range(2)]}

    def test_all_pages_in_one_file(self) -> None:
        self.assert_sound(self.file("a.json", self.ATLAS), "6 boxes on 2 pages")
        self.assert_fault(
            self.file("a.json", changed(self.ATLAS, "textures 1 frames 2 frame x", 9)),
            '"hat 1" and "wig 1" share a cell of page "atlas-1.png": (0, 0) 10x20 and (9, 8) 10x22')
        self.assert_fault(
            self.file("a.json", changed(self.ATLAS, "textures 1 frames 0 filename", "hat 0")),
            '"hat 0" is placed twice: (0, 0) 10x20 on page "atlas-0.png" and (0, 0) 10x20 on page "atlas-1.png"')

    def test_pages_without_a_size(self) -> None:
        atlas = {"textures": [{"image": "a.png", "frames": []}]}
        self.assert_sound(self.file("a.json", atlas), "0 boxes on 1 page", "--size", "4x4")
        self.assert_refused(self.file("a.json", atlas), ": textures[0] says no size of the page: say --size WxH")


if __name__ == "__main__":
    unittest.main()
