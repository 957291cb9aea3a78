"""Which sprites of the command sheet share a page or are stored once, and that equal input gives equal pages."""
from __future__ import annotations

import hashlib
import random
import unicodedata
import unittest
from pathlib import Path

from .test_sheet_tools import Atlas, SheetCase, drawn, framed, full, noise, read_atlas, run, run_alone


class Groups(SheetCase):
    def pages_of(self, atlas: Atlas, folder: str) -> set[int]:
        return {it.page for name, it in atlas.frames.items() if name.startswith(f"{folder}/")}

    def test_each_folder_is_on_one_page(self) -> None:
        folders = [f"f{number}" for number in range(12)]
        pictures = drawn(3, 150, 4, 24, ["", *folders])
        self.write(pictures)
        atlas = self.sheet("--group-by", "folder", "--size", "100x100")
        self.assertGreater(len(atlas.pages), 3)
        self.check_sprites(atlas, pictures)
        self.check_places(atlas, padding=2, border=0, extrude=0)
        for folder in folders:
            self.assertEqual(len(self.pages_of(atlas, folder)), 1, folder)

    def test_folders_fill_pages_together(self) -> None:
        # Two halves of a page fit a page, and so do a half and two quarters.
        r, sizes = random.Random(1), {"a": (64, 32), "b": (64, 32), "c": (64, 32), "d": (32, 32), "e": (32, 32)}
        self.write({f"{name}/{number}": noise(r, *size) for name, size in sizes.items() for number in range(2)})
        atlas = self.sheet("--group-by", "folder", "--padding", 0, "--size", "64x128")
        self.assertEqual([(page.width, page.height) for page in atlas.pages], [(64, 128)] * 2)

    def test_sprites_in_no_folder_fill_what_is_left(self) -> None:
        r = random.Random(1)
        self.write({f"{name}/{number}": noise(r, 60, 60) for name in "ab" for number in range(3)})
        self.write({str(number): noise(r, 30, 30) for number in range(8)})
        atlas = self.sheet("--group-by", "folder", "--padding", 0, "--size", "120x120")
        self.assertEqual([(page.width, page.height) for page in atlas.pages], [(120, 120)] * 2)
        self.assertEqual([len(self.pages_of(atlas, name)) for name in "ab"], [1, 1])

    def test_the_top_folder_holds_those_below_it(self) -> None:
        # By folders alone the large one of y would be the first to fill the page of three of x.
        r = random.Random(2)
        self.write({f"{top}/p/{number}": noise(r, 40, 40) for top in "xyz" for number in range(3)})
        self.write({f"{top}/q/r/0": noise(r, side, side) for top, side in (("x", 38), ("y", 40), ("z", 39))})
        atlas = self.sheet("--group-by", "top", "--padding", 0, "--size", "80x80")
        self.assertEqual([len(self.pages_of(atlas, top)) for top in "xyz"], [1, 1, 1])
        self.assertEqual(len(atlas.pages), 3)

    def test_small_folders_are_not_spread_over_many_pages(self) -> None:
        r = random.Random(6)
        self.write({f"{number % 100}/{number}": full(r.randint(4, 32), r.randint(4, 32)) for number in range(800)})
        atlas = self.sheet("--group-by", "folder", "--size", "256x256")
        cells = sum((it.width + 2) * (it.height + 2) for it in atlas.frames.values())
        self.assertLessEqual(len(atlas.pages), -(-cells // 258**2) + 1)


class Aliases(SheetCase):
    def test_equal_pixels_after_trimming_are_stored_once(self) -> None:
        same, other = noise(random.Random(1), 9, 7), noise(random.Random(2), 9, 7)
        pictures = {"a": same, "b/c": framed(same, 3, 1, 0, 2), "d": other, "e": framed(same, 1, 0, 0, 0)}
        self.write(pictures)
        atlas = self.sheet("--trim", "--alias", "--padding", 0)
        self.check_sprites(atlas, pictures)
        self.assertEqual(list(atlas.frames), ["a", "b/c", "d", "e"])
        places = {name: (it.x, it.y) for name, it in atlas.frames.items()}
        self.assertEqual(places["a"], places["b/c"])
        self.assertEqual(places["a"], places["e"])
        self.assertNotEqual(places["a"], places["d"])
        self.assertEqual(atlas.pages[0].width * atlas.pages[0].height, 2 * 9 * 7)

    def test_without_alias_each_is_stored(self) -> None:
        self.write({"a": full(5, 5), "b": full(5, 5)})
        atlas = self.sheet("--padding", 0)
        self.assertNotEqual(atlas.frames["a"], atlas.frames["b"])

    def test_equal_bytes_of_other_sizes_are_no_aliases(self) -> None:
        self.write({"a": full(4, 2), "b": full(2, 4)})
        pictures = {"a": full(4, 2), "b": full(2, 4)}
        self.check_sprites(self.sheet("--alias"), pictures)

    def test_groups_have_their_own(self) -> None:
        # Each group fills a page, so what they share is stored on both.
        r = random.Random(1)
        shared = noise(r, 32, 32)
        pictures = {f"{group}/{number}": noise(r, 32, 32) for group in "pq" for number in range(3)}
        pictures.update({"p/shared": shared, "p/again": shared, "q/shared": shared})
        self.write(pictures)
        atlas = self.sheet("--alias", "--group-by", "folder", "--padding", 0, "--size", "64x64")
        self.check_sprites(atlas, pictures)
        self.assertEqual(atlas.frames["p/shared"], atlas.frames["p/again"])
        self.assertNotEqual(atlas.frames["p/shared"].page, atlas.frames["q/shared"].page)


class Same(SheetCase):
    """Equal input gives equal bytes."""

    FORMATS = "json-hash,phaser-multi,libgdx"

    def bytes_of(self, *folders: Path) -> dict[str, str]:
        """A digest of each file that is made."""
        done = run(*folders, "-o", self.out / "atlas", "--format", self.FORMATS, "--trim", "--alias", "--size", "128x128")
        self.assertEqual(done.status, 0, done.err)
        files = {path.name: hashlib.sha256(path.read_bytes()).hexdigest() for path in self.out.iterdir()}
        for path in self.out.iterdir():
            path.unlink()
        return files

    def test_of_two_runs_and_of_files_that_are_made_in_another_order(self) -> None:
        pictures = drawn(8, 120, 3, 25, ["", "a", "a/b", "c"])
        self.write(pictures)
        first = self.bytes_of(self.source)
        self.assertGreater(len(first), 5)
        self.assertEqual(self.bytes_of(self.source), first)
        turned = self.folder / "turned"
        self.write(dict(reversed(list(pictures.items()))), turned)
        self.assertEqual(self.bytes_of(turned), first)

    def test_of_folders_in_another_order(self) -> None:
        one, two = self.folder / "one", self.folder / "two"
        self.write(drawn(1, 30, 3, 25, ["a"]), one)
        self.write(drawn(2, 30, 3, 25, ["b"]), two)
        self.assertEqual(self.bytes_of(one, two), self.bytes_of(two, one))

    def test_of_names_in_both_forms_of_unicode(self) -> None:
        one, two = self.folder / "one", self.folder / "two"
        for top, form in ((one, "NFC"), (two, "NFD")):
            self.write({unicodedata.normalize(form, name): full(3, 3) for name in ("Bär/grün", "a")}, top)
        self.assertEqual(self.bytes_of(one), self.bytes_of(two))

    def test_of_another_hash_seed(self) -> None:
        self.write(drawn(8, 40, 3, 25, ["", "a", "b"]))
        found = []
        for seed in ("1", "2"):
            words = (self.source, "-o", self.out / seed, "--group-by", "folder", "--size", "128x128")
            done = run_alone(*words, PYTHONHASHSEED=seed)
            self.assertEqual((done.status, done.err), (0, ""))
            found.append([(path.name[1:], path.read_bytes()) for path in sorted(self.out.glob(f"{seed}*.png"))])
        self.assertTrue(found[0] == found[1])


class Alone(SheetCase):
    """As a process of its own."""

    def test_two_folders_and_the_default_name(self) -> None:
        self.write({"a b/ä": full(5, 5)}, self.folder / "one")
        self.write({"c": full(6, 5)}, self.folder / "two")
        done = run_alone(self.folder / "one", self.folder / "two", "--output", f"{self.out}/")
        self.assertEqual((done.status, done.err), (0, ""))
        atlas = read_atlas(self.out, "sheet")
        self.check_sprites(atlas, {"a b/ä": full(5, 5), "c": full(6, 5)})
        first, second = done.out.splitlines()
        self.assertIn("2 sprites", first)
        self.assertTrue(second.endswith("sheet.json"))


if __name__ == "__main__":
    unittest.main()
