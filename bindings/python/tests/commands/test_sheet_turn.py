"""Sprites that are turned on their pages: each reader turns them back by its own rule, which is written here anew."""
from __future__ import annotations

import contextlib
import io
import json
import random
import shutil
import unittest
from collections.abc import Iterator
from typing import Any

from rectangle_pack.commands import main

from .sheet_pictures import CLEAR, Picture, drawn, framed, full, noise
from .test_sheet_index import pages_by_keys, pages_by_order
from .test_sheet_tools import Atlas, SheetCase, read_page, run

A, B, C, D, E, F = ((value, 10 * value, 255 - value, 255) for value in (1, 2, 3, 4, 5, 6))

# Three pixels wide and two high: A B C above, D E F below.
SIX = Picture(3, 2, bytes(byte for colour in (A, B, C, D, E, F) for byte in colour))


def by_pixi(page: Picture, frame: dict[str, int]) -> Picture:
    """What PixiJS and Phaser 3 show of a frame that is rotated. w and h are those of the sprite. Its upper left corner is the
    upper right one of its place, from which its rows go down."""
    x, y, width, height = (frame[key] for key in ("x", "y", "w", "h"))
    pixels = [page.at(x + height - 1 - down, y + right) for down in range(height) for right in range(width)]
    return Picture(width, height, bytes(byte for pixel in pixels for byte in pixel))


def by_libgdx(page: Picture, corner: tuple[int, int], size: tuple[int, int]) -> Picture:
    """What libGDX shows of a region with rotate: true. size is that of the sprite. Its upper left corner is the lower left one of
    its place, from which its rows go up."""
    (x, y), (width, height) = corner, size
    pixels = [page.at(x + down, y + width - 1 - right) for down in range(height) for right in range(width)]
    return Picture(width, height, bytes(byte for pixel in pixels for byte in pixel))


class ByHand(SheetCase):
    """A column of 1x3 and the sprite of 3x2 fill a page of 3 by 3, but only where one of them is turned."""

    def make(self, form: str) -> Picture:
        self.write({"six": SIX, "column": full(1, 3)})
        words = ("--padding", 0, "--size", "3x3", "--turn", "--format", form)
        done = run(self.source, "--output", self.out / "atlas", *words)
        self.assertEqual((done.status, done.err), (0, ""))
        page = read_page(self.out / "atlas.png")
        self.assertEqual((page.width, page.height), (3, 3))
        return page

    def test_without_it_there_are_two_pages(self) -> None:
        self.write({"six": SIX, "column": full(1, 3)})
        self.assertEqual(len(self.sheet("--padding", 0, "--size", "3x3").pages), 2)

    def frames(self, form: str) -> Iterator[tuple[str, dict[str, Any]]]:
        if form == "json-hash":
            yield from json.loads((self.out / "atlas.json").read_text())["frames"].items()
        else:
            texture, = json.loads((self.out / "atlas.phaser.json").read_text())["textures"]
            yield from ((it["filename"], it) for it in texture["frames"])

    def test_json(self) -> None:
        for form in ("json-hash", "phaser-multi"):
            page = self.make(form)
            frames = dict(self.frames(form))
            # One of the two is turned: either the column lies, or the other one stands.
            turned = {name for name, it in frames.items() if it["rotated"] is True}
            self.assertEqual(len(turned), 1)
            self.assertEqual([it["rotated"] for name, it in frames.items() if name not in turned], [False])
            for name, picture in (("six", SIX), ("column", full(1, 3))):
                it = frames[name]
                size = {"w": picture.width, "h": picture.height}
                self.assertEqual(({key: it["frame"][key] for key in "wh"}, it["sourceSize"]), (size, size))
                self.assertEqual((it["trimmed"], it["spriteSourceSize"]), (False, {"x": 0, "y": 0, **size}))
                if name in turned:
                    self.assertEqual(by_pixi(page, it["frame"]), picture)

    def test_a_sprite_that_stands_on_its_side(self) -> None:
        """In a page of 2x3 it has to be turned. Clockwise its lower row becomes the left column, counterclockwise the right one."""
        pixels = {"json-hash": [D, A, E, B, F, C], "phaser-multi": [D, A, E, B, F, C], "libgdx": [C, F, B, E, A, D]}
        for form, expected in pixels.items():
            self.clean()
            self.write({"six": SIX})
            done = run(self.source, "--output", self.out / "atlas", "--size", "2x3", "--turn", "--format", form)
            self.assertEqual((done.status, done.err), (0, ""))
            page = read_page(self.out / "atlas.png")
            self.assertEqual([page.at(x, y) for y in range(3) for x in range(2)], expected)
        self.assertEqual((self.out / "atlas.atlas").read_text(), "\n".join([
            "atlas.png", "size: 2,3", "format: RGBA8888", "filter: Nearest,Nearest", "repeat: none", "six", "  rotate: true",
            "  xy: 0, 0", "  size: 3, 2", "  orig: 3, 2", "  offset: 0, 0", "  index: -1", ""]))

    def test_sprites_that_fit_one_way_alone(self) -> None:
        """Each takes a page alone, as two have a short side of 32 together, or more; one that is across has to be turned."""
        sizes = {"tall": (16, 60), "wide": (60, 16), "taller": (17, 61), "wider": (61, 17)}
        self.write({name: full(*size) for name, size in sizes.items()})
        for limit, across in (("20x64", {"wide", "wider"}), ("64x20", {"tall", "taller"})):
            self.sheet("--padding", 0, "--size", limit, "--turn")
            texts = [json.loads(path.read_text())["frames"] for path in self.out.glob("atlas*.json")]
            self.assertEqual(len(texts), 4)
            self.assertEqual({name for it in texts for name, frame in it.items() if frame["rotated"]}, across)

    def test_what_is_trimmed_is_told_as_before(self) -> None:
        self.write({"six": framed(SIX, 1, 2, 5, 7)})
        words = ("--size", "2x3", "--turn", "--trim")
        self.sheet(*words)
        frame = dict(self.frames("json-hash"))["six"]
        self.assertEqual(frame, {
            "frame": {"x": 0, "y": 0, "w": 3, "h": 2}, "rotated": True, "trimmed": True,
            "spriteSourceSize": {"x": 1, "y": 2, "w": 3, "h": 2}, "sourceSize": {"w": 9, "h": 11}})
        run(self.source, "--output", self.out / "atlas", *words, "--format", "libgdx")
        region = (self.out / "atlas.atlas").read_text().splitlines()[6:]
        self.assertEqual(region, ["  rotate: true", "  xy: 0, 0", "  size: 3, 2", "  orig: 9, 11", "  offset: 1, 7", "  index: -1"])

    def test_json_for_programs(self) -> None:
        """It has the sizes on the page."""
        self.write({"six": SIX})
        said = json.loads(run(self.source, "-o", self.out / "atlas", "--size", "2x3", "--turn", "--json").out)
        sprite, = said["sprites"]
        self.assertEqual([sprite[key] for key in ("x", "y", "width", "height", "rotated")], [0, 0, 2, 3, True])
        self.assertEqual(sprite["source"], {"x": 0, "y": 0, "width": 3, "height": 2})
        self.assertIsNone(said["pages"][0]["heuristic"])
        self.write({"six": SIX})
        said = json.loads(run(self.source, "-o", self.out / "atlas", "--json").out)
        self.assertEqual([said["sprites"][0][key] for key in ("width", "height", "rotated")], [3, 2, False])


class Drawn(SheetCase):
    def test_with_all_margins(self) -> None:
        turned, cases = 0, ((0, 0, 0), (3, 0, 0), (0, 5, 0), (0, 0, 2), (1, 4, 3))
        for seed, (padding, border, extrude) in enumerate(cases):
            for more in ((), ("--trim", "--alias"), ("--power-of-two",), ("--square", "--multiple-of", 4)):
                with self.subTest(seed=seed, more=more):
                    self.clean()
                    pictures = drawn(seed, 40, 1, 24, ["", "a", "b"])
                    self.write(pictures)
                    words = ("--padding", padding, "--border", border, "--extrude", extrude, *more)
                    atlas = self.sheet("--size", "96x80", "--turn", *words)
                    turned += any(it.turned for it in atlas.frames.values())
                    self.check_sprites(atlas, pictures)
                    self.check_places(atlas, padding, border, extrude)
                    self.check_by_check("atlas*.json", "--padding", padding + 2 * extrude)
        self.assertGreater(turned, 10)

    def check_by_check(self, files: str, *words: object) -> None:
        """The command check finds nothing wrong in what was written."""
        found = [str(path) for path in sorted(self.out.glob(files))]
        self.assertTrue(found)
        with contextlib.redirect_stdout(io.StringIO()) as out:
            self.assertEqual(main(["check", *found, *map(str, words)]), 0, out.getvalue())

    def test_pages_are_no_larger_for_it(self) -> None:
        for seed in range(12):
            self.clean()
            r = random.Random(seed)
            count, longest = r.choice([5, 20, 60]), r.choice([10, 30])
            self.write({str(number): noise(r, r.randint(1, longest), r.randint(1, longest)) for number in range(count)})
            words = ("--size", r.choice(["64x64", "100x40", "256x256"]), *r.choice([(), ("--power-of-two",), ("--square",)]))
            plain = self.sheet(*words)
            shutil.rmtree(self.out)
            turned = self.sheet(*words, "--turn")
            self.assertLessEqual(self.worth(turned), self.worth(plain), (seed, words))

    def worth(self, atlas: Atlas) -> tuple[int, int]:
        return len(atlas.pages), sum(page.width * page.height for page in atlas.pages)

    def test_groups_stay_together(self) -> None:
        pictures = drawn(5, 60, 2, 20, ["", "a", "b", "c"])
        self.write(pictures)
        atlas = self.sheet("--size", 110, "--turn", "--group-by", "folder")
        self.check_sprites(atlas, pictures)
        homes = {folder: {it.page for name, it in atlas.frames.items() if name.startswith(f"{folder}/")} for folder in "abc"}
        self.assertEqual([len(pages) for pages in homes.values()], [1, 1, 1])

    def test_libgdx(self) -> None:
        pictures = drawn(6, 50, 2, 24)
        self.write(pictures)
        done = run(self.source, "-o", self.out / "atlas", "--format", "libgdx", "--size", 80, "--turn", "--trim", "--extrude", 1)
        self.assertEqual((done.status, done.err), (0, ""))
        lines = (self.out / "atlas.atlas").read_text().split("\n")[:-1]
        pages, turned = list(pages_by_keys(lines)), 0
        self.assertEqual(pages, list(pages_by_order(lines)))
        found = {}
        for page in pages:
            pixels = read_page(self.out / page["image"])
            for it in page["regions"]:
                (whole_width, whole_height), (left, below) = it["orig"], it["offset"]
                (x, y), (width, height) = it["xy"], it["size"]
                if it["rotate"] == "true":
                    part, turned = by_libgdx(pixels, (x, y), (width, height)), turned + 1
                else:
                    part = Picture(width, height, pixels.cut(x, y, width, height))
                found[it["name"]] = framed(part, left, whole_height - height - below, whole_width - width - left, below)
        self.assertEqual(found, pictures)
        self.assertGreater(turned, 0)
        self.check_by_check("atlas.atlas", "--padding", 4)

    def test_scales(self) -> None:
        r = random.Random(7)
        pictures = {str(number): noise(r, 2 * r.randint(1, 9), 2 * r.randint(1, 9)) for number in range(30)}
        self.write(pictures)
        done = run(self.source, "-o", self.out / "atlas", "--turn", "--scale", "1,0.5")
        self.assertEqual((done.status, done.err), (0, ""))
        large, small = (json.loads((self.out / f"atlas@{it}x.json").read_text())["frames"] for it in ("1", "0.5"))
        page, half = (read_page(self.out / f"atlas@{it}x.png") for it in ("1", "0.5"))
        self.assertTrue(any(it["rotated"] for it in large.values()))
        for name, it in large.items():
            self.assertEqual(small[name]["rotated"], it["rotated"])
            self.assertEqual({key: 2 * value for key, value in small[name]["frame"].items()}, it["frame"])
            if it["rotated"]:
                self.assertEqual(by_pixi(page, it["frame"]), pictures[name])
                shown = by_pixi(half, small[name]["frame"])
                self.assertEqual((shown.width, shown.height), (pictures[name].width // 2, pictures[name].height // 2))

    def test_the_page_to_look_at(self) -> None:
        self.write({"six": SIX})
        self.sheet("--size", "2x3", "--turn", "--page", self.out / "look.html")
        self.assertIn(";turned", (self.out / "look.html").read_text().replace("; turned", ";turned"))


class Refusals(SheetCase):
    def test_what_fits_neither_way(self) -> None:
        self.write({"long": full(9, 2), "large": full(6, 5)})
        done = run(self.source, "-o", self.out / "x", "--size", "4x9", "--turn")
        self.assertEqual((done.status, done.out), (1, ""))
        self.assertEqual(done.err, f"{self.source / 'large.png'}: is 6x5, and a page of 4x9 takes 4x9 at most\n")
        self.assertFalse(self.out.exists())

    def test_a_group_that_fits_no_page(self) -> None:
        self.write({f"a/{number}": full(9, 3) for number in range(4)})
        done = run(self.source, "-o", self.out / "x", "--size", "9x9", "--padding", 0, "--turn", "--group-by", "folder")
        self.assertEqual((done.status, done.err), (1, "the group 'a' (4 sprites) fits no page of 9x9\n"))

    def test_formats_that_turn_otherwise(self) -> None:
        self.write({"a": full(2, 3, CLEAR)})
        why = "--turn turns sprites counterclockwise for libgdx, and clockwise for the others: name either in --format\n"
        for forms in ("json-hash,libgdx", "libgdx,phaser-multi"):
            done = run(self.source, "-o", self.out / "x", "--turn", "--format", forms)
            self.assertEqual((done.status, done.out, done.err), (2, "", why))
        self.assertEqual(run(self.source, "-o", self.out / "x", "--turn", "--format", "json-hash,phaser-multi").status, 0)


if __name__ == "__main__":
    unittest.main()
