"""Pages of the command sheet at several scales: each number in the index, and the pixels."""
from __future__ import annotations

import json
import random
import unittest
from fractions import Fraction
from pathlib import Path

from .test_sheet_index import numbers
from .test_sheet_tools import CLEAR, Atlas, Frame, Picture, SheetCase, framed, full, noise, read_atlas, read_page, run

WRONG = 2


def opaque(r: random.Random, width: int, height: int) -> Picture:
    picture = noise(r, width, height)
    data = bytearray(picture.data)
    data[3::4] = b"\xff" * (width * height)
    return Picture(width, height, bytes(data))


def enlarged(picture: Picture, by: int) -> Picture:
    """A picture with each pixel as a square of so many."""
    rows = [b"".join(picture.data[4 * at:4 * at + 4] * by for at in range(y * picture.width, (y + 1) * picture.width)) * by
            for y in range(picture.height)]
    return Picture(picture.width * by, picture.height * by, b"".join(rows))


def means(picture: Picture) -> Picture:
    """A picture half as large, in which each pixel is the mean of four; of halves the greater number."""
    data = bytearray()
    for y in range(0, picture.height, 2):
        for x in range(0, picture.width, 2):
            four = [picture.at(x + i, y + j) for i in (0, 1) for j in (0, 1)]
            data += bytes((sum(channel) + 2) // 4 for channel in zip(*four))
    return Picture(picture.width // 2, picture.height // 2, bytes(data))


def sides_of(it: Frame) -> list[int]:
    """Each length that an index says of a sprite."""
    return [it.x, it.y, it.width, it.height, it.left, it.top, *it.whole]


class ScaleCase(SheetCase):
    def scaled(self, scales: str, *words: object) -> dict[str, Atlas]:
        """The pages at each scale."""
        done = run(self.source, "-o", self.out / "atlas", "--scale", scales, *words)
        self.assertEqual((done.status, done.err), (0, ""), done)
        return {text: read_atlas(self.out, suffix=f"@{text}x") for text in scales.split(",")}

    def check_parts(self, whole: Atlas, part: Atlas, scale: str) -> None:
        """Each number at a scale is this part of what it is at scale 1."""
        by = Fraction(scale)
        self.assertEqual([(it.width, it.height) for it in part.pages],
                         [(it.width * by, it.height * by) for it in whole.pages])
        self.assertEqual(list(part.frames), list(whole.frames))
        for name, it in whole.frames.items():
            self.assertEqual(sides_of(part.frames[name]), [side * by for side in sides_of(it)])
            self.assertEqual(part.frames[name].page, it.page)


class Scales(ScaleCase):
    def test_drawn_sprites_of_squares(self) -> None:
        """Sprites of which each pixel is a square have the same pixels at each scale, also trimmed and with margins."""
        r = random.Random(7)
        small = {f"s{number}": framed(opaque(r, r.randint(1, 9), r.randint(1, 9)), *(r.randint(0, 3) for _ in range(4)))
                 for number in range(30)}
        for number, words in enumerate((
            ("--trim",), ("--trim", "--power-of-two"), ("--trim", "--square", "--multiple-of", 3, "--alias"), ())):
            with self.subTest(words=words):
                self.clean()
                self.write({name: enlarged(it, 4) for name, it in small.items()})
                found = self.scaled("1,0.5,0.25", *words, "--size", "160x128", "--padding", 3, "--border", 1, "--extrude", 1)
                self.assertGreater(len(found["1"].pages), 1)
                for text, by in (("1", 4), ("0.5", 2), ("0.25", 1)):
                    self.check_parts(found["1"], found[text], text)
                    self.check_sprites(found[text], {name: enlarged(it, by) for name, it in small.items()})
                    # Each margin is 4 at scale 1.
                    self.check_places(found[text], padding=by, border=by, extrude=by)
                    for page in found[text].pages:
                        self.check_sides(page, words)

    def check_sides(self, page: Picture, words: tuple[object, ...]) -> None:
        for side in (page.width, page.height):
            self.assertTrue("--power-of-two" not in words or side & (side - 1) == 0)
            self.assertTrue("--multiple-of" not in words or side % 3 == 0)
        self.assertTrue("--square" not in words or page.width == page.height)

    def test_pixels_are_means(self) -> None:
        r = random.Random(8)
        pictures = {str(number): opaque(r, 2 * r.randint(1, 9), 2 * r.randint(1, 9)) for number in range(9)}
        self.write(pictures)
        found = self.scaled("1,0.5")
        self.check_sprites(found["1"], pictures)
        self.check_sprites(found["0.5"], {name: means(it) for name, it in pictures.items()})

    def test_what_is_clear_has_no_colour(self) -> None:
        red, hidden = (255, 0, 0, 255), (0, 255, 0, 0)
        self.write({"a": Picture(2, 2, bytes([*red, *red, *red, *hidden]))})
        page = self.scaled("0.5", "--padding", 0)["0.5"].pages[0]
        # Three of four are seen: 191.25 of 255.
        self.assertEqual((page.width, page.height, page.at(0, 0)), (1, 1, (255, 0, 0, 191)))

    def test_three_quarters(self) -> None:
        pictures = {"a": full(8, 4), "b": full(4, 12, (1, 2, 3, 255))}
        self.write(pictures)
        found = self.scaled("1,0.75", "--extrude", 1)
        self.check_parts(found["1"], found["0.75"], "0.75")
        self.check_sprites(found["0.75"], {"a": full(6, 3), "b": full(3, 9, (1, 2, 3, 255))})
        # Extrusion is 4 at scale 1, as 1 is no multiple of 4, and padding too.
        self.check_places(found["1"], padding=4, border=0, extrude=4)
        self.check_places(found["0.75"], padding=3, border=0, extrude=3)

    def test_trimming_keeps_whole_squares(self) -> None:
        self.write({"dot": framed(full(1, 1), 3, 5, 4, 2)})
        found = self.scaled("1,0.5", "--trim")
        self.assertEqual(found["1"].frames["dot"], Frame(0, 0, 0, 2, 2, 2, 4, (8, 8)))
        self.assertEqual(found["0.5"].frames["dot"], Frame(0, 0, 0, 1, 1, 1, 2, (4, 4)))

    def test_trimming_of_what_cannot_be_seen(self) -> None:
        self.write({"nothing": full(6, 4, CLEAR)})
        found = self.scaled("1,0.5", "--trim")
        self.assertEqual(found["1"].frames["nothing"], Frame(0, 0, 0, 2, 2, 0, 0, (6, 4)))

    def test_a_multiple_is_one_at_each_scale(self) -> None:
        # At 0.5 a page of 10x10 is 5x5, and 8x8 is the next whose sides are multiples of 4: so 16x16 at 1.
        self.write({"a": full(10, 10)})
        found = self.scaled("1,0.5", "--multiple-of", 4)
        self.assertEqual([(it.pages[0].width, it.pages[0].height) for it in found.values()], [(16, 16), (8, 8)])


class Files(ScaleCase):
    def test_the_files_of_one_page(self) -> None:
        self.write({"walk-1": full(4, 4), "walk-2": full(4, 6)})
        found = self.scaled("1,0.5", "--format", "json-hash,phaser-multi,libgdx", "--index")
        self.assertEqual({it.name for it in self.out.iterdir()}, {
            f"atlas@{scale}x{ending}" for scale in ("1", "0.5") for ending in (".png", ".json", ".phaser.json", ".atlas")})
        for text, number in (("1", 1), ("0.5", 0.5)):
            meta = found[text].metas[0]
            self.assertEqual((meta["image"], meta["scale"]), (f"atlas@{text}x.png", text))
            self.assertNotIn("related_multi_packs", meta)
            index = json.loads((self.out / f"atlas@{text}x.json").read_text(encoding="utf-8"))
            self.assertEqual(index["animations"], {"walk": ["walk-1", "walk-2"]})
            self.check_phaser(text, number)
            self.check_libgdx(text, number)

    def check_phaser(self, text: str, number: float) -> None:
        texture, = json.loads((self.out / f"atlas@{text}x.phaser.json").read_text(encoding="utf-8"))["textures"]
        self.assertEqual((texture["image"], texture["scale"]), (f"atlas@{text}x.png", number))
        self.assertEqual([it["sourceSize"] for it in texture["frames"]], [
            {"w": 4 * number, "h": 4 * number}, {"w": 4 * number, "h": 6 * number}])

    def check_libgdx(self, text: str, number: float) -> None:
        lines = (self.out / f"atlas@{text}x.atlas").read_text(encoding="utf-8").splitlines()
        self.assertEqual(lines[0], f"atlas@{text}x.png")
        page = read_page(self.out / lines[0])
        self.assertEqual(numbers(lines[1].removeprefix("size: ")), (page.width, page.height))
        sizes = [numbers(line.removeprefix("  size: ")) for line in lines if line.startswith("  size: ")]
        self.assertEqual(sizes, [(4 * number, 4 * number), (4 * number, 6 * number)])

    def test_several_pages_name_those_of_their_scale(self) -> None:
        self.write({str(number): full(30, 30) for number in range(3)})
        found = self.scaled("1,0.5", "--size", 40)
        for text, atlas in found.items():
            files = [f"atlas-{page}@{text}x" for page in range(3)]
            self.assertEqual([meta["image"] for meta in atlas.metas], [f"{it}.png" for it in files])
            for number, meta in enumerate(atlas.metas):
                others = [f"{it}.json" for page, it in enumerate(files) if page != number]
                self.assertEqual(meta["related_multi_packs"], others)

    def test_one_scale_has_its_suffix(self) -> None:
        self.write({"a": full(4, 4)})
        self.scaled("1")
        self.assertEqual(sorted(it.name for it in self.out.iterdir()), ["atlas@1x.json", "atlas@1x.png"])

    def test_lines_and_json(self) -> None:
        self.write({"a": full(8, 4)})
        words = ("-o", self.out / "x", "--scale", "1,0.5", "--padding", 0)
        self.assertEqual(run(self.source, *words).out.splitlines(), [
            f"{self.out}/x@1x.png: 8x4, 1 sprite, 100 % filled", f"{self.out}/x@0.5x.png: 4x2, 1 sprite, 100 % filled",
            f"{self.out}/x@1x.json", f"{self.out}/x@0.5x.json"])
        said = json.loads(run(self.source, *words, "--json").out)
        # Pages and sprites are those of the scale that is named first.
        self.assertEqual([(it["image"], it["width"], it["scale"]) for it in said["pages"]], [("x@1x.png", 8, 1)])
        self.assertEqual([Path(it).name for it in said["files"]], ["x@1x.png", "x@0.5x.png", "x@1x.json", "x@0.5x.json"])


class Refusals(ScaleCase):
    def test_sides_that_are_not_whole(self) -> None:
        self.write({"even": full(4, 4), "odd": full(5, 4)})
        done = run(self.source, "-o", self.out / "x", "--scale", "1,0.5")
        line = f"{self.source}/odd.png: is 5x4, and by this --scale each side has to be a multiple of 2"
        self.assertEqual((done.status, done.out, done.err), (WRONG, "", f"{line}\n"))
        self.write({"tall": full(4, 7), "wide": full(6, 4)})
        done = run(self.source, "-o", self.out / "x", "--scale", "1,0.5")
        self.assertEqual(done.err, f"{line} (1 more file is refused)\n")
        # By a quarter a side of 6 is none as well.
        done = run(self.source, "-o", self.out / "x", "--scale", "0.25")
        self.assertEqual(done.err, f"{line[:-1]}4 (2 more files are refused)\n")
        self.assertFalse(self.out.exists())

    def test_words_that_are_no_scale(self) -> None:
        self.write({"a": full(4, 4)})
        for text in ("2", "0", "0.0", "1.5", "half", "", "1,", "0.50", "-1", ".5", "0.33333"):
            done = run(self.source, "-o", self.out / "x", f"--scale={text}")
            self.assertEqual((done.status, done.out), (WRONG, ""), text)
            self.assertIn("is no scale: name 1, or a decimal such as 0.5 or 0.25", done.err.splitlines()[-1])


if __name__ == "__main__":
    unittest.main()
