"""The pages of the command sheet: their pixels and their sizes."""
from __future__ import annotations

import random
import time
import unittest

from .test_sheet_tools import CLEAR, Atlas, Picture, SheetCase, drawn, example, framed, full, noise, png, read_page


class Pixels(SheetCase):
    def test_the_example_is_on_the_page_as_it_is_in_the_files(self) -> None:
        example().write(self.source)
        pictures = {path.relative_to(self.source).as_posix()[:-4]: read_page(path) for path in self.source.rglob("*.png")}
        self.assertEqual(len(pictures), 29)
        atlas = self.sheet("--trim", "--alias", "--extrude", 1)
        self.check_sprites(atlas, pictures)
        self.check_places(atlas, padding=2, border=0, extrude=1)
        # By the steps and the widths of which the example is made, these are equal.
        for one, other in (("walk-0", "walk-4"), ("walk-1", "walk-3"), ("walk-5", "walk-7")):
            self.assertEqual(atlas.frames[f"hero/{one}"], atlas.frames[f"hero/{other}"])
        self.assertEqual(atlas.frames["items/coin-1"], atlas.frames["items/coin-3"])
        self.assertEqual(len({(it.page, it.x, it.y) for it in atlas.frames.values()}), len(pictures) - 4)

    def test_drawn_sprites_with_all_margins(self) -> None:
        cases = (
            ("--padding", 0, "--border", 0, "--extrude", 0), ("--padding", 3, "--border", 0, "--extrude", 0),
            ("--padding", 0, "--border", 5, "--extrude", 0), ("--padding", 0, "--border", 0, "--extrude", 2),
            ("--padding", 1, "--border", 4, "--extrude", 3), ("--padding", 7, "--border", 1, "--extrude", 1),
        )
        for seed, margins in enumerate(cases):
            pictures = drawn(seed, 64, 1, 24)
            for more in ((), ("--trim",), ("--trim", "--power-of-two")):
                with self.subTest(margins=margins, more=more):
                    self.clean()
                    self.write(pictures)
                    atlas = self.sheet("--size", "96x80", *margins, *more)
                    self.assertGreater(len(atlas.pages), 1)
                    self.check_sprites(atlas, pictures)
                    self.check_places(atlas, *margins[1::2])
                    self.check_trimmed(atlas, pictures, bool(more))

    def check_trimmed(self, atlas: Atlas, pictures: dict[str, Picture], trim: bool) -> None:
        """No more and no less is cut off than what cannot be seen."""
        for name, picture in pictures.items():
            seen = [(x, y) for y in range(picture.height) for x in range(picture.width) if picture.at(x, y)[3]]
            xs, ys = sorted(x for x, _ in seen), sorted(y for _, y in seen)
            whole = (0, 0, picture.width, picture.height)
            frame = atlas.frames[name]
            expected = (xs[0], ys[0], xs[-1] - xs[0] + 1, ys[-1] - ys[0] + 1) if trim else whole
            self.assertEqual((frame.left, frame.top, frame.width, frame.height), expected)

    def test_what_cannot_be_seen_keeps_one_pixel(self) -> None:
        self.write({"nothing": full(7, 5, CLEAR), "dot": full(1, 1, CLEAR), "seen": full(3, 3)})
        frames = self.sheet("--trim").frames
        nothing, dot = frames["nothing"], frames["dot"]
        self.assertEqual((nothing.left, nothing.top, nothing.width, nothing.height, nothing.whole), (0, 0, 1, 1, (7, 5)))
        self.assertEqual((dot.width, dot.height, dot.whole), (1, 1, (1, 1)))

    def test_colours_under_alpha_0_stay(self) -> None:
        hidden = framed(full(4, 4), 2, 2, 2, 2)
        hidden = Picture(hidden.width, hidden.height, hidden.data.replace(bytes(4), b"\x07\x08\x09\x00"))
        self.write({"hidden": hidden})
        self.check_sprites(self.sheet(), {"hidden": hidden})
        frame = self.sheet("--trim").frames["hidden"]
        self.assertEqual((frame.left, frame.top, frame.width, frame.height), (2, 2, 4, 4))

    def test_extruded_corners_by_hand(self) -> None:
        a, b, c, d = (255, 0, 0, 255), (0, 255, 0, 255), (0, 0, 255, 255), (9, 9, 9, 9)
        self.write({"four": Picture(2, 2, bytes([*a, *b, *c, *d]))})
        page, = self.sheet("--extrude", 2, "--border", 1).pages
        self.assertEqual((page.width, page.height), (8, 8))
        row, low = [CLEAR, a, a, a, b, b, b, CLEAR], [CLEAR, c, c, c, d, d, d, CLEAR]
        expected = [[CLEAR] * 8, row, row, row, low, low, low, [CLEAR] * 8]
        self.assertEqual([[page.at(x, y) for x in range(8)] for y in range(8)], expected)


class Kinds(SheetCase):
    """Kinds of PNG files. Each is 4x1."""

    CASES = {
        "grey1": (png(4, 1, 1, 0, [b"\x50"]), [(0, 0, 0, 255), (255, 255, 255, 255)] * 2),
        "grey1white": (png(4, 1, 1, 0, [b"\x50"], tRNS=b"\0\1"), [(0, 0, 0, 255), (255, 255, 255, 0)] * 2),
        "grey1black": (png(4, 1, 1, 0, [b"\x50"], tRNS=b"\0\0"), [(0, 0, 0, 0), (255, 255, 255, 255)] * 2),
        "grey2": (png(4, 1, 2, 0, [b"\x1b"], tRNS=b"\0\2"), [(v, v, v, 255 * (v != 170)) for v in (0, 85, 170, 255)]),
        "grey4": (png(4, 1, 4, 0, [b"\x01\xef"], tRNS=b"\0\x0e"), [(v, v, v, 255 * (v != 238)) for v in (0, 17, 238, 255)]),
        "grey8": (png(4, 1, 8, 0, [b"\x00\x03\x7f\xff"], tRNS=b"\0\3"), [(v, v, v, 255 * (v != 3)) for v in (0, 3, 127, 255)]),
        "greyalpha": (png(4, 1, 8, 4, [bytes([1, 2, 3, 4, 5, 6, 7, 8])]), [(v, v, v, v + 1) for v in (1, 3, 5, 7)]),
        "colour": (png(4, 1, 8, 2, [bytes(range(12))]), [(v, v + 1, v + 2, 255) for v in (0, 3, 6, 9)]),
        "key": (
            png(4, 1, 8, 2, [bytes(range(12))], tRNS=b"\0\3\0\4\0\5"),
            [(v, v + 1, v + 2, 255 * (v != 3)) for v in (0, 3, 6, 9)]),
        "palette": (
            png(4, 1, 8, 3, [b"\0\1\2\1"], PLTE=bytes(range(9)), tRNS=b"\x80\x00"),
            [(0, 1, 2, 128), (3, 4, 5, 0), (6, 7, 8, 255), (3, 4, 5, 0)]),
        "palette2": (png(4, 1, 2, 3, [b"\x19"], PLTE=bytes(range(9))), [(v, v + 1, v + 2, 255) for v in (0, 3, 6, 3)]),
        "alpha": (png(4, 1, 8, 6, [bytes(range(16))]), [(v, v + 1, v + 2, v + 3) for v in (0, 4, 8, 12)]),
    }

    def test_each_is_read(self) -> None:
        self.source.mkdir()
        for name, (data, _) in self.CASES.items():
            (self.source / f"{name}.png").write_bytes(data)
        # An ending in capitals counts as well.
        (self.source / "alpha.png").rename(self.source / "alpha.PNG")
        pictures = {name: Picture(4, 1, b"".join(map(bytes, pixels))) for name, (_, pixels) in self.CASES.items()}
        self.check_sprites(self.sheet(), pictures)


class Sizes(SheetCase):
    def pages(self, count: int, side: int, *words: object) -> list[tuple[int, int]]:
        """The sizes of the pages of so many squares."""
        self.clean()
        self.write({str(number): noise(random.Random(number), side, side) for number in range(count)})
        return [(page.width, page.height) for page in self.sheet(*words).pages]

    def test_a_full_page_is_as_small_as_its_sprites(self) -> None:
        self.assertEqual(self.pages(9, 16, "--padding", 0), [(48, 48)])

    def test_few_pixels_count_and_not_the_form(self) -> None:
        # In a row there is padding only twice: 34x10. In two rows it is 22x22.
        (width, height), = self.pages(3, 10, "--padding", 2)
        self.assertEqual(width * height, 340)

    def test_border_and_extrusion_are_on_all_sides(self) -> None:
        self.assertEqual(self.pages(1, 10, "--padding", 9, "--border", 3, "--extrude", 2), [(20, 20)])

    def test_as_many_pages_as_needed(self) -> None:
        # Four go onto a page, as 3 x 100 is more than 256. What is left is as small as two of them.
        *full_pages, (width, height) = self.pages(10, 100, "--padding", 0, "--size", "256")
        self.assertEqual(full_pages, [(200, 200)] * 2)
        self.assertEqual(sorted((width, height)), [100, 200])

    def test_padding_is_not_needed_at_the_edges(self) -> None:
        # 3 x 30 and twice 5 between them are 100.
        self.assertEqual(self.pages(9, 30, "--padding", 5, "--size", "100x100"), [(100, 100)])
        self.assertEqual(len(self.pages(9, 30, "--padding", 6, "--size", "100x100")), 3)

    def test_powers_of_two(self) -> None:
        # Five squares of 32 have more cells than 64x64, and 128x64 comes before 64x128.
        self.assertEqual(self.pages(5, 32, "--padding", 0, "--power-of-two"), [(128, 64)])
        # With padding two are longer than 64, and four in a row than 128. So it is 256x32, which comes before 32x256.
        self.assertEqual(self.pages(4, 32, "--padding", 1, "--power-of-two"), [(256, 32)])

    def test_the_least_power_of_two(self) -> None:
        self.assertEqual(self.pages(4, 31, "--padding", 2, "--power-of-two"), [(64, 64)])

    def test_powers_of_two_below_the_size(self) -> None:
        # The pages are at most 64x128, which holds two squares of 60.
        pages = self.pages(5, 60, "--padding", 0, "--power-of-two", "--size", "100x200")
        self.assertEqual(pages, [(64, 128), (64, 128), (64, 64)])

    def test_long_and_narrow_pages(self) -> None:
        for number, size in enumerate(("48x4000", "4000x48")):
            self.clean()
            self.write(drawn(number, 100, 10, 40))
            atlas = self.sheet("--size", size, "--padding", 1)
            limit = tuple(map(int, size.split("x")))
            for page in atlas.pages:
                self.assertLessEqual(page.width, limit[0])
                self.assertLessEqual(page.height, limit[1])
            self.check_places(atlas, padding=1, border=0, extrude=0)

    def test_each_heuristic(self) -> None:
        pictures = drawn(5, 60, 4, 30)
        self.write(pictures)
        names = ("volume", "height", "width", "depth", "side-sum", "longest-side", "shortest-side", "side-area")
        for name in names:
            atlas = self.sheet("--heuristic", name, "--size", "128x128")
            self.check_sprites(atlas, pictures)
            self.clean()
            self.write(pictures)

    def test_pages_are_full(self) -> None:
        # Squares of three sizes, which fit into each other, fill each page but the last without a gap.
        r, sizes = random.Random(4), ((32, 30), (16, 60), (8, 90))
        self.write({f"{side}-{number}": noise(r, side, side) for side, count in sizes for number in range(count)})
        pages = self.sheet("--padding", 0, "--size", "128x128").pages
        self.assertEqual(sum(page.width * page.height for page in pages), 30 * 32**2 + 60 * 16**2 + 90 * 8**2)
        self.assertEqual(len(pages), 4)


class Many(SheetCase):
    def test_2000_sprites_in_seconds(self) -> None:
        r = random.Random(9)
        pictures = {f"f{number % 20}/{number}": full(r.randint(8, 48), r.randint(8, 48), (number % 251, number // 251, 7, 255))
                    for number in range(2000)}
        self.write(pictures)
        start = time.process_time()
        atlas = self.sheet("--trim", "--size", "1024x1024")
        self.assertLess(time.process_time() - start, 15)
        self.check_sprites(atlas, pictures)
        for number in range(len(atlas.pages)):
            self.check_distances([it for it in atlas.frames.values() if it.page == number][::9], 2)
        cells = sum((it.width + 2) * (it.height + 2) for it in pictures.values())
        self.assertEqual(len(atlas.pages), -(-cells // 1026**2))


if __name__ == "__main__":
    unittest.main()
