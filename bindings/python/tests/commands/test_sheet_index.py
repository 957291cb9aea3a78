"""What the command sheet says of its pages: each format as its loader reads it, lines, JSON, and the page to look at."""
from __future__ import annotations

import base64
import importlib
import json
import unittest
from collections.abc import Iterator
from pathlib import Path
from typing import Any
from unittest import mock

from rectangle_pack.commands._scene import Scene

from .test_sheet_tools import (
    CLEAR, Atlas, Frame, Picture, SheetCase, drawn, framed, full, read_atlas, read_page, run, run_alone,
)

ALL = "json-hash,phaser-multi,libgdx"
PICTURES = drawn(11, 60, 4, 30, ["", "a", "a/b c"])


def keys(value: dict[str, Any]) -> set[str]:
    return set(value)


def sizes_of(value: dict[str, int], *names: str) -> tuple[int, ...]:
    assert keys(value) == set(names) and all(type(it) is int for it in value.values()), value
    return tuple(value[name] for name in names)


def frame_of(page: int, it: dict[str, Any]) -> Frame:
    """A frame of TexturePacker's JSON, which has all that the format asks."""
    assert keys(it) - {"filename"} == {"frame", "rotated", "trimmed", "spriteSourceSize", "sourceSize"}, it
    assert it["rotated"] is False
    x, y, width, height = sizes_of(it["frame"], "x", "y", "w", "h")
    left, top, *kept = sizes_of(it["spriteSourceSize"], "x", "y", "w", "h")
    whole_width, whole_height = sizes_of(it["sourceSize"], "w", "h")
    assert kept == [width, height] and it["trimmed"] is (kept != [whole_width, whole_height]), it
    return Frame(page, x, y, width, height, left, top, (whole_width, whole_height))


class Formats(SheetCase):
    """Several pages in all formats, and one page."""

    def make(self, *words: object) -> Atlas:
        self.write(PICTURES)
        atlas = self.sheet("--format", ALL, "--trim", *words)
        self.check_sprites(atlas, PICTURES)
        return atlas

    def test_json_hash(self) -> None:
        atlas = self.make("--size", "96x96")
        self.assertGreater(len(atlas.pages), 2)
        files = [f"atlas-{number}.json" for number in range(len(atlas.pages))]
        self.assertEqual(sorted(it.name for it in self.out.glob("*.json") if "phaser" not in it.name), sorted(files))
        for number, file in enumerate(files):
            index = json.loads((self.out / file).read_text(encoding="utf-8"))
            self.assertEqual(keys(index), {"frames", "meta"})
            self.check_meta(index["meta"], number, atlas)
            # PixiJS loads these with whichever is loaded first.
            self.assertEqual(index["meta"]["related_multi_packs"], [other for other in files if other != file])
            for name, it in index["frames"].items():
                self.assertEqual(frame_of(number, it), atlas.frames[name])
            self.assertEqual(list(index["frames"]), sorted(index["frames"]))

    def check_meta(self, meta: dict[str, Any], number: int, atlas: Atlas) -> None:
        self.assertEqual(keys(meta) - {"related_multi_packs"}, {"app", "version", "image", "format", "size", "scale"})
        self.assertEqual((meta["format"], meta["scale"], meta["image"]), ("RGBA8888", "1", f"atlas-{number}.png"))
        self.assertEqual(sizes_of(meta["size"], "w", "h"), (atlas.pages[number].width, atlas.pages[number].height))

    def test_json_hash_of_one_page_names_no_others(self) -> None:
        atlas = self.make()
        files = {it.name for it in self.out.iterdir()}
        self.assertEqual(files, {"atlas.atlas", "atlas.json", "atlas.phaser.json", "atlas.png"})
        meta, = atlas.metas
        self.assertEqual(meta["image"], "atlas.png")
        self.assertNotIn("related_multi_packs", meta)

    def test_phaser_multi(self) -> None:
        for words in (("--size", "128x128"), ()):
            self.clean()
            atlas = self.make(*words)
            index = json.loads((self.out / "atlas.phaser.json").read_text(encoding="utf-8"))
            self.assertEqual(keys(index), {"textures", "meta"})
            self.assertEqual(keys(index["meta"]), {"app", "version"})
            frames = {}
            for number, texture in enumerate(index["textures"]):
                self.assertEqual(keys(texture), {"image", "format", "size", "scale", "frames"})
                self.assertEqual(read_page(self.out / texture["image"]), atlas.pages[number])
                self.assertEqual(sizes_of(texture["size"], "w", "h"), (atlas.pages[number].width, atlas.pages[number].height))
                frames.update({it["filename"]: frame_of(number, it) for it in texture["frames"]})
            self.assertEqual(frames, atlas.frames)

    def test_libgdx_by_order_and_by_keys(self) -> None:
        for words in (("--size", "128x128"), ("--size", "128x128", "--power-of-two"), ()):
            self.clean()
            atlas = self.make(*words)
            lines = (self.out / "atlas.atlas").read_bytes().decode().split("\n")
            self.assertEqual(lines.pop(), "")
            pages = list(pages_by_order(lines))
            self.assertEqual(pages, list(pages_by_keys(lines)))
            self.assertEqual([page["size"] for page in pages], [(page.width, page.height) for page in atlas.pages])
            read = [read_page(self.out / page["image"]) for page in pages]
            self.assertEqual(read, atlas.pages)
            regions = [(number, it) for number, page in enumerate(pages) for it in page["regions"]]
            self.assertEqual(sorted(it["name"] for _, it in regions), sorted(PICTURES))
            for number, it in regions:
                self.assertEqual(it["rotate"], "false")
                self.assertEqual(whole_picture(read[number], it), PICTURES[it["name"]], it["name"])

    def test_libgdx_counts_from_the_lower_edge(self) -> None:
        self.write({"one": framed(full(3, 4), 1, 2, 5, 7)})
        self.sheet("--format", "libgdx,json-hash", "--trim", "--border", 6)
        self.assertEqual((self.out / "atlas.atlas").read_text(), "\n".join([
            "atlas.png", "size: 15,16", "format: RGBA8888", "filter: Nearest,Nearest", "repeat: none", "one", "  rotate: false",
            "  xy: 6, 6", "  size: 3, 4", "  orig: 9, 13", "  offset: 1, 7", "  index: -1", ""]))

    def test_names_with_png(self) -> None:
        self.write({"a/b": full(2, 2), "c": full(2, 2)})
        (self.source / "c.png").rename(self.source / "c.PNG")
        self.assertEqual(sorted(self.sheet("--with-png").frames), ["a/b.png", "c.PNG"])
        self.assertEqual(sorted(self.sheet().frames), ["a/b", "c"])

    def test_formats_add_up(self) -> None:
        self.write({"a": full(2, 2)})
        done = run(self.source, "-o", self.out / "x", "--format", "libgdx", "--format", "phaser-multi,libgdx")
        self.assertEqual(done.status, 0)
        self.assertEqual(sorted(it.name for it in self.out.iterdir()), ["x.atlas", "x.phaser.json", "x.png"])

    def test_what_is_hidden_is_passed_over(self) -> None:
        self.write({"a": full(2, 2), ".hidden": full(2, 2), ".folder/b": full(2, 2)})
        (self.source / "notes.txt").write_text("no picture")
        (self.source / "._a.png").write_bytes(b"of another system")
        (self.source / "empty").mkdir()
        self.assertEqual(list(self.sheet().frames), ["a"])


def whole_picture(page: Picture, it: dict[str, Any]) -> Picture:
    """A region of an .atlas as it was before it was trimmed: its offset is counted from the left and from below."""
    (x, y), (width, height), (whole_width, whole_height), (left, below) = it["xy"], it["size"], it["orig"], it["offset"]
    part = Picture(width, height, page.cut(x, y, width, height))
    return framed(part, left, whole_height - height - below, whole_width - width - left, below)


def numbers(text: str) -> tuple[int, ...]:
    return tuple(int(part.strip()) for part in text.split(","))


def pages_by_order(lines: list[str]) -> Iterator[dict[str, Any]]:
    """As older versions of libGDX read it: an empty line ends a page, and what follows a name comes in a fixed order."""
    def value() -> str:
        name, colon, text = next(rest).partition(":")
        assert colon, name
        return text.strip()

    rest = iter(lines)
    page: Any = None
    for line in rest:
        if not line.strip():
            yield page
            page = None
        elif page is None:
            page = {"image": line, "size": numbers(value()), "format": value(), "filter": value(), "repeat": value()}
            assert (page["format"], page["filter"], page["repeat"]) == ("RGBA8888", "Nearest,Nearest", "none")
            page["regions"] = []
        else:
            region = {"name": line, "rotate": value(), "xy": numbers(value()), "size": numbers(value())}
            region.update(orig=numbers(value()), offset=numbers(value()), index=value())
            assert region["rotate"] in ("true", "false") and region["index"] == "-1"
            page["regions"].append(region)
    yield page


def pages_by_keys(lines: list[str]) -> Iterator[dict[str, Any]]:
    """As newer versions of libGDX read it: a line with a colon is an entry of what was named last, in any order."""
    page: Any = None
    holder: Any = None
    for line in [*lines, ""]:
        key, colon, text = (part.strip() for part in line.partition(":"))
        if not key:
            yield page
            page = None
        elif colon:
            holder[key] = numbers(text) if key in ("size", "xy", "orig", "offset") else text
        elif page is None:
            page = holder = {"image": line, "regions": []}
        else:
            holder = {"name": key}
            page["regions"].append(holder)


class Said(SheetCase):
    """What is printed, and the page to look at."""

    def test_lines(self) -> None:
        self.write({"a": full(10, 10), "b": full(10, 10), "c": full(10, 30)})
        done = run(self.source, "-o", self.out / "x", "--alias", "--padding", 0)
        # 10 x 10 and 10 x 30 are a page that is full.
        page, index = done.out.splitlines()
        self.assertRegex(page, r"/x\.png: (10x40|40x10), 3 sprites, 2 stored, 100 % filled$")
        self.assertEqual(index, str(self.out / "x.json"))

    def test_what_is_filled_is_rounded_down(self) -> None:
        # 3x3 and 2x5 fill 19 of 24 pixels, which are fewer than 5x5: 79.17 %. One pixel of 3x3 is 11.11 %, of 45x45 0.05 %.
        self.write({"a": full(3, 3), "b": full(2, 5)})
        self.assertIn(": 3x8, 2 sprites, 79.1 % filled\n", run(self.source, "-o", self.out / "x", "--padding", 0).out)
        self.clean()
        self.write({"a": full(1, 1)})
        for side, part in ((3, "11.1"), (45, "under 0.1")):
            done = run(self.source, "-o", self.out / "x", "--border", (side - 1) // 2)
            self.assertIn(f": {side}x{side}, 1 sprite, {part} % filled\n", done.out)

    def test_json(self) -> None:
        self.write(PICTURES)
        words = ("--trim", "--size", "128x128", "--json", "--heuristic", "height")
        done = run_alone(self.source, "-o", self.out / "atlas", *words)
        self.assertEqual((done.status, done.err), (0, ""))
        said, atlas = json.loads(done.out), read_atlas(self.out)
        self.assertEqual(keys(said), {"pages", "sprites", "animations", "files"})
        begin, count = [Path(file).read_bytes()[:1] for file in said["files"]], len(atlas.pages)
        self.assertEqual(begin, [b"\x89"] * count + [b"{"] * count)
        for page, picture, meta in zip(said["pages"], atlas.pages, atlas.metas):
            self.assertEqual((page["image"], page["width"], page["height"]), (meta["image"], picture.width, picture.height))
            self.assertEqual(page["heuristic"], "height")
        frames = {
            it["name"]: Frame(
                it["page"], it["x"], it["y"], it["width"], it["height"], it["source"]["x"], it["source"]["y"],
                (it["source"]["width"], it["source"]["height"]), it["rotated"]) for it in said["sprites"]}
        self.assertEqual(frames, atlas.frames)
        for it in said["sprites"]:
            self.assertEqual((it["file"], it["stored_as"]), (str(self.source / f"{it['name']}.png"), it["name"]))
        for number, page in enumerate(said["pages"]):
            cells = sum(it.width * it.height for it in frames.values() if it.page == number)
            self.assertAlmostEqual(page["filled"], cells / (page["width"] * page["height"]), places=3)
            self.assertEqual(page["stored"], sum(it.page == number for it in frames.values()))
            self.assertEqual(page["scale"], 1)

    def test_json_of_aliases(self) -> None:
        self.write({"b": full(4, 4), "a": full(4, 4)})
        said = json.loads(run(self.source, "-o", self.out / "x", "--alias", "--json").out)
        self.assertEqual([(it["name"], it["stored_as"]) for it in said["sprites"]], [("a", "a"), ("b", "a")])
        self.assertEqual(said["pages"][0]["stored"], 1)

    def scene(self, *words: object) -> Scene:
        with mock.patch("rectangle_pack.commands.view.write_page", create=True) as written:
            self.sheet("--page", self.out / "look.html", *words)
        (scene, path), _ = written.call_args
        self.assertEqual(path, self.out / "look.html")
        assert isinstance(scene, Scene)
        return scene

    def test_the_page_to_look_at(self) -> None:
        first = min(PICTURES)
        self.write({**PICTURES, f"{first}-twin": PICTURES[first], "clear": full(2, 2, CLEAR)})
        scene, atlas = self.scene("--size", "128x128", "--alias"), read_atlas(self.out)
        self.assertEqual((scene.unit, len(scene.steps)), ("pixels", len(scene.rooms)))
        for room, page in zip(scene.rooms, atlas.pages):
            self.assertEqual(room.size, (page.width, page.height, 1))
            head, data = room.image.split(",")
            self.assertEqual(head, "data:image/png;base64")
            self.assertEqual(base64.b64decode(data), (self.out / room.name).read_bytes())
        items = [it for step in scene.steps for it in step.placed]
        self.assertEqual([it.number for it in items], list(range(len(PICTURES) + 1)))
        for it in items:
            frame = atlas.frames[it.name]
            self.assertEqual((it.at, it.size), ((frame.x, frame.y, 0), (frame.width, frame.height, 1)))
            self.assertEqual(it.bin, scene.rooms[frame.page].name)
            self.assertIn(str(self.source / f"{it.name}.png"), it.note)
        twin, = (it for it in items if it.name == first)
        self.assertIn(f"{first}-twin", twin.note)

    def test_the_page_to_look_at_is_written(self) -> None:
        self.write({"a": full(4, 4)})
        try:
            importlib.import_module("rectangle_pack.commands.view").write_page
        except AttributeError:
            self.skipTest("the command view is not there")
        done = run(self.source, "-o", self.out / "x", "--page", self.out / "look.html")
        self.assertEqual(done.status, 0, done.err)
        self.assertIn(str(self.out / "look.html"), done.out.splitlines())
        self.assertGreater((self.out / "look.html").stat().st_size, 0)


if __name__ == "__main__":
    unittest.main()
