"""What the tests of the command sheet share: runs of the command, and pages that are read back."""
from __future__ import annotations

import contextlib
import importlib
import importlib.util
import io
import json
import os
import shutil
import subprocess
import sys
import tempfile
import unittest
from collections.abc import Mapping
from dataclasses import dataclass, field
from pathlib import Path
from typing import Any, Optional

from .sheet_pictures import CLEAR, Picture, drawn, framed, full, noise, png

PYTHON = Path(__file__).resolve().parents[2]

try:
    from rectangle_pack.commands import main
except OSError as why:
    raise unittest.SkipTest(f"the shared library is not there: {why}") from None

try:
    pillow: Any = importlib.import_module("PIL.Image")
except ImportError:
    raise unittest.SkipTest("Pillow is not there") from None

__all__ = [
    "CLEAR", "Atlas", "Frame", "Picture", "Run", "SheetCase", "drawn", "example", "framed", "full", "noise", "png", "read_atlas",
    "read_page", "run", "run_alone",
]


def example() -> Any:
    """The module that draws the example set."""
    spec = importlib.util.spec_from_file_location("example_sheet", PYTHON / "examples" / "commands" / "sheet.py")
    assert spec is not None and spec.loader is not None
    module = importlib.util.module_from_spec(spec)
    spec.loader.exec_module(module)
    return module


@dataclass(frozen=True)
class Run:
    status: int
    out: str
    err: str


def run(*words: object) -> Run:
    """A run of the command in this process."""
    out, err = io.StringIO(), io.StringIO()
    with contextlib.redirect_stdout(out), contextlib.redirect_stderr(err):
        try:
            status = main(["sheet", *map(str, words)])
        except SystemExit as end:
            status = end.code if isinstance(end.code, int) else 1
    return Run(status, out.getvalue(), err.getvalue())


def run_alone(*words: object, **environment: str) -> Run:
    """A run of the command as a process."""
    whole = {**os.environ, "PYTHONPATH": str(PYTHON), **environment}
    command = [sys.executable, "-m", "rectangle_pack", "sheet", *map(str, words)]
    done = subprocess.run(command, capture_output=True, text=True, env=whole, check=False)
    return Run(done.returncode, done.stdout, done.stderr)


@dataclass(frozen=True)
class Frame:
    """A sprite as an index has it: its place on its page, its size as it was before it was turned there, where that was cut out
    of its file, and whether it was turned."""

    page: int
    x: int
    y: int
    width: int
    height: int
    left: int
    top: int
    whole: tuple[int, int]
    turned: bool = False

    @property
    def size(self) -> tuple[int, int]:
        """The size on the page."""
        return (self.height, self.width) if self.turned else (self.width, self.height)


@dataclass(frozen=True)
class Atlas:
    """The pages with their pixels, and the frames by name, from the files of the format json-hash."""

    pages: list[Picture]
    frames: dict[str, Frame]
    metas: list[dict[str, Any]] = field(default_factory=list)


def read_page(path: Path) -> Picture:
    with pillow.open(path) as image:
        assert image.mode == "RGBA", image.mode
        return Picture(image.width, image.height, image.tobytes())


def read_atlas(folder: Path, name: str = "atlas", suffix: str = "") -> Atlas:
    single = folder / f"{name}{suffix}.json"
    several = folder.glob(f"{name}-*{suffix}.json")
    files = [single] if single.exists() else sorted(several, key=lambda it: int(it.stem.split("@")[0].split("-")[-1]))
    pages, frames, metas = [], {}, []
    for number, file in enumerate(files):
        index = json.loads(file.read_text(encoding="utf-8"))
        metas.append(index["meta"])
        pages.append(read_page(folder / index["meta"]["image"]))
        for sprite, it in index["frames"].items():
            assert sprite not in frames, sprite
            at, source, whole = it["frame"], it["spriteSourceSize"], (it["sourceSize"]["w"], it["sourceSize"]["h"])
            place = number, at["x"], at["y"], at["w"], at["h"], source["x"], source["y"], whole
            frames[sprite] = Frame(*place, it["rotated"])
    return Atlas(pages, frames, metas)


class SheetCase(unittest.TestCase):
    """A test with a folder of its own: sprites go into in/, pages into out/."""

    def setUp(self) -> None:
        self.folder = Path(tempfile.mkdtemp(prefix="sheet"))
        self.addCleanup(shutil.rmtree, self.folder, ignore_errors=True)
        self.source, self.out = self.folder / "in", self.folder / "out"

    def write(self, pictures: Mapping[str, Picture], top: Optional[Path] = None) -> None:
        for name, picture in pictures.items():
            path = (top or self.source) / f"{name}.png"
            path.parent.mkdir(parents=True, exist_ok=True)
            path.write_bytes(picture.as_png())

    def clean(self) -> None:
        """Takes away what was made so far."""
        for folder in (self.source, self.out):
            shutil.rmtree(folder, ignore_errors=True)

    def sheet(self, *words: object) -> Atlas:
        """The pages of the folder in/, which are made."""
        done = run(self.source, "--output", self.out / "atlas", *words)
        self.assertEqual((done.status, done.err), (0, ""), done)
        return read_atlas(self.out)

    def check_sprites(self, atlas: Atlas, pictures: Mapping[str, Picture]) -> None:
        """Each sprite is as its file: what the index says is cut out of the page, turned back and put where it was."""
        self.assertEqual(sorted(atlas.frames), sorted(pictures))
        for name, picture in pictures.items():
            frame = atlas.frames[name]
            part = Picture(*frame.size, atlas.pages[frame.page].cut(frame.x, frame.y, *frame.size))
            part = part.turned(is_clockwise=False) if frame.turned else part
            right, bottom = frame.whole[0] - frame.left - frame.width, frame.whole[1] - frame.top - frame.height
            self.assertEqual(framed(part, frame.left, frame.top, right, bottom), picture, name)

    def check_places(self, atlas: Atlas, padding: int, border: int, extrude: int) -> None:
        """Sprites keep off each other and off the edges, their pixels are repeated round them, and the rest is empty."""
        for number, page in enumerate(atlas.pages):
            owners: dict[tuple[int, int], Frame] = {}
            # Sprites that are stored once have one place.
            places = {(it.x, it.y, *it.size): it for it in atlas.frames.values() if it.page == number}
            for it in places.values():
                right, bottom = it.x + it.size[0], it.y + it.size[1]
                self.assertGreaterEqual(min(it.x, it.y), border + extrude)
                self.assertLessEqual(right + extrude + border, page.width)
                self.assertLessEqual(bottom + extrude + border, page.height)
                for y in range(it.y - extrude, bottom + extrude):
                    for x in range(it.x - extrude, right + extrude):
                        self.assertIsNone(owners.get((x, y)), "two sprites share a pixel")
                        owners[x, y] = it
            self.check_distances(list(places.values()), padding + 2 * extrude)
            self.check_pixels(page, owners)

    def check_distances(self, frames: list[Frame], least: int) -> None:
        for index, one in enumerate(frames):
            for other in frames[:index]:
                across = max(one.x - other.x - other.size[0], other.x - one.x - one.size[0])
                down = max(one.y - other.y - other.size[1], other.y - one.y - one.size[1])
                self.assertGreaterEqual(max(across, down), least)

    def check_pixels(self, page: Picture, owners: Mapping[tuple[int, int], Frame]) -> None:
        for y in range(page.height):
            for x in range(page.width):
                it = owners.get((x, y))
                if it is None:
                    self.assertEqual(page.at(x, y), CLEAR)
                else:
                    inside = min(max(x, it.x), it.x + it.size[0] - 1), min(max(y, it.y), it.y + it.size[1] - 1)
                    self.assertEqual(page.at(x, y), page.at(*inside))
