"""What the tests of the command view share: how it is run, and the scenes that they look at."""
from __future__ import annotations

import contextlib
import importlib.resources
import importlib.util
import io
import os
import subprocess
import sys
import tempfile
import unittest
from collections.abc import Mapping
from pathlib import Path
from typing import NamedTuple

try:
    import rectangle_pack
except OSError as why:
    raise unittest.SkipTest(f"the shared library is not there: {why}") from None

from rectangle_pack import Bin, Box, Session, commands
from rectangle_pack.commands._sawing import FlatAxis, Piece, SawStep
from rectangle_pack.commands._scene import Item, Part, PartCut, Room, Scene, Step
from rectangle_pack.commands._view._drawings import read_drawings
from rectangle_pack.commands._view._replay import replayed

__all__ = [
    "EXAMPLES", "PARTS", "PYTHON", "TOP", "Run", "ViewCase", "cells_of", "cut_scene", "example", "halves", "replay", "run",
    "run_alone", "table", "unpacked", "with_everything",
]

# The folder of the page's parts, as the package finds it.
PARTS = Path(str(importlib.resources.files("rectangle_pack.commands._view")))
PYTHON = Path(__file__).resolve().parents[2]
TOP = PYTHON.parents[1]
EXAMPLES = ("atlas", "panels", "container")


class Run(NamedTuple):
    """How a run of the command ended, and what it printed."""

    status: int
    out: str
    err: str


def run(*words: object) -> Run:
    """Runs the command in this process."""
    out, err = io.StringIO(), io.StringIO()
    with contextlib.redirect_stdout(out), contextlib.redirect_stderr(err):
        try:
            status = commands.main(["view", *map(str, words)])
        except SystemExit as end:
            status = int(end.code or 0)
    return Run(status, out.getvalue(), err.getvalue())


def run_alone(folder: Path, *words: object, given: bytes = b"", more: Mapping[str, str] | None = None) -> Run:
    """Runs the command as a user does, in a folder."""
    path = os.pathsep.join(filter(None, (str(PYTHON), os.environ.get("PYTHONPATH"))))
    it = subprocess.run(
        [sys.executable, "-m", "rectangle_pack", "view", *map(str, words)], cwd=folder, input=given, capture_output=True,
        env={**os.environ, "PYTHONPATH": path, **(more or {})})
    return Run(it.returncode, it.stdout.decode(), it.stderr.decode())


def replay(text: str, title: str = "session") -> Scene:
    """The scene of commands."""
    return replayed(text.encode(), "session.txt", title, "cells")


def table(text: str) -> list[Scene]:
    """The scenes of a table."""
    return read_drawings(text.encode(), "table.txt", "table", "cells")


def example(folder: Path) -> None:
    """Writes the files of the example."""
    spec = importlib.util.spec_from_file_location("view_example", PYTHON / "examples" / "commands" / "view.py")
    assert spec and spec.loader
    module = importlib.util.module_from_spec(spec)
    spec.loader.exec_module(module)
    module.write(folder)


def cells_of(part: Part) -> set[tuple[int, int, int]]:
    """The cells of a part."""
    (x, y, z), (width, height, depth) = part
    return {(i, j, k) for i in range(x, x + width) for j in range(y, y + height) for k in range(z, z + depth)}


def halves(part: Part, axis: FlatAxis, near: int, far: int) -> tuple[Part, Part]:
    """What is left of a part before the blade and behind it."""
    (x, y, z), (width, height, depth) = part
    if axis == "x":
        return (part[0], (near - x, height, depth)), ((far, y, z), (x + width - far, height, depth))
    return (part[0], (width, near - y, depth)), ((x, far, z), (width, y + height - far, depth))


def unpacked(cuts: list[PartCut], whole: Part) -> set[Part]:
    """The parts that cuts leave. Each cut has to be inside a part that is there."""
    parts = {whole}
    for cut in cuts:
        (near, far), (at, size), i = cut.blade, cut.part, "xy".index(cut.step.axis)
        assert cut.part in parts and at[i] <= near <= far <= at[i] + size[i], cut
        parts.remove(cut.part)
        parts |= {it for it in halves(cut.part, cut.step.axis, near, far) if 0 not in it[1]}
    return parts


def _cuts_of(session: Session[str], name: str, size: tuple[int, int, int]) -> list[PartCut]:
    """The cutting plan of a bin, each cut with its part. The saw takes nothing away."""
    cuts: list[PartCut] = []
    waiting: list[Part] = [((0, 0, 0), size)]
    for step in session.cut_plan(name) or []:
        part = waiting.pop()
        if isinstance(step, rectangle_pack.Cut):
            axis: FlatAxis = "x" if step.axis == "x" else "y"
            leaves = halves(part, axis, step.place, step.place)
            pieces = [Piece("part", "", str(width), str(height)) for _, (width, height, _) in (part, *leaves)]
            at = str(step.place - part[0]["xy".index(axis)])
            said = SawStep(len(cuts) + 1, pieces[0], axis, at, "0", pieces[1:])
            cuts.append(PartCut(said, (step.place, step.place), part))
            waiting += reversed(leaves)
    return cuts


def cut_scene() -> Scene:
    """Panels on two sheets, with a cutting plan for each, as the command cut makes it. Names have letters that HTML escapes."""
    size, panels = (2500, 1250, 1), {}
    for name, width, height, count in (("side", 600, 800, 3), ("shelf <b>", 560, 300, 6), ('door "left" & co', 396, 716, 3)):
        panels.update({f"{name} {i + 1}": Box(width, height) for i in range(count)})
    with Session({"sheet 1": Bin(*size), "sheet 2": Bin(*size)}) as session:
        packing = session.pack(panels, heuristic="best")
        items = [
            Item(it.number, it.name, it.bin, it.section[:3], it.section[3:], it.name.rsplit(" ", 1)[0], "oak\nturned")
            for it in sorted(packing, key=lambda it: it.number)]
        cuts = {name: _cuts_of(session, name, size) for name in session.bins()}
        free = {name: [(it[:3], it[3:]) for it in session.free_sections(name)] for name in session.bins()}
    steps = [Step(f"{name}: panels", [it for it in items if it.bin == name], (), {name: free[name]}) for name in cuts]
    facts = [("sheets", "2"), ("waste", "31 %")]
    return Scene("panels </script><!-- & 'all'", [Room(name, size) for name in cuts], steps, cuts, "mm", facts)


def with_everything() -> Scene:
    """A scene in which each field says something, and numbers are as great as they get."""
    url = "data:image/gif;base64,R0lGODlhAQABAIAAAAAAAP///yH5BAEAAAAALAAAAAABAAEAAAIBRAA7"
    names = ['<script>alert("&")</script>', "</script><!--", "\u2028 \u2029 \u0000 'quoted'", "Größe 尺寸 🙂", "__proto__"]
    items = [
        Item(2**64 - 1 - i, name, "page", (i, 0, 0), (1, 2**32 - 1, 1), name, f"a note\non {name}")
        for i, name in enumerate(names)]
    rooms = [Room("page", (5, 2**32 - 1, 1), url), Room("__proto__", (7, 7, 1), since=1)]
    whole: Part = ((0, 0, 0), (7, 7, 1))
    parts: list[Part] = [((0, 0, 0), (3, 7, 1)), ((3, 0, 0), (4, 7, 1))]
    steps = [
        Step("", items[:3], answer=["packed 3"], note="two wait"),
        Step("bin __proto__ 7 7 1", free={"__proto__": [whole]}, answer=["ok"]),
        Step("pack", items[3:], [items[0].number], {"__proto__": [parts[1], parts[0]]}),
        Step("?", refused=True, answer=["refused: a", "b"], free={"__proto__": [parts[1], whole, parts[0]], "page": []}),
    ]
    pieces = [
        Piece("part", "<A>", "0.7", "0.7"), Piece("panel", '<b> "one"', "0.3", "0.7", True), Piece("part", "", "0.2", "0.7")]
    left = [Piece("waste", "", "0.2", "0.1"), Piece("offcut", "</script>", "0.2", "0.4")]
    cuts = {"__proto__": [
        PartCut(SawStep(1, pieces[0], "x", "0.3", "0.2", pieces[1:]), (3, 5), whole),
        PartCut(SawStep(2, pieces[2], "y", "", "0.2", left, "bottom", "0.3"), (1, 3), ((5, 0, 0), (2, 7, 1))),
    ]}
    return Scene("a <title> & more", rooms, steps, cuts, "0.1 mm", [("waste", "<5 %")])


class ViewCase(unittest.TestCase):
    """A test with a folder of its own."""

    def setUp(self) -> None:
        folder = tempfile.TemporaryDirectory()
        self.addCleanup(folder.cleanup)
        self.folder = Path(folder.name)

    def file(self, name: str, content: str | bytes) -> Path:
        path = self.folder / name
        path.write_bytes(content.encode() if isinstance(content, str) else content)
        return path

    def assert_refused(self, it: Run, *parts: object, status: int = 2) -> None:
        """One line on standard error has these parts, and nothing is on standard output."""
        self.assertEqual((it.status, it.out), (status, ""), it.err)
        self.assertEqual(it.err.count("\n"), 1, it.err)
        for part in parts:
            self.assertIn(str(part), it.err)
