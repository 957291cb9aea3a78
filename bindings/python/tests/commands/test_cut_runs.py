"""What the tests of `cut` share: runs of the command, the example, and a saw that cuts by the printed steps."""
from __future__ import annotations

import contextlib
import csv
import functools
import io
import json
import re
import subprocess
import sys
import tempfile
import unittest
from collections.abc import Sequence
from dataclasses import dataclass, field
from fractions import Fraction
from pathlib import Path
from typing import Any

from .cut_steps import NUMBER, Piece, Step, check_page, exact, head_of, steps_in

try:
    from rectangle_pack import commands
except OSError as why:
    raise unittest.SkipTest(f"the shared library is not there: {why}") from None

PYTHON = Path(__file__).resolve().parents[2]

Size = tuple[Fraction, Fraction]

UNCUT = re.compile(rf'Nothing is cut: the sheet is panel "(.*)" {NUMBER} x {NUMBER}( \(turned\))?')


@dataclass
class Run:
    """A run of the command: its status, what it printed, and the folder that it wrote to."""

    status: int
    out: str
    err: str
    folder: Path

    @functools.cached_property
    def json(self) -> Any:
        """What was printed, its numbers exact."""
        return json.loads(self.out, parse_float=Fraction, parse_int=Fraction)

    def sheets(self, folder: str = ".") -> list[str]:
        """The plans, in the order of the sheets; those of a material are in a folder of their own."""
        texts = [path.read_text(encoding="utf-8") for path in (self.folder / folder).glob("sheet-*.txt")]
        return sorted(texts, key=lambda text: head_of(text.splitlines()).first)


def run_cut(folder: Path, *words: object) -> Run:
    """Runs the command in this process, for plans in a folder."""
    texts = io.StringIO(), io.StringIO()
    with contextlib.redirect_stdout(texts[0]), contextlib.redirect_stderr(texts[1]):
        try:
            status = commands.main(["cut", *map(str, words), "--out", str(folder)])
        except SystemExit as end:
            status = int(end.code or 0)
    return Run(status, texts[0].getvalue(), texts[1].getvalue(), folder)


class Case(unittest.TestCase):
    """A test with a folder of its own."""

    def setUp(self) -> None:
        folder = tempfile.TemporaryDirectory()
        self.addCleanup(folder.cleanup)
        self.folder = Path(folder.name)

    def write(self, name: str, text: str) -> Path:
        path = self.folder / name
        path.write_text(text, encoding="utf-8")
        return path

    def cut(self, *words: object, out: str = "plan", pdf: bool = False) -> Run:
        """Runs the command in this process. Its page says what its texts say."""
        words = (*words, *([] if pdf else ["--no-pdf"]))
        if "--page" in words:
            return run_cut(self.folder / out, *words)
        with tempfile.TemporaryDirectory() as aside:
            page = Path(aside) / "page.html"
            run = run_cut(self.folder / out, *words, "--page", page)
            self.assertEqual(page.exists(), run.status == 0)
            if page.exists():
                check_page(self, page, run.folder)
        return run

    def cut_tables(self, panels: str, stock: str, *words: object, offcuts: str = "", **named: Any) -> Run:
        """Runs the command on these tables."""
        paths: list[object] = [self.write("panels.csv", panels), "--stock", self.write("sheets.csv", stock)]
        if offcuts:
            paths += ["--offcuts", self.write("offcuts.csv", offcuts)]
        run = self.cut(*paths, *words, **named)
        self.assertEqual((run.status, run.err), (0, ""))
        return run


def as_user(*words: object, **environment: str) -> subprocess.CompletedProcess[str]:
    """Runs the command in a process of its own."""
    import os
    paths = os.pathsep.join(filter(None, [environment.pop("FIRST", ""), str(PYTHON)]))
    return subprocess.run(
        [sys.executable, "-m", "rectangle_pack", "cut", *map(str, words)], capture_output=True, text=True, encoding="utf-8",
        env={**os.environ, "PYTHONPATH": paths, **environment}, check=False)


def write_example(folder: Path) -> None:
    """The example set."""
    subprocess.run([sys.executable, str(PYTHON / "examples" / "commands" / "cut.py"), str(folder)], check=True)


def rows_of(text: str) -> list[dict[str, str]]:
    return list(csv.DictReader(io.StringIO(text)))


@dataclass
class Sawn:
    """What came off the saw: panels and offcuts by name, with their sizes; and which panels are said to be turned."""

    name: str
    size: Size
    # How many sheets are cut so.
    count: int = 1
    cuts: int = 0
    length: Fraction = Fraction(0)
    panels: list[tuple[str, Size, bool]] = field(default_factory=list)
    offcuts: list[tuple[str, Size]] = field(default_factory=list)
    waste: list[Size] = field(default_factory=list)


def _split(size: Size, axis: str, near: Fraction, far: Fraction) -> list[Size]:
    """What a blade that takes all from near to far leaves of a part."""
    whole = size[0] if axis == "x" else size[1]
    left = [stretch for stretch in (min(near, whole), whole - max(far, Fraction(0))) if stretch > 0]
    return [(it, size[1]) if axis == "x" else (size[0], it) for it in left]


def _blade(step: Step, size: Size, kerf: Fraction) -> tuple[str, Fraction, Fraction]:
    """The axis, and what the blade takes, from the part's left or lower edge."""
    length = exact(step.length)
    if step.where in ("x", "y"):
        assert 0 < length < (size[0] if step.where == "x" else size[1]), "a cut beside the part"
        return step.where, length, length + kerf
    axis = "x" if step.where in ("left", "right") else "y"
    if step.where in ("left", "bottom"):
        return axis, length - kerf, length
    near = (size[0] if axis == "x" else size[1]) - length
    return axis, near, near + kerf


def _size(piece: Piece) -> Size:
    return exact(piece.width), exact(piece.height)


def saw(text: str, kerf: Fraction) -> Sawn:
    """Saws a sheet by its printed plan, and checks each number in it."""
    head = head_of(text.splitlines())
    sawn, table = Sawn(head.name, head.size, head.count), {"A": head.size}
    steps = steps_in(text.splitlines())
    for number, step in enumerate(steps, 1):
        assert int(step.number) == number, "steps are not numbered in order"
        part = table.pop(step.piece.name)
        assert part == _size(step.piece), "the part has another size"
        axis, near, far = _blade(step, part, kerf)
        left = _split(part, axis, near, far)
        assert left == [_size(it) for it in step.leaves], f"step {number} leaves {left}"
        sawn.cuts += 1
        sawn.length += part[1] if axis == "x" else part[0]
        for it in step.leaves:
            if it.role == "part":
                assert it.name not in table, "two parts with one letter"
                table[it.name] = _size(it)
            elif it.role == "panel":
                sawn.panels.append((it.name, _size(it), it.is_turned))
            elif it.role == "offcut":
                sawn.offcuts.append((it.name, _size(it)))
            else:
                sawn.waste.append(_size(it))
    uncut = [line for line in map(UNCUT.fullmatch, text.splitlines()) if line]
    if not steps and uncut:
        sawn.panels.append((uncut[0].group(1), table.pop("A"), bool(uncut[0].group(4))))
    assert not table, f"parts that are not cut on: {table}"
    return sawn


def saw_all(run: Run, kerf: object, folder: str = ".") -> list[Sawn]:
    """Saws all sheets of a run: those that are cut alike once."""
    sawn, texts, first = [], run.sheets(folder), 1
    for text in texts:
        head = head_of(text.splitlines())
        assert head.first == first and Fraction(str(kerf)) == exact(head.kerf)
        first += head.count
        sawn.append(saw(text, exact(head.kerf)))
    assert {head_of(text.splitlines()).all for text in texts} == {first - 1}
    return sawn


def each(sawn: Sequence[Sawn]) -> list[Sawn]:
    """All sheets, one by one."""
    return [sheet for sheet in sawn for _ in range(sheet.count)]


def check_panels(case: unittest.TestCase, rows: Sequence[dict[str, str]], sawn: Sequence[Sawn]) -> None:
    """The panels are those of the list: each line's in its number and size, turned only where it is free. Names differ."""
    found: dict[str, list[tuple[Size, bool]]] = {}
    for sheet in each(sawn):
        for name, size, is_turned in sheet.panels:
            found.setdefault(name.split(" #")[0], []).append((size, is_turned))
    for row in rows:
        size = exact(row["width"]), exact(row["height"])
        pieces = found.pop(row["name"], [])
        case.assertEqual(len(pieces), int(row["count"]))
        for its_size, is_turned in pieces:
            case.assertEqual(its_size, (size[1], size[0]) if is_turned else size)
            case.assertFalse(is_turned and row["grain"] == "keep")
    case.assertEqual(found, {})
