"""The steps of plans, read from a text, from a page and from the data of a page, so that the tests can compare them: number by
number, as they are written."""
from __future__ import annotations

import json
import re
import unittest
import xml.etree.ElementTree as ElementTree
from collections.abc import Iterable, Iterator, Sequence
from dataclasses import dataclass
from fractions import Fraction
from pathlib import Path
from typing import Any, NamedTuple

from .parsed import Parsed

__all__ = [
    "NUMBER", "PAGE", "Head", "Piece", "Step", "check_page", "data_of", "exact", "head_of", "pieces_in", "step_in", "steps_in"]

# In inches there may be fractions: 24 3/4
NUMBER = r"(\d+(?:\.\d+)?(?: \d+/\d+)?|\d+/\d+)"
SVG = "{http://www.w3.org/2000/svg}"
# What a text and a page write between two measures, and between what is done and what that leaves.
TEXT, PAGE = ("x", "->"), ("×", "→")


HEADING = re.compile(rf"(Sheets?) (\d+)(?: to (\d+))? of (\d+): (offcut )?(.*), {NUMBER} x {NUMBER} (mm|in)")


def exact(number: str) -> Fraction:
    """A number as it is written: 24 3/4"""
    return sum(map(Fraction, number.split()), Fraction(0))


@dataclass(frozen=True)
class Head:
    """What the first lines of a plan say: which sheets it is of, and how many there are in all."""

    first: int
    count: int
    all: int
    name: str
    size: tuple[Fraction, Fraction]
    unit: str
    job: str
    material: str
    kerf: str

    @property
    def room(self) -> str:
        """What a page calls the sheets."""
        sheets = f"sheet {self.first}" if self.count == 1 else f"sheets {self.first} to {self.first + self.count - 1}"
        return f"{self.material}, {sheets}: {self.name}" if self.material else f"{sheets}: {self.name}"


def head_of(lines: Sequence[str]) -> Head:
    """The head of a text. Of several sheets the second line says how many they are."""
    it = HEADING.fullmatch(lines[0])
    assert it, lines[0]
    count = int(it[3]) - int(it[2]) + 1 if it[3] else 1
    assert (it[1] == "Sheets") == (count > 1)
    if count > 1:
        assert lines[1] == f"{count} times this sheet"
        lines = lines[1:]
    job, _, material = lines[1].removeprefix("Job ").partition(", ")
    assert lines[1].startswith("Job ") and lines[2].startswith("Kerf ")
    size = exact(it[7]), exact(it[8])
    kerf = lines[2].removeprefix("Kerf ").split(",")[0]
    return Head(int(it[2]), count, int(it[4]), it[6], size, it[9], job, material, kerf)


class Piece(NamedTuple):
    """What is cut, or what is left."""

    role: str
    name: str
    width: str
    height: str
    is_turned: bool = False


class Step(NamedTuple):
    """A cut: across which axis, and at which place; or which edge is trimmed, and by how much."""

    number: str
    piece: Piece
    where: str
    length: str
    leaves: tuple[Piece, ...]


def pieces_in(text: str, times: str = "x") -> Iterator[Piece]:
    """The pieces that a step names."""
    form = re.compile(rf'(?:(panel|offcut)(?: "(.*?)")?|(waste)|([A-Z]+)|) ?{NUMBER} {times} {NUMBER}( \(turned\))?(?:, |$)')
    at = 0
    while at < len(text):
        it = form.match(text, at)
        assert it, f"not a list of pieces: {text!r}"
        yield Piece(it[1] or it[3] or "part", it[2] or it[4] or "", it[5], it[6], bool(it[7]))
        at = it.end()


def step_in(line: str, signs: tuple[str, str] = TEXT) -> Step | None:
    """The step that a line of a text says, or with other signs that of a page."""
    times, to = signs
    form = rf" *(\d+)\. (.*?): (?:cut across ([xy]) at {NUMBER}|trim {NUMBER} off the (\w+)) {to} (.*)"
    it = re.fullmatch(form, line)
    if not it:
        return None
    [piece], leaves = pieces_in(it[2], times), tuple(pieces_in(it[7], times))
    return Step(it[1], piece, it[3] or it[6], it[4] or it[5], leaves)


def steps_in(lines: Iterable[str], signs: tuple[str, str] = TEXT) -> list[Step]:
    """The steps among lines."""
    return [step for step in (step_in(line, signs) for line in lines) if step]


def data_of(page: Path) -> list[Any]:
    """The scenes that a page is given."""
    scenes: list[Any] = json.loads(Parsed(page.read_text(encoding="utf-8")).text("script", id="data"))["scenes"]
    return scenes


def _piece_of(it: Any) -> Piece:
    return Piece(it["role"], it.get("name", ""), it["width"], it["height"], it.get("turned", False))


def _step_of(it: Any) -> Step:
    leaves = tuple(map(_piece_of, it["leaves"]))
    where, length = (it["edge"], it["off"]) if "edge" in it else (it["axis"], it["at"])
    return Step(str(it["number"]), _piece_of(it["piece"]), where, length, leaves)


def check_page(case: unittest.TestCase, page: Path, folder: Path) -> None:
    """A page and the drawings say each step as the texts beside them do, and draw it where it says."""
    [scene] = data_of(page)
    paths = sorted(folder.glob("**/sheet-*.txt"))
    by_room = {head_of(path.read_text(encoding="utf-8").splitlines()).room: path for path in paths}
    case.assertEqual((len(by_room), {*by_room}), (len(paths), {room["name"] for room in scene["rooms"]}))
    for room in scene["rooms"]:
        path = by_room[room["name"]]
        lines = path.read_text(encoding="utf-8").splitlines()
        cuts, steps, unit = scene["cuts"][room["name"]], steps_in(lines), _unit_of(scene["unit"])
        case.assertEqual([_step_of(cut["step"]) for cut in cuts], steps)
        for cut in cuts:
            case.assertEqual(cut["step"]["kerf"], head_of(lines).kerf)
            _check_place(case, cut, unit)
        _check_pieces(case, scene, room, cuts)
        _check_drawing(case, ElementTree.parse(path.with_suffix(".svg")).getroot(), steps)


def _unit_of(unit: str) -> Fraction:
    """How many mm a cell has."""
    return Fraction(unit.split()[0]) if " " in unit else Fraction(1)


def _check_place(case: unittest.TestCase, cut: Any, unit: Fraction) -> None:
    """A cut is drawn where its step says."""
    step, axis = _step_of(cut["step"]), "xy".index(cut["step"]["axis"])
    sizes: list[Fraction] = [it * unit for it in cut["part"][3:5]]
    case.assertEqual(sizes, [exact(step.piece.width), exact(step.piece.height)])
    kerf, side = exact(cut["step"]["kerf"]), sizes[axis]
    near, far = ((it - cut["part"][axis]) * unit for it in cut["blade"])
    length = exact(step.length)
    if step.where in ("x", "y"):
        case.assertEqual((step.where, near, far), ("xy"[axis], length, length + kerf))
    elif step.where in ("left", "bottom"):
        case.assertEqual((near, far), (max(length - kerf, Fraction(0)), length))
    else:
        case.assertEqual((near, far), (side - length, min(side - length + kerf, side)))
    case.assertEqual(step.where in ("x", "left", "right"), axis == 0)
    left = [it for it in (near, side - far) if it > 0]
    case.assertEqual([exact((it.width, it.height)[axis]) for it in step.leaves], left)
    case.assertEqual({(it.height, it.width)[axis] for it in step.leaves}, {(step.piece.height, step.piece.width)[axis]})


def _check_pieces(case: unittest.TestCase, scene: Any, room: Any, cuts: Sequence[Any]) -> None:
    """What a cut goes through is drawn where an earlier one left it, and a panel where it is in the end."""
    parts = {"A": [0, 0, 0, *room["size"]]}
    # On sheets that are cut alike several panels have one name.
    panels = [(it["name"], it["at"]) for step in scene["steps"] for it in step["placed"] if it["bin"] == room["name"]]
    for cut in cuts:
        step, axis, part = _step_of(cut["step"]), "xy".index(cut["step"]["axis"]), cut["part"]
        case.assertEqual(parts.pop(step.piece.name), part)
        places = []
        for low, high in ((part[axis], cut["blade"][0]), (cut["blade"][1], part[axis] + part[3 + axis])):
            place = [*part]
            place[axis], place[3 + axis] = low, high - low
            places += [place] if low < high else []
        for piece, place in zip(step.leaves, places):
            if piece.role == "part":
                parts[piece.name] = place
            elif piece.role == "panel":
                panels.remove((piece.name, place))
    if cuts:
        case.assertEqual((parts, panels), ({}, []))


def _check_drawing(case: unittest.TestCase, root: ElementTree.Element, steps: Sequence[Step]) -> None:
    """A drawing calls panels and offcuts what the steps call them, and numbers the cuts as the steps are."""
    rects = list(root.iter(f"{SVG}rect"))
    titles = {it.findtext(f"{SVG}title") for it in rects}
    for piece in (it for step in steps for it in step.leaves):
        if piece.role in ("panel", "offcut"):
            turned = ", turned" if piece.is_turned else ""
            case.assertIn(f"{piece.role} {piece.name}, {piece.width} x {piece.height}{turned}", titles)
    blades = [it for it in rects if it.get("fill") == "#b3261e"]
    case.assertEqual(len(blades), len(steps))
    for text in root.iter(f"{SVG}text"):
        if text.get("fill") == "#b3261e":
            blade = blades[int(text.text or "") - 1]
            for at, side in (("x", "width"), ("y", "height")):
                low, place = float(blade.get(at, "")), float(text.get(at, ""))
                case.assertTrue(low - 0.01 <= place <= low + float(blade.get(side, "")) + 0.01, text.text)
