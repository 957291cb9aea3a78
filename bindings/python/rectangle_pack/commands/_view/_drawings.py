"""A table as the example programs print it: bins, boxes and free sections, as rows among lines for people."""
from __future__ import annotations

import dataclasses
from dataclasses import dataclass, field
from pathlib import Path

from .._common import Wrong
from .._scale import Scale
from .._scene import Item, Part, Room, Scene, Step, scale_of
from ._overlaps import first_overlap
from ._plans import Plan

__all__ = ["read_drawings"]

MOST = 2**32 - 1
HIGHEST = 2**64 - 1


@dataclass
class _Drawing:
    """The rows of one drawing."""

    title: str
    rooms: dict[str, Room] = field(default_factory=dict)
    items: dict[int, Item] = field(default_factory=dict)
    lines: dict[int, int] = field(default_factory=dict)
    free: dict[str, list[Part]] = field(default_factory=dict)
    plans: dict[str, Plan] = field(default_factory=dict)
    plan: Plan | None = None


def _numbers(words: list[str], count: int) -> list[int] | None:
    """So many whole numbers, where the words are these."""
    if len(words) != count or not all(word.isascii() and word.isdigit() for word in words):
        return None
    numbers = [int(word) if len(word) < 20 else MOST + 1 for word in words]
    if max(numbers) > MOST:
        raise Wrong(f"a number is greater than {MOST}")
    return numbers


def _triples(numbers: list[int]) -> Part:
    x, y, z, width, height, depth = numbers
    return (x, y, z), (width, height, depth)


class _Reader:
    """The drawings, as far as they are read. The last one takes the next row."""

    def __init__(self, lengths: Scale) -> None:
        self.drawings = [_Drawing("")]
        self.lengths = lengths

    def take(self, line: str, number: int) -> None:
        """Takes a line. One that is no row is for people."""
        words, drawing = line.split(), self.drawings[-1]
        if drawing.plan and drawing.plan.take(line):
            return
        if words[:1] == ["=="]:
            self.drawings.append(_Drawing(" ".join(words[1:])))
        elif words[:1] == ["--"]:
            self._begin_plan(drawing, "-".join(words[1:]))
        elif words[:1] == ["bin"]:
            self._bin(drawing, words)
        elif words[:1] == ["free"]:
            self._free(drawing, words)
        elif len(words) in (9, 10) and words[0].isascii() and words[0].isdigit():
            self._placement(drawing, words, number)

    def _begin_plan(self, drawing: _Drawing, name: str) -> None:
        room = drawing.rooms.get(name)
        drawing.plan = Plan(name, self.lengths, [((0, 0, 0), room.size)]) if room and room.size[2] == 1 else None
        if drawing.plan:
            drawing.plans[name] = drawing.plan

    @staticmethod
    def _bin(drawing: _Drawing, words: list[str]) -> None:
        size = _numbers(words[2:5], 3)
        if size:
            name, (width, height, depth) = words[1], size
            if name in drawing.rooms:
                raise Wrong(f"the bin {name} has a row before this")
            drawing.rooms[name] = Room(name, (width, height, depth))

    @staticmethod
    def _free(drawing: _Drawing, words: list[str]) -> None:
        numbers = _numbers(words[2:8], 6)
        if numbers:
            part = _triples(numbers)
            _look_inside(drawing, words[1], part, "the free section")
            drawing.free.setdefault(words[1], []).append(part)

    @staticmethod
    def _placement(drawing: _Drawing, words: list[str], line: int) -> None:
        numbers, number = _numbers(words[3:9], 6), int(words[0][:25])
        if not numbers:
            return
        if number > HIGHEST:
            raise Wrong(f"the placement's number is greater than {HIGHEST}")
        if number in drawing.items:
            raise Wrong(f"placement {number} has a row before this")
        part = _triples(numbers)
        _look_inside(drawing, words[2], part, f"placement {number}")
        drawing.items[number] = Item(number, words[1], words[2], *part, words[9] if len(words) == 10 else "")
        drawing.lines[number] = line


def _look_inside(drawing: _Drawing, name: str, part: Part, what: str) -> None:
    """Refuses a part whose bin has no row, or that is not inside its bin."""
    if name not in drawing.rooms:
        raise Wrong(f"{what} names the bin {name}, which has no row before this")
    if any(low + side > most for low, side, most in zip(*part, drawing.rooms[name].size)):
        raise Wrong(f"{what} is not inside the bin {name}")


def _look_over(drawing: _Drawing, path: str | Path) -> None:
    """Refuses boxes that share a cell. No packing has some: but a table comes from anywhere."""
    for room in drawing.rooms.values():
        pair = first_overlap([it for it in drawing.items.values() if it.bin == room.name])
        if pair:
            one, other = sorted(pair, key=lambda it: drawing.lines[it.number])
            raise Wrong(f"placement {other.number} shares a cell with {one.number}", path, drawing.lines[other.number])


def _scene_of(drawing: _Drawing, title: str, unit: str) -> Scene:
    """A step for each box, by their numbers. What is free is known of the end."""
    items = [drawing.items[number] for number in sorted(drawing.items)]
    steps = [Step(f"{it.name} in {it.bin}", [it]) for it in items] or [Step("no box")]
    steps[-1] = dataclasses.replace(steps[-1], free=drawing.free)
    cuts = {name: plan.cuts for name, plan in drawing.plans.items() if plan.found}
    return Scene(drawing.title or title, list(drawing.rooms.values()), steps, cuts, unit)


def read_drawings(data: bytes, path: str | Path, title: str, unit: str) -> list[Scene]:
    """The scene of each drawing that has a bin. Raises Wrong where a row cannot be, and where there is no bin."""
    try:
        text = data.decode("utf-8-sig")
    except UnicodeDecodeError:
        raise Wrong("is no text in UTF-8", path) from None
    reader = _Reader(scale_of(unit))
    for number, line in enumerate(text.split("\n"), 1):
        try:
            reader.take(line, number)
        except Wrong as why:
            raise Wrong(str(why), path, number) from None
    drawings = [drawing for drawing in reader.drawings if drawing.rooms]
    if not drawings:
        raise Wrong("has no row `bin NAME W H D`", path)
    for drawing in drawings:
        _look_over(drawing, path)
    return [_scene_of(drawing, title, unit) for drawing in drawings]
