"""A file of packrun's commands, done once more by a Session: each command becomes a step of the scene."""
from __future__ import annotations

from collections.abc import Iterable, Sequence
from pathlib import Path

from ... import (
    Box, DuplicateBin, NotEnoughBinSpace, NumbersUsedUp, Outstanding, PackError, Section, Session, UnknownBin, UnknownPlacement,
)
from .._common import Wrong
from .._scene import Item, Part, Room, Scene, Step
from ._lines import BadLine, Line, read_line, split_lines
from ._waiting import Waiting

__all__ = ["replayed"]

# So many free sections are told of all steps together. A run of many thousand commands in long lists would take minutes.
MOST_SECTIONS = 1_000_000


class _ByName(Session[str]):
    """A session that tries bins of equal volume by their names, as packrun does. The library goes by ids, so these stand in the
    order of the names. All names that will come are known at the start."""

    def __init__(self, names: Iterable[str]) -> None:
        super().__init__()
        self._order = {name: id for id, name in enumerate(sorted(set(names)))}

    def _new_id(self, bin: str) -> int:
        return self._order[bin]


class _Replay:
    """A session, what waits for its next packing, and the bins that were added so far."""

    def __init__(self, lines: Sequence[Line]) -> None:
        self.session = _ByName(line.names[0] for line in lines if line.verb == "bin")
        self.waiting = Waiting()
        self.rooms: list[Room] = []
        self._steps = 0
        # The bin of each placement that is outstanding.
        self._homes: dict[int, str] = {}
        # Equal sections are kept once: the lists of a long run have most of them in common.
        self._parts: dict[Section, Part] = {}
        # How many sections were told, and up to which step.
        self._told = 0
        self._told_to = 0
        self._calls = {
            "bin": self._bin, "rect": self._rect, "exclude": self._exclude, "pack": self._pack, "release": self._release,
            "coalesce": self._coalesce, "sweep": self._sweep, "sections": self._sections, "stats": self._stats,
        }

    def step(self, line: Line) -> Step:
        """Does a command. What it says and changes."""
        try:
            step = self._calls[line.verb](line)
        except (DuplicateBin, UnknownBin, UnknownPlacement, NotEnoughBinSpace, NumbersUsedUp) as why:
            note = self.waiting.says() if line.verb == "pack" else ""
            step = Step(line.text, answer=[f"refused: {_refusal(why, line)}"], refused=True, note=note)
        self._steps += 1
        return step

    def _bin(self, line: Line) -> Step:
        name, (width, height, depth) = line.names[0], line.numbers
        self.session.add_bin(name, width, height, depth)
        self.rooms.append(Room(name, (width, height, depth), since=self._steps))
        return self._changed(line, [name])

    def _rect(self, line: Line) -> Step:
        width, height, depth = line.numbers
        self.waiting.add(line.names[0], (width, height, depth), line.names[1:])
        return Step(line.text, answer=["ok"], note=self.waiting.says())

    def _exclude(self, line: Line) -> Step:
        self.waiting.exclude(*line.names)
        return Step(line.text, answer=["ok"], note=self.waiting.says())

    def _pack(self, line: Line) -> Step:
        entries, sizes = self.waiting.entries(), self.waiting.sizes
        boxes = [Box(*sizes[name], group=group or None) for name, group in entries]
        pairs = sorted(self.waiting.pairs)
        # A pair may name a group without boxes.
        packing = self.session.pack(boxes, groups={group: [] for pair in pairs for group in pair}, exclude=pairs)
        placed = [self._item(it, entries[it.name][0]) for it in sorted(packing, key=lambda it: it.number)]
        self.waiting = Waiting()
        self._homes.update((it.number, it.bin) for it in placed)
        rows = (" ".join(map(str, (it.number, it.name, it.bin, *it.at, *it.size))) for it in placed)
        free = self._free(dict.fromkeys(it.bin for it in placed))
        return Step(line.text, placed, free=free, answer=[*rows, f"packed {len(placed)}"])

    def _item(self, it: Outstanding[int, str], name: str) -> Item:
        return Item(it.number, name, it.bin, it.section[:3], it.section[3:], str(it.group or ""))

    def _release(self, line: Line) -> Step:
        number, = line.numbers
        self.session.release(number)
        name = self._homes.pop(number)
        return Step(line.text, released=[number], free=self._free([name]), answer=["ok"])

    def _coalesce(self, line: Line) -> Step:
        self.session.coalesce(line.names[0], *line.numbers)
        return self._changed(line, line.names)

    def _sweep(self, line: Line) -> Step:
        self.session.coalesce_all(line.names[0])
        return self._changed(line, line.names)

    def _sections(self, line: Line) -> Step:
        sections = self.session.free_sections(line.names[0])
        return Step(line.text, answer=[*(" ".join(map(str, it)) for it in sections), f"sections {len(sections)}"])

    def _stats(self, line: Line) -> Step:
        it = self.session.stats(line.names[0])
        free, placed = f"free {it.free_volume} in {it.free_sections}", f"placed {it.placed_volume} in {it.placements}"
        return Step(line.text, answer=[f"{free}, {placed}, bin {it.bin_volume}"])

    def _changed(self, line: Line, names: Iterable[str]) -> Step:
        return Step(line.text, free=self._free(names), answer=["ok"])

    def _free(self, names: Iterable[str]) -> dict[str, list[Part]]:
        """What is free in bins that changed, until too much was told."""
        if self._told > MOST_SECTIONS:
            return {}
        free = {name: [self._part(it) for it in self.session.free_sections(name)] for name in names}
        self._told += sum(map(len, free.values()))
        self._told_to = self._steps + 1
        return free

    def _part(self, section: Section) -> Part:
        return self._parts.setdefault(section, (section[:3], section[3:]))

    @property
    def facts(self) -> list[tuple[str, str]]:
        """What is said of the whole where not all is told."""
        return [("free sections", f"to step {self._told_to}")] if self._told > MOST_SECTIONS else []


def _refusal(why: PackError, line: Line) -> str:
    """What packrun says where it refuses a line."""
    if isinstance(why, DuplicateBin):
        return f"bin {line.names[0]} exists"
    if isinstance(why, UnknownBin):
        return f"bin {line.names[0]} is unknown"
    if isinstance(why, UnknownPlacement):
        return f"placement {line.numbers[0]} is unknown"
    if isinstance(why, NumbersUsedUp):
        return "numbers are used up"
    return "Not enough space to place all of the rectangles."


def _lines(data: bytes, path: str | Path) -> list[Line]:
    """The commands of a file. The first bad line refuses it, and those behind are not looked at."""
    found = []
    for number, text in split_lines(data):
        try:
            line = read_line(text)
        except BadLine as why:
            hint = "; a table is read with --table" if text[:1].isdigit() or text[:2] == b"==" else ""
            raise Wrong(f"the line is bad: {why}{hint}", path, number) from None
        if line is not None:
            found.append(line)
    if not found:
        raise Wrong("has no command", path)
    return found


def replayed(data: bytes, path: str | Path, title: str, unit: str) -> Scene:
    """The scene of a file of commands. Raises Wrong where a line is bad."""
    lines = _lines(data, path)
    replay = _Replay(lines)
    with replay.session:
        steps = [replay.step(line) for line in lines]
    refused = sum(step.refused for step in steps)
    facts = [("commands", str(len(steps))), ("refused", str(refused)), ("placed", str(sum(len(it.placed) for it in steps)))]
    return Scene(title, replay.rooms, steps, unit=unit, facts=facts + replay.facts)
