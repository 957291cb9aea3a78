"""Sessions in files: JSON with the bins, their free sections, the outstanding placements and the next number."""
from __future__ import annotations

import json
from collections.abc import Hashable, Mapping, Sequence
from typing import Any, NamedTuple

from . import _library
from ._errors import NotASession
from ._numbers import MOST, MOST_OF_64, SIDES, number
from ._types import Bin, Section

# What a file says that it is. Files of a later version are refused.
_FORMAT, _VERSION = "session", 1


class SavedBin(NamedTuple):
    """A bin: its name, its size and its cost, whether it counts as coalesced, and its free sections."""
    name: Hashable
    size: Bin
    coalesced: bool
    free: Sequence[Section]


class SavedPlacement(NamedTuple):
    """An outstanding placement: its number, the name and the group of its box, the place of its bin in the list, where it stands
    there, and whether it is turned."""
    number: int
    name: Hashable
    group: Hashable
    bin: int
    section: Section
    turned: bool = False


class Saved(NamedTuple):
    """The parts of a session. The bins stand in the order in which they were added, the placements in that of their numbers."""
    bins: Sequence[SavedBin]
    placements: Sequence[SavedPlacement]
    next_number: int

    def text(self) -> str:
        """The text of the file."""
        bins = [
            {"name": _written(it.name), **_sides(it.size), "coalesced": it.coalesced, "free": it.free} for it in self.bins]
        placements = [
            {"number": it.number, "name": _written(it.name), "group": _written(it.group), "bin": it.bin, "at": it.section,
             **({"turned": True} if it.turned else {})}
            for it in self.placements]
        whole = {
            "rectangle_pack": _FORMAT, "version": _VERSION, "next_number": self.next_number, "bins": bins,
            "placements": placements}
        return json.dumps(whole, ensure_ascii=False, separators=(",", ":")) + "\n"


def _sides(size: Bin) -> dict[str, int]:
    """The sides of a bin, and its cost where that is not 1."""
    sides = dict(zip(SIDES, size[:3]))
    return sides if size.cost == 1 else {**sides, "cost": size.cost}


def _written(name: Hashable) -> Any:
    """A name as the file has it: a tuple is a list."""
    if name is None or isinstance(name, (str, int)):
        return name
    if isinstance(name, tuple):
        return [_written(it) for it in name]
    raise TypeError(f"a name that cannot be saved: {name!r}")


class _Value:
    """A value of a file, and where it stands there: bins[0].free[2]"""

    def __init__(self, value: Any, where: str = "") -> None:
        self._value, self._where = value, where

    def wrong(self, why: str) -> NotASession:
        return NotASession(f"{self._where} {why}".lstrip())

    def __getitem__(self, name: str) -> _Value:
        if not isinstance(self._value, dict) or name not in self._value:
            raise self.wrong(f"has no {name}")
        return _Value(self._value[name], f"{self._where}.{name}".lstrip("."))

    def get(self, name: str, default: Any) -> _Value:
        """The field of this name, which may be left out."""
        value = self._value.get(name, default) if isinstance(self._value, dict) else default
        return _Value(value, f"{self._where}.{name}".lstrip("."))

    def items(self) -> list[_Value]:
        if not isinstance(self._value, list):
            raise self.wrong("is no list")
        return [_Value(it, f"{self._where}[{index}]") for index, it in enumerate(self._value)]

    def number(self, most: int = MOST) -> int:
        try:
            return number(self._value, self._where, most)
        except (TypeError, ValueError) as why:
            raise NotASession(str(why)) from None

    def truth(self) -> bool:
        if not isinstance(self._value, bool):
            raise self.wrong("is neither true nor false")
        return self._value

    def is_text(self, text: str) -> bool:
        return bool(self._value == text)

    def name(self) -> Hashable:
        if isinstance(self._value, list):
            return tuple(it.name() for it in self.items())
        if self._value is None or isinstance(self._value, (str, int)):
            return self._value
        raise self.wrong("is no name")

    def section(self) -> Section:
        sides = self.items()
        if len(sides) != len(Section._fields):
            raise self.wrong("has not six numbers: a corner and a size")
        return Section(*(it.number() for it in sides))


def _bin(it: _Value) -> SavedBin:
    width, height, depth = (it[side].number() for side in SIDES)
    size = Bin(width, height, depth, cost=it.get("cost", 1).number(MOST_OF_64))
    return SavedBin(it["name"].name(), size, it["coalesced"].truth(), [one.section() for one in it["free"].items()])


def _placement(it: _Value) -> SavedPlacement:
    return SavedPlacement(
        it["number"].number(MOST_OF_64), it["name"].name(), it["group"].name(), it["bin"].number(), it["at"].section(),
        it.get("turned", False).truth())


def saved_of(text: str) -> Saved:
    """What the text of a file says. Raises NotASession."""
    try:
        whole = _Value(json.loads(text))
    except ValueError as why:
        raise NotASession(f"no JSON: {why}") from None
    except RecursionError:
        raise NotASession("nested too deeply") from None
    if not whole["rectangle_pack"].is_text(_FORMAT):
        raise NotASession(f'rectangle_pack is not "{_FORMAT}"')
    version = whole["version"].number()
    if version != _VERSION:
        raise NotASession(f"version {version}, and only {_VERSION} is known")
    saved = Saved(
        [_bin(it) for it in whole["bins"].items()], [_placement(it) for it in whole["placements"].items()],
        whole["next_number"].number(MOST_OF_64))
    _look_for_equal_names(saved)
    return saved


def _look_for_equal_names(saved: Saved) -> None:
    first: dict[Hashable, int] = {}
    for index, it in enumerate(saved.bins):
        if first.setdefault(it.name, index) != index:
            raise NotASession(f"bins[{index}].name is that of bins[{first[it.name]}]")


def as_c(saved: Saved) -> _library.RpSaved:
    """The parts as C takes them. The ids of bins are their places in the list."""
    sections = [section for it in saved.bins for section in it.free]
    bins = [(index, *it.size[:3], int(it.coalesced), len(it.free)) for index, it in enumerate(saved.bins)]
    placements = [(it.number, 0, it.bin, *it.section) for it in saved.placements]
    return _library.RpSaved(
        _library.listed(_library.RpSavedBin, bins), len(bins), _library.listed(_library.RpSection, sections), len(sections),
        _library.listed(_library.RpStanding, placements), len(placements), saved.next_number)


def _box(saved: Saved, bin: int, index: int) -> str:
    """Where a box of a bin stands in the file: free sections come first, and then placements."""
    free = len(saved.bins[bin].free)
    if index < free:
        return f"bins[{bin}].free[{index}]"
    here = [place for place, it in enumerate(saved.placements) if it.bin == bin]
    return f"placements[{here[index - free]}]"


# What each number of the library says, of a placement or of boxes of a bin.
_WRONG: Mapping[int, str] = {
    3: "placements[{first}].number is not above that of an earlier one",
    4: "placements[{first}].number is not below next_number",
    5: "placements[{first}].bin is that of no bin",
    6: "{one} is not inside bins[{bin}]",
    7: "{one} and {other} share a cell",
    8: "some cell of bins[{bin}] is in none of its free sections and placements",
    9: "bins[{bin}] does not count as coalesced, and no straight cuts part it",
}


def what_is_wrong(saved: Saved, wrong: _library.RpWrong) -> NotASession:
    """What the library found wrong with parts, by their places in the file."""
    told: dict[str, object] = {"bin": wrong.bin, "first": wrong.first}
    if wrong.kind in (6, 7):
        told.update(one=_box(saved, wrong.bin, wrong.first), other=_box(saved, wrong.bin, wrong.second))
    return NotASession(_WRONG[wrong.kind].format(**told))
