"""What lines tell of the next call, and the lists of it as the library for C takes them."""
from __future__ import annotations

import ctypes
import sys
from collections.abc import Callable, Iterable, Sequence
from dataclasses import dataclass, field
from pathlib import Path

TOP = Path(__file__).resolve().parent.parent
sys.path.insert(0, str(TOP / "bindings" / "python"))
from rectangle_pack import _library as c  # noqa: E402

__all__ = ["Asked", "Name", "Numbers", "c", "call", "empty", "listed"]

Numbers = tuple[int, ...]
# The name of a group: its number and 0, or 0 and the entry that is alone.
Name = tuple[int, int]


def _list(kind: type[ctypes.Structure]) -> list[type[object]]:
    return [ctypes.POINTER(kind), ctypes.c_size_t]


_SEARCH = [ctypes.POINTER(c.RpCollection), ctypes.POINTER(c.RpSearchOptions)]
# The calls that the module for Python does not need.
_MORE: dict[str, list[type[object]]] = {
    "boxes": [*_list(c.RpBin), *_list(c.RpBox), *_list(c.RpPlacement)],
    "searched": [*_list(c.RpBin), *_SEARCH, *_list(c.RpLocation), ctypes.POINTER(c.RpSearched)],
    "session_pack_searched": [ctypes.POINTER(c.RpSession), *_SEARCH, *_list(c.RpStanding), ctypes.POINTER(c.RpSearched)],
    "session_bin_size": [ctypes.POINTER(c.RpSession), ctypes.c_uint32, ctypes.POINTER(c.RpBin)],
}


def _loaded() -> dict[str, Callable[..., int]]:
    library = ctypes.CDLL(c._path())
    calls = dict(c.loaded())
    for name, arguments in _MORE.items():
        calls[name] = getattr(library, f"rectangle_pack_{name}")
        calls[name].argtypes = arguments  # type: ignore[attr-defined]
        calls[name].restype = ctypes.c_uint32  # type: ignore[attr-defined]
    return calls


_calls: dict[str, Callable[..., int]] = {}


def call(name: str, *arguments: object) -> int:
    """What the call of this name answers. The library is loaded at the first call."""
    if not _calls:
        _calls.update(_loaded())
    return _calls[name](*arguments)


def empty(kind: type[c.Entry], length: int) -> ctypes.Array[c.Entry]:
    """An array that a call writes to, with an entry more where it has none."""
    return (kind * max(length, 1))()


def listed(kind: type[c.Entry], rows: Sequence[Numbers]) -> tuple[object, int]:
    """The rows as a call takes them: where the first one is, and how many there are."""
    return c.listed(kind, rows), len(rows)


@dataclass
class Asked:
    """The boxes of the next call, the boxes that are in a group more, the groups that are excluded, the steps, how boxes may be turned,
    and what bins cost."""

    boxes: list[Numbers] = field(default_factory=list)
    members: list[Numbers] = field(default_factory=list)
    exclusions: list[Numbers] = field(default_factory=list)
    steps: list[Numbers] = field(default_factory=list)
    turns: dict[int, int] = field(default_factory=dict)
    costs: list[Numbers] = field(default_factory=list)

    def take(self, word: str, numbers: Numbers) -> bool:
        """Takes up a line. Tells whether it is one that has no answer."""
        lists = {"box": self.boxes, "member": self.members, "step": self.steps, "cost": self.costs}
        if word == "exclude":
            # What two more numbers name is a box alone, which is excluded with nothing in C.
            self.exclusions.append(numbers[:2])
        elif word == "turn":
            index, *about = numbers
            self.turns[index] = sum(bool(it) << axis for axis, it in enumerate(about))
        elif word in lists:
            lists[word].append(numbers)
        else:
            return False
        return True

    def count(self) -> int:
        """How many places a packing writes: boxes, and behind them members."""
        return len(self.boxes) + len(self.members)

    def size(self, entry: int) -> Numbers:
        """The sides of the box of a place."""
        boxes = len(self.boxes)
        return self.boxes[entry if entry < boxes else self.members[entry - boxes][0]][:3]

    def name(self, entry: int) -> Name:
        """The name of the group of a place."""
        boxes = len(self.boxes)
        group = self.boxes[entry][3] if entry < boxes else self.members[entry - boxes][1]
        return (group, 0) if group else (0, entry)

    def names(self, entries: Iterable[int]) -> list[Name]:
        """The names of their groups, each once."""
        return sorted({self.name(entry) for entry in entries})

    def first_box(self) -> Numbers:
        return self.boxes[0] if self.boxes else (0, 0, 0, 0)

    def collection(self) -> c.RpCollection:
        boxes, members = listed(c.RpBox, self.boxes), listed(c.RpMember, self.members)
        return c.RpCollection(*boxes, *members, *listed(c.RpExclusion, self.exclusions))

    def told(self) -> tuple[object, int]:
        """The steps: each names its group by the first place that is in it."""
        entries = {self.name(entry): entry for entry in reversed(range(self.count()))}
        rows = [(entries[(group, 0) if group else (0, box)], bin, heuristic) for group, box, bin, heuristic in self.steps]
        return listed(c.RpStep, rows)

    def turned(self) -> tuple[object, int]:
        """How boxes may be turned, up to the last one that may. A member is turned as its box."""
        may = [index for index, about in self.turns.items() if about and index < len(self.boxes)]
        return listed(c.RpTurns, [(self.turns.get(index, 0),) for index in range(max(may, default=-1) + 1)])

    def options(self, tries: int, seed: int, may_leave: int) -> c.RpSearchOptions:
        size = ctypes.sizeof(c.RpSearchOptions)
        return c.RpSearchOptions(size, tries, seed, may_leave, *self.turned(), *listed(c.RpCost, self.costs))
