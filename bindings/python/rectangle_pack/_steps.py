"""The steps of packings as they are told, and why one is refused."""
from __future__ import annotations

from collections.abc import Callable, Hashable, Iterable, Mapping
from typing import Any, Literal, get_args

from . import _library
from ._collection import Collection, heuristic_number
from ._errors import PackError, UnknownGroup, UnknownHeuristic
from ._numbers import number
from ._types import AnyStep, Step

# Why a step is refused, in the order of the library's numbers, which begin with 1.
Refusal = Literal["unknown bin", "named twice", "excluded", "no room"]

_REFUSALS: tuple[Refusal, ...] = get_args(Refusal)

_WHY: Mapping[str, str] = {
    "unknown bin": "there is no such bin",
    "named twice": "an earlier step names the group",
    "excluded": "a group that is excluded with it went into the bin",
    "no room": "the bin does not take all of its boxes, as the steps before left it",
}


class StepRefused(PackError):
    """A step cannot be done, and so nothing is packed. index says which step, the first of those, step what it says, and reason
    why: "unknown bin"; "named twice", as an earlier step names the group; "excluded", as a group that is excluded with this one
    went into the bin; or "no room", as the bin, as the steps before left it, does not take all boxes of the group."""

    text = "A step cannot be done"

    def __init__(self, index: int, step: Step, reason: Refusal) -> None:
        super().__init__(index, step, reason)
        self.index, self.step, self.reason = index, step, reason

    def __str__(self) -> str:
        group, bin, _, copy = self.step
        home = f"{bin!r} (copy {copy})" if copy else repr(bin)
        return f"{self.text}: steps[{self.index}], {group!r} into bin {home}: {_WHY[self.reason]}"


def _step_of(index: int, step: Any) -> Step:
    """A step, which may be given as a plain tuple."""
    try:
        if isinstance(step, (str, bytes)):
            raise TypeError
        told = Step(*step)
    except TypeError:
        raise TypeError(f"steps[{index}]: {step!r} is no step: write ('hats', 'page')") from None
    number(told.copy, f"steps[{index}]: copy")
    if heuristic_number(told.heuristic) == heuristic_number("best"):
        raise UnknownHeuristic(told.heuristic)
    return told


class Steps:
    """The steps of a packing, and the groups that they name."""

    def __init__(self, collection: Collection[Any], steps: Iterable[AnyStep]) -> None:
        if isinstance(steps, (str, bytes)):
            raise TypeError(f"{steps!r} has no steps: write [('hats', 'page')]")
        self.steps = [_step_of(index, step) for index, step in enumerate(steps)]
        self._heuristics = [heuristic_number(it.heuristic) for it in self.steps]
        self._entries = _entries_by_name(collection)
        self._indices = [self._entry_of(index, it.group) for index, it in enumerate(self.steps)]

    def _entry_of(self, index: int, name: Hashable) -> int:
        """An entry of the group of this name, or of the box that is alone."""
        try:
            groups = self._entries.get(name)
        except TypeError:
            raise TypeError(f"steps[{index}]: {name!r} cannot be a name") from None
        if groups is None:
            raise UnknownGroup(name)
        if len(groups) > 1:
            raise ValueError(f"steps[{index}]: {name!r} may mean several groups: take a name that only one of them has")
        (entry,) = groups.values()
        if entry is None:
            raise ValueError(f"steps[{index}]: group {name!r} has no boxes")
        return entry

    def as_c(self, bin_number: Callable[[Step], int]) -> tuple[object, int]:
        """The steps as C takes them, with the numbers of their bins."""
        rows = zip(self._indices, map(bin_number, self.steps), self._heuristics)
        return _library.listed(_library.RpStep, rows), len(self.steps)

    def check(self, status: int, refused: _library.RpRefused) -> None:
        """Raises the error of a status. Nothing is wrong with the lists, so it is that of a step, or memory."""
        if status == _library.STEP_REFUSED:
            index: int = refused.step
            raise StepRefused(index, self.steps[index], _REFUSALS[refused.fault - 1])
        _library.check(status)


def _entries_by_name(collection: Collection[Any]) -> dict[Hashable, dict[Hashable, int | None]]:
    """What each name may mean: the groups of this name, and those of the box of this name, each with the index of an entry, or
    None where it has none. A box that is alone is a group for itself, by its index."""
    entries: dict[Hashable, dict[Hashable, int | None]] = {}
    of_groups: dict[Hashable, int | None] = dict.fromkeys(collection.group_names())
    for index, (name, group, _) in enumerate(collection.entries()):
        key = ("alone", index) if group is None else ("group", group)
        entries.setdefault(name, {})[key] = index
        if group is not None:
            of_groups[group] = index
    for group, entry in of_groups.items():
        entries.setdefault(group, {})["group", group] = entry
    return entries
