"""What a packing is given: names become the numbers that the library knows."""
from __future__ import annotations

from collections.abc import Hashable, Iterable, Mapping
from typing import Any, Generic, NoReturn, TypeVar, get_args

from . import _library
from ._errors import EqualGroups, UnknownBox, UnknownGroup, UnknownHeuristic
from ._numbers import SIDES, Size, check_rows
from ._types import Bin, Box, BoxName, Groups, Heuristic, Pairs

_Value = TypeVar("_Value")

# By their numbers.
HEURISTICS: tuple[Heuristic, ...] = get_args(Heuristic)

_NUMBERS: Mapping[str, int] = {**{name: number for number, name in enumerate(HEURISTICS)}, "best": 0xFFFF}


def heuristic_number(heuristic: str) -> int:
    """The number of a heuristic. Raises UnknownHeuristic."""
    try:
        return _NUMBERS[heuristic]
    except (KeyError, TypeError):
        raise UnknownHeuristic(heuristic) from None


def items_of(values: Mapping[Any, _Value] | Iterable[_Value]) -> Iterable[tuple[Any, _Value]]:
    """The values, each with its name: its key in a mapping, else its index."""
    return values.items() if isinstance(values, Mapping) else enumerate(values)


def bin_of(name: Hashable, size: Iterable[Any]) -> Bin:
    """A bin, which may be given as a plain tuple."""
    if type(size) is Bin:
        return size
    try:
        return Bin(*size)
    except TypeError:
        raise TypeError(f"bin {name!r}: {size!r} is no bin: write Bin(width, height)") from None


def box_of(name: Hashable, box: Iterable[Any]) -> Box:
    """A box, which may be given as a plain tuple."""
    if type(box) is Box:
        return box
    try:
        return Box(*box)
    except TypeError:
        raise TypeError(f"box {name!r}: {box!r} is no box: write Box(width, height)") from None


def _refuse_pair(pair: object) -> NoReturn:
    raise TypeError(f"{pair!r} is no pair of groups: write exclude=[('food', 'paint')]")


class Collection(Generic[BoxName]):
    """Boxes with their groups, and pairs of groups that are excluded.

    The boxes have the indices 0, 1, 2 and so on, in their order. The groups have the numbers 1, 2, 3 and so on, in the order in
    which they are named: by the boxes, then by the mapping of groups. The first group of a box is its own. For each further one
    the box is a member there."""

    def __init__(self, boxes: Mapping[BoxName, Box] | Iterable[Box], groups: Groups[BoxName], exclude: Pairs) -> None:
        named = [(name, box_of(name, box)) for name, box in items_of(boxes)]
        self.names: list[BoxName] = [name for name, _ in named]
        self._sizes: list[Size] = [box[:3] for _, box in named]
        check_rows("box", self.names, SIDES, self._sizes)
        self._groups = [box.group for _, box in named]
        self._members: list[tuple[int, Hashable]] = []
        # A box that is in no group has the number 0 there.
        self._numbers: dict[Hashable, int] = {None: 0}
        self._number_own()
        if groups:
            self._add_groups(groups)
        # The pairs, by the numbers of the groups.
        self.excluded = [self._pair(pair) for pair in exclude]

    def _number_own(self) -> None:
        """Numbers the groups that boxes say themselves."""
        for name, group in zip(self.names, self._groups):
            if group is not None:
                try:
                    self._number(group)
                except TypeError as why:
                    raise TypeError(f"box {name!r}: group {group!r} cannot be a name: {why}") from None

    def _number(self, group: Hashable) -> None:
        """Gives a group the next number, where it was not named before."""
        if group is None:
            raise ValueError("None is not the name of a group")
        self._numbers.setdefault(group, len(self._numbers))

    def _add_groups(self, groups: Groups[BoxName]) -> None:
        if isinstance(groups, (str, bytes)):
            raise TypeError(f"{groups!r} has no groups: write groups={{'hats': ['hat', 'cap']}}")
        indices = {name: index for index, name in enumerate(self.names)}
        for group, names in items_of(groups):
            self._number(group)
            # A text would be read letter by letter.
            if isinstance(names, (str, bytes)) or not isinstance(names, Iterable):
                raise TypeError(f"group {group!r}: {names!r} is no list of boxes: write [{names!r}]")
            for name in names:
                if name not in indices:
                    raise UnknownBox(name, group)
                self._add(indices[name], group)

    def _add(self, index: int, group: Hashable) -> None:
        if self._groups[index] is None:
            self._groups[index] = group
        else:
            self._members.append((index, group))

    def _pair(self, pair: tuple[Hashable, Hashable]) -> tuple[int, int]:
        if isinstance(pair, (str, bytes)):
            _refuse_pair(pair)
        try:
            one, other = pair
        except (TypeError, ValueError):
            _refuse_pair(pair)
        if one is None or other is None:
            raise ValueError("None is not the name of a group")
        if len({one, other}) == 1:
            raise EqualGroups(one)
        for group in (one, other):
            if group not in self._numbers:
                raise UnknownGroup(group)
        return self._numbers[one], self._numbers[other]

    def entries(self) -> list[tuple[BoxName, Hashable, Size]]:
        """The name, the group and the size of each box, and then those of each member."""
        own = zip(self.names, self._groups, self._sizes)
        return [*own, *((self.names[index], group, self._sizes[index]) for index, group in self._members)]

    def group_names(self) -> list[Hashable]:
        """The names of all groups, also of those without boxes."""
        return [group for group in self._numbers if group is not None]

    def entry_count(self) -> int:
        """How many entries there are."""
        return len(self._sizes) + len(self._members)

    def group_count(self) -> int:
        """How many groups have boxes, a box that is alone as one."""
        named = {*self._groups, *(group for _, group in self._members)}
        return self._groups.count(None) + len(named - {None})

    def cells(self) -> int:
        """The cells of all entries."""
        return sum(width * height * depth for _, _, (width, height, depth) in self.entries())

    def number_of(self, group: Hashable) -> int:
        """The number of a group that was named; 0 for None, as where a box is alone."""
        return self._numbers[group]

    def as_c(self) -> _library.RpCollection:
        """The collection as C takes it."""
        numbers = map(self.number_of, self._groups)
        boxes = ((*size, number) for size, number in zip(self._sizes, numbers))
        members = ((index, self.number_of(group)) for index, group in self._members)
        return _library.RpCollection(
            _library.listed(_library.RpBox, boxes), len(self._sizes),
            _library.listed(_library.RpMember, members), len(self._members),
            _library.listed(_library.RpExclusion, self.excluded), len(self.excluded))
