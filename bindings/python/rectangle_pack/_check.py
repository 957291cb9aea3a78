"""The call that judges a packing, whoever made it."""
from __future__ import annotations

from collections import Counter
from collections.abc import Hashable, Iterable, Mapping, Sequence
from typing import Any

from . import _library
from ._collection import Collection
from ._faults import Fault, FaultKind
from ._numbers import check_rows
from ._stock import Stock
from ._turning import turn_numbers
from ._types import Bin, BinName, Box, BoxName, Groups, Pairs, Placement, Section, Turning

_Placements = Sequence[Placement[BoxName, BinName]]


class _Boxes:
    """The boxes that are to be placed: an entry for each, and one for each further group of a box."""

    def __init__(self, collection: Collection[Any], turn: Turning[Any]) -> None:
        self._collection = collection
        self.entries = collection.entries()
        self._indices = self._by_names()
        self._turns = turn_numbers(collection.names, turn)

    def _by_names(self) -> dict[tuple[Any, Hashable], list[int]]:
        """The indices of the entries by name and group, and by the name alone where a box is placed once."""
        indices: dict[tuple[Any, Hashable], list[int]] = {}
        by_name: dict[Any, list[int]] = {}
        for index, (name, group, _) in enumerate(self.entries):
            indices.setdefault((name, group), []).append(index)
            by_name.setdefault(name, []).append(index)
        for name, own in by_name.items():
            if len(own) == 1:
                indices[name, None] = own
        return indices

    def rows(self) -> list[tuple[int, ...]]:
        """The entries as C takes them."""
        number_of = self._collection.number_of
        return [(*size, number_of(group), self._turns[name]) for name, group, size in self.entries]

    def indices(self, placements: _Placements[Any, Any]) -> list[int]:
        """For each placement the index of its entry, and one behind all where there is none. Where a group names a box several
        times its placements take these in turn; those that are too many take the first."""
        found, taken = [], Counter[tuple[Any, Hashable]]()
        for it in placements:
            own = self._indices.get((it.name, it.group), [len(self.entries)])
            number = taken[it.name, it.group]
            taken[it.name, it.group] += 1
            found.append(own[number if number < len(own) else 0])
        return found


def _claims(
    placements: _Placements[Any, Any], ids: Mapping[tuple[Any, int], int], boxes: _Boxes,
) -> list[tuple[int, ...]]:
    """The placements as C takes them. A bin that is not there has an index behind all others."""
    return [
        (index, ids.get((it.bin, it.copy), len(ids)), *it.section)
        for index, it in zip(boxes.indices(placements), placements)]


def _check_numbers(placements: _Placements[Any, Any]) -> None:
    rows = [(*it.section, it.copy) for it in placements]
    check_rows("placement of box", [it.name for it in placements], (*Section._fields, "copy"), rows)


def _fault(
    found: _library.RpFault, placements: _Placements[BoxName, BinName], boxes: _Boxes,
) -> Fault[BoxName, BinName] | None:
    """What the library found, by names."""
    if found.kind == 0:
        return None
    kind = FaultKind(found.kind)
    if kind is FaultKind.not_placed:
        name, group, _ = boxes.entries[found.first]
        return Fault(kind, box=name, group=group)
    first = placements[found.first]
    is_of_two = kind.value >= FaultKind.placed_twice.value
    return Fault(kind, first, placements[found.second] if is_of_two else None)


def check(
    bins: Mapping[Any, Bin] | Sequence[Bin], boxes: Mapping[Any, Box] | Sequence[Box],
    placements: Iterable[Placement[BoxName, BinName]], *, groups: Groups[Any] | None = None, exclude: Pairs = (),
    turn: Turning[Any] = "none",
) -> Fault[BoxName, BinName] | None:
    """The first fault of a packing, whoever made it. None says that it is one: each box is placed once, in its size, inside its
    bin; no two share a cell; each group is in one bin; and no two groups that are excluded share one.

    Bins, boxes, groups and exclude are as those of pack. There is a placement for each box, and one for each further group that
    a box is in, in any order. Its width, height and depth are those in which the box stands. Where a box is placed once the
    group of its placement may be None.

    >>> from rectangle_pack import Bin, Box, Placement, check
    >>> hat, cap = Placement("hat", None, "page", 0, 0, 0, 10, 20, 1), Placement("cap", None, "page", 5, 5, 0, 4, 4, 1)
    >>> fault = check({"page": Bin(64, 64)}, {"hat": Box(10, 20), "cap": Box(4, 4)}, [hat, cap])
    >>> fault.kind.name
    'shares_cell'
    >>> print(fault)
    'hat' and 'cap' share a cell of bin 'page': (0, 0, 0) 10x20x1 and (5, 5, 0) 4x4x1

    turn says which sides of boxes may change places: "flat" width and height, "upright" width and depth, "any" all three,
    "none" none. It is one word for all boxes, or a word for each box by name. Boxes that are not named stand as they are. Whether a
    placement says that its box is turned does not count.

    The fault is that of the first placement that may not stand with those before it: what is wrong with it alone, or else
    beside earlier ones, in the order of FaultKind and with the first of them. Where all may stand it is the first box that is
    not placed.

    Raises OutOfMemory or TooMany; before anything is looked at UnknownTurn, UnknownBox, UnknownGroup or EqualGroups, which are
    ValueErrors; and ValueError or TypeError where a size or a corner is not of numbers of 32 bits."""
    stock, given = Stock(bins), list(placements)
    collection: Collection[Any] = Collection(boxes, groups or {}, exclude)
    to_place = _Boxes(collection, turn)
    _check_numbers(given)
    offer, ids = stock.only((it.bin, it.copy) for it in given)
    entries, claims, found = to_place.rows(), _claims(given, ids, to_place), _library.RpFault()
    _library.check(_library.call(
        "check", *offer.as_c(), _library.listed(_library.RpEntry, entries), len(entries),
        _library.listed(_library.RpExclusion, collection.excluded), len(collection.excluded),
        _library.listed(_library.RpClaim, claims), len(claims), found))
    return _fault(found, given, to_place)
