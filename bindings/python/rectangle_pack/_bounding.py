"""The call that says how few bins will do, whatever packer is taken."""
from __future__ import annotations

import ctypes
from collections.abc import Iterable, Mapping, Sequence
from typing import Any

from . import _library
from ._collection import Collection
from ._numbers import Size
from ._stock import Offer, Stock
from ._turning import turns_in_order
from ._types import Bin, Box, BoxName, Groups, Pairs, Turning


def turns_as_c(turns: Sequence[int]) -> tuple[object, int]:
    """How boxes may be turned as C takes it, and how many these are: none where no box may be turned."""
    turns = turns if any(turns) else []
    return _library.listed(_library.RpTurns, ((it,) for it in turns)), len(turns)


def _ask(offer: Offer, collection: Collection[Any], turns: Sequence[int]) -> int | None:
    """How many of these bins are needed; None where there is no packing."""
    least = ctypes.c_size_t()
    status = _library.call("least_bins", *offer.as_c(), collection.as_c(), *turns_as_c(turns), least)
    if status == _library.NOT_ENOUGH_SPACE:
        return None
    _library.check(status)
    return least.value


def least_of(stock: Stock, collection: Collection[Any], turns: Sequence[int] = ()) -> int | None:
    """How many bins are needed. No packing uses more bins than it has boxes. Where so many of each kind are offered, and no more
    are needed, a packing that uses more of them needs more bins than that too."""
    boxes = max(collection.entry_count(), 1)
    most = 1 if stock.is_open else boxes
    while True:
        least = _ask(stock.offer(stock.most(most)), collection, turns)
        if most >= boxes or least is not None and least <= most:
            return least
        most = min(2 * most, boxes)


def least_of_bins(bins: Iterable[Bin], collection: Collection[Any]) -> int | None:
    """The same of bins without names."""
    return least_of(Stock(bins), collection)


def least_of_box(bins: Iterable[Bin], size: Size) -> int | None:
    """The same of one box."""
    return least_of_bins(bins, Collection([Box(*size)], {}, ()))


def least_bins(
    bins: Mapping[Any, Bin] | Sequence[Bin], boxes: Mapping[BoxName, Box] | Sequence[Box], *,
    groups: Groups[Any] | None = None, exclude: Pairs = (), turn: Turning[Any] = "none",
) -> int | None:
    """How many of these bins are needed at least, whatever packer places all boxes: no packing uses fewer, with straight cuts or
    without. None where no packer can place them.

    >>> from rectangle_pack import Bin, Box, least_bins
    >>> least_bins({"page": Bin(10, 10, count=None)}, [Box(6, 6), Box(6, 6), Box(6, 6)])
    3

    Bins, boxes, groups and exclude are as those of pack, and turn is as that of check. Boxes of one group may be in different
    bins here; groups that are excluded may not share one. The number is a lower bound: more bins may be needed.

    Raises OutOfMemory or TooMany; and before anything is looked at UnknownTurn, UnknownBox, UnknownGroup or EqualGroups, which are
    ValueErrors, and ValueError or TypeError as pack does."""
    stock = Stock(bins)
    collection: Collection[Any] = Collection(boxes, groups or {}, exclude)
    return least_of(stock, collection, turns_in_order(collection.names, turn))
