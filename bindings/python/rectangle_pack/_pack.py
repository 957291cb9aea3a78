"""The call that packs and keeps nothing."""
from __future__ import annotations

from collections.abc import Mapping, Sequence
from typing import Any, overload

from . import _library
from ._bounding import least_of
from ._collection import Collection, heuristic_number
from ._enough import enough, enough_to_search
from ._fitting import LEFT_BIN, Rows, packed, parted, placements_of
from ._searching import Search, Wanted, as_options, known, wanted_of
from ._stock import Offer, Stock
from ._turning import turns_in_order
from ._types import (
    AnyHeuristic, Asked, Bin, BinName, Box, BoxName, Groups, Left, Packing, Pairs, Placement, Turning,
)


@overload
def pack(
    bins: Mapping[BinName, Bin], boxes: Mapping[BoxName, Box], *,
    groups: Groups[BoxName] | None = ..., exclude: Pairs = ..., heuristic: AnyHeuristic | None = ...,
    partial: bool = ..., tries: int = ..., seed: int = ..., turn: Turning[BoxName] | None = ..., progress: Asked | None = ...,
) -> Packing[BoxName, Placement[BoxName, BinName]]: ...


@overload
def pack(
    bins: Sequence[Bin], boxes: Mapping[BoxName, Box], *,
    groups: Groups[BoxName] | None = ..., exclude: Pairs = ..., heuristic: AnyHeuristic | None = ...,
    partial: bool = ..., tries: int = ..., seed: int = ..., turn: Turning[BoxName] | None = ..., progress: Asked | None = ...,
) -> Packing[BoxName, Placement[BoxName, int]]: ...


@overload
def pack(
    bins: Mapping[BinName, Bin], boxes: Sequence[Box], *,
    groups: Groups[int] | None = ..., exclude: Pairs = ..., heuristic: AnyHeuristic | None = ...,
    partial: bool = ..., tries: int = ..., seed: int = ..., turn: Turning[int] | None = ..., progress: Asked | None = ...,
) -> Packing[int, Placement[int, BinName]]: ...


@overload
def pack(
    bins: Sequence[Bin], boxes: Sequence[Box], *,
    groups: Groups[int] | None = ..., exclude: Pairs = ..., heuristic: AnyHeuristic | None = ...,
    partial: bool = ..., tries: int = ..., seed: int = ..., turn: Turning[int] | None = ..., progress: Asked | None = ...,
) -> Packing[int, Placement[int, int]]: ...


def pack(
    bins: Mapping[Any, Bin] | Sequence[Bin], boxes: Mapping[Any, Box] | Sequence[Box], *,
    groups: Groups[Any] | None = None, exclude: Pairs = (), heuristic: AnyHeuristic | None = None,
    partial: bool = False, tries: int = 0, seed: int = 0, turn: Turning[Any] | None = None, progress: Asked | None = None,
) -> Packing[Any, Placement[Any, Any]]:
    """Packs all boxes into the bins. Names are any values that a dict takes as keys; those of a list are its indices. Equal
    bins, boxes, groups and pairs are packed alike, on every machine.

    groups has for each group the names of its boxes. The boxes of one group go into one bin. A box is in the group that Box
    says, and in all that name it here. It is placed once for each of them, and as often as it is named. A box in no group is
    alone, and is placed once.

    exclude has pairs of groups that may not share a bin:

    >>> from rectangle_pack import Bin, Box, pack
    >>> crates = {"milk": Box(2, 2, 2, group="food"), "paint": Box(2, 2, 2, group="poison")}
    >>> packing = pack({"front": Bin(4, 4, 4), "back": Bin(4, 4, 4)}, crates, exclude=[("food", "poison")])
    >>> [f"{it.name} in {it.bin}" for it in packing]
    ['milk in front', 'paint in back']

    A group without boxes excludes nothing. It is named by a list that is empty: groups={"poison": []}. A name that neither a
    box nor groups has is refused, since it may be mistyped.

    heuristic says what boxes, bins and pieces of a bin are rated by, "volume" where it is left out. With "best" each is
    tried, and the one is taken that needs the fewest bins. The answer says which one that is:

    >>> packing = pack({"sheet": Bin(4, 4)}, [Box(1, 3), Box(3, 2), Box(3, 1)], heuristic="best")
    >>> packing.heuristic
    'height'

    With partial each group that some bin takes is packed, and the others are left. A group that is left excludes nothing.

    >>> packing = pack({"page": Bin(4, 4)}, {"hat": Box(4, 3), "cap": Box(4, 2), "pin": Box(1, 1)}, partial=True)
    >>> [it.name for it in packing], packing.left
    (['hat', 'pin'], (Left(name='cap', group=None),))

    Each group is tried once, in falling order of the sum of its boxes' rates. With "best" that heuristic is taken that leaves
    the fewest cells, and of several such the one that needs the fewest bins. packing[name] raises KeyError for a box that is
    left.

    There may be several equal bins of one name, or as many as are needed. Which of them it is, is the copy of a placement:

    >>> packing = pack({"page": Bin(10, 10, count=None)}, [Box(6, 6), Box(6, 6), Box(6, 6)])
    >>> [(it.bin, it.copy) for it in packing], packing.optimal
    ([('page', 0), ('page', 1), ('page', 2)], True)

    The placements are those of any greater number of bins. packing.optimal says whether it is proved that no packer uses fewer.

    With tries above 0 a packing is searched for that is better than that of any heuristic: fewer cells are left, or as many and the
    bins cost less, or as much and fewer are used. turn says which sides of boxes may change places, as that of check; alone it
    makes 1000 tries. A million take some seconds for a hundred boxes.

    >>> panels = {"door": Box(4, 9), "shelf": Box(9, 6)}
    >>> packing = pack({"sheet": Bin(9, 10)}, panels, tries=1000, turn="flat")
    >>> packing["door"].section[3:], packing["door"].turned
    ((9, 4, 1), True)

    A search takes all heuristics, so heuristic is left out, or "best". Of bins of which there are as many as are needed it gets no
    more than cost as much as those of the best heuristic. Equal calls get equal answers; another seed searches otherwise. progress
    is a function that is asked from time to time with a Progress. Where it answers False the search ends, and what was found is
    packed; where it raises, or Ctrl-C is pressed, nothing is.

    Raises NotEnoughBinSpace, which never comes with partial, OutOfMemory or TooMany; before anything is packed
    UnknownHeuristic, UnknownTurn, UnknownBox, UnknownGroup or EqualGroups, which are ValueErrors; ValueError or TypeError where a
    size or a count is not a number of 32 bits, or a cost, tries or seed one of 64; ValueError where a heuristic and a search are
    asked for; and TypeError where a text stands in place of a list of names."""
    searching = tries or turn is not None
    wanted = wanted_of(heuristic, tries, seed, turn, partial, progress) if searching else None
    asked: AnyHeuristic = "volume" if heuristic is None else heuristic
    number, stock = heuristic_number(asked), Stock(bins)
    collection: Collection[Any] = Collection(boxes, groups or {}, exclude)
    if wanted is not None:
        return _searched(stock, collection, wanted)
    if stock.is_plain:
        return _packed(stock, stock.one_of_each(), collection, number, partial)
    return _packed(stock, stock.offer(enough(stock, collection, asked)), collection, number, partial)


def _packed(
    stock: Stock, offer: Offer, collection: Collection[Any], asked: int, may_leave: bool,
) -> Packing[Any, Placement[Any, Any]]:
    """Packs by a heuristic into bins that are offered."""
    entries = collection.entries()
    room, first = _library.room_of(_library.RpPlacement, len(entries))
    chosen = packed("", may_leave, *offer.as_c(), collection.as_c(), asked, first, len(entries))
    rows: Rows = zip(entries, _library.row_of(_library.RpPlacement).iter_unpack(room))
    left: tuple[Left, ...] = ()
    if may_leave:
        rows, left = parted(rows, LEFT_BIN)
    return Packing(chosen, placements_of(rows, offer), left, least_of, stock, collection)


def _searched(stock: Stock, collection: Collection[Any], wanted: Wanted) -> Packing[Any, Placement[Any, Any]]:
    """Packs as a search finds it."""
    turns, entries = turns_in_order(collection.names, wanted.turn), collection.entries()
    offer = stock.offer(enough_to_search(stock, collection))
    options = as_options(wanted, turns, stock.costs_of(offer))
    room, first = _library.room_of(_library.RpLocation, len(entries))
    with Search("", *offer.as_c(), collection.as_c(), options) as search:
        search.run(wanted, len(entries))
        least = search.found("found", first, len(entries))
    rows, left = parted(zip(entries, _library.row_of(_library.RpLocation).iter_unpack(room)), LEFT_BIN)
    placements = tuple(
        Placement(
            name, group, offer.names[bin], x, y, z, width, height, depth, offer.copies[bin], (width, height, depth) != size)
        for (name, group, size), (bin, x, y, z, width, height, depth) in rows)
    # Of more bins than were offered perhaps fewer are needed.
    if stock.is_open:
        return Packing(None, placements, left, least_of, stock, collection, turns)
    return Packing(None, placements, left, known, least)
