"""The call that packs as it is told."""
from __future__ import annotations

from collections.abc import Iterable, Mapping, Sequence
from typing import Any, overload

from . import _library
from ._bounding import least_of
from ._collection import Collection
from ._fitting import LEFT_BIN, parted, placements_of
from ._steps import Steps
from ._stock import Stock
from ._types import AnyStep, Bin, BinName, Box, BoxName, Groups, Packing, Pairs, Placement


@overload
def pack_told(
    bins: Mapping[BinName, Bin], boxes: Mapping[BoxName, Box], steps: Iterable[AnyStep], *,
    groups: Groups[BoxName] | None = ..., exclude: Pairs = ...,
) -> Packing[BoxName, Placement[BoxName, BinName]]: ...


@overload
def pack_told(
    bins: Sequence[Bin], boxes: Mapping[BoxName, Box], steps: Iterable[AnyStep], *,
    groups: Groups[BoxName] | None = ..., exclude: Pairs = ...,
) -> Packing[BoxName, Placement[BoxName, int]]: ...


@overload
def pack_told(
    bins: Mapping[BinName, Bin], boxes: Sequence[Box], steps: Iterable[AnyStep], *,
    groups: Groups[int] | None = ..., exclude: Pairs = ...,
) -> Packing[int, Placement[int, BinName]]: ...


@overload
def pack_told(
    bins: Sequence[Bin], boxes: Sequence[Box], steps: Iterable[AnyStep], *,
    groups: Groups[int] | None = ..., exclude: Pairs = ...,
) -> Packing[int, Placement[int, int]]: ...


def pack_told(
    bins: Mapping[Any, Bin] | Sequence[Bin], boxes: Mapping[Any, Box] | Sequence[Box], steps: Iterable[AnyStep], *,
    groups: Groups[Any] | None = None, exclude: Pairs = (),
) -> Packing[Any, Placement[Any, Any]]:
    """Packs as it is told, step by step: each step says a group, or a box that is alone, its bin, and by which heuristic free
    sections are cut up, "volume" where it does not say. So goes a plan that was made elsewhere. left has what no step names.

    >>> from rectangle_pack import Bin, Box, StepRefused, pack_told
    >>> pages, boxes = {"page": Bin(4, 4), "next": Bin(4, 4)}, {"hat": Box(4, 3), "cap": Box(4, 2), "pin": Box(1, 1)}
    >>> packing = pack_told(pages, boxes, [("cap", "next"), ("hat", "page", "height")])
    >>> [f"{it.name} on {it.bin}" for it in packing], packing.left
    (['hat on page', 'cap on next'], (Left(name='pin', group=None),))

    All steps are done, or none is, and the first that cannot be is named:

    >>> try:
    ...     pack_told(pages, boxes, [("hat", "page"), ("cap", "page")])
    ... except StepRefused as error:
    ...     error.index, error.reason
    (1, 'no room')

    A group goes into its bin with all of its boxes, in their order, each to the newest free section that holds it. A step may be a
    tuple or a Step, which also says which of several bins of one name it is. Bins, boxes, groups and exclude are as those of pack.

    Raises StepRefused, OutOfMemory or TooMany; and before anything is packed UnknownHeuristic, also for "best", UnknownBox,
    UnknownGroup, also where a step names what is not there, EqualGroups, and ValueError or TypeError as pack does, and where a step
    names a group without boxes, or may mean several."""
    stock = Stock(bins)
    collection: Collection[Any] = Collection(boxes, groups or {}, exclude)
    told, entries = Steps(collection, steps), collection.entries()
    offer, indices = stock.only((it.bin, it.copy) for it in told.steps)
    room, first = _library.room_of(_library.RpPlacement, len(entries))
    refused = _library.RpRefused()
    told.check(_library.call(
        "told", *offer.as_c(), collection.as_c(), *told.as_c(lambda it: indices.get((it.bin, it.copy), len(indices))),
        first, len(entries), refused), refused)
    rows, left = parted(zip(entries, _library.row_of(_library.RpPlacement).iter_unpack(room)), LEFT_BIN)
    return Packing(None, placements_of(rows, offer), left, least_of, stock, collection)
