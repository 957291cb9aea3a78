"""How many bins are offered of which there are as many as are needed."""
from __future__ import annotations

from collections.abc import Sequence
from itertools import accumulate
from math import prod
from typing import Any

from . import _library
from ._collection import HEURISTICS, Collection, heuristic_number
from ._fitting import LEFT_BIN, packed
from ._stock import Offer, Stock
from ._types import AnyHeuristic


class _Fit:
    """A packing of what fits: which bins have a box, by their indices, and how many groups are left."""

    def __init__(self, offer: Offer, collection: Collection[Any], heuristic: AnyHeuristic) -> None:
        entries = collection.entries()
        room, first = _library.room_of(_library.RpPlacement, len(entries))
        packed("", True, *offer.as_c(), collection.as_c(), heuristic_number(heuristic), first, len(entries))
        homes = [row[0] for row in _library.row_of(_library.RpPlacement).iter_unpack(room)][:len(entries)]
        self.used = {home for home in homes if home != LEFT_BIN}
        left = [group for (_, group, _), home in zip(entries, homes) if home == LEFT_BIN]
        self.left_groups = left.count(None) + len({*left} - {None})


def _first_counts(stock: Stock, collection: Collection[Any]) -> list[int]:
    """So many bins of each kind that all boxes have cells in them, and one more. Each group goes into one bin."""
    cells, groups = collection.cells(), collection.group_count()
    return [
        min(count, -(-cells // prod(size)) + 1 if all(size) else 1) if given is None else count
        for given, count, size in zip(stock.counts, stock.most(groups), stock.sizes)]


def _full_with(stock: Stock, counts: Sequence[int], collection: Collection[Any], heuristic: AnyHeuristic) -> list[int]:
    """The kinds without a fixed number of which each bin has a box then. Of equal bins the first ones have."""
    used = _Fit(stock.offer(counts), collection, heuristic).used
    ends = accumulate(counts)
    return [kind for kind, end in enumerate(ends) if stock.counts[kind] is None and end - 1 in used]


def enough(stock: Stock, collection: Collection[Any], heuristic: AnyHeuristic) -> list[int]:
    """So many bins of each kind that more would change nothing: with each heuristic that is tried, one has no box of each kind of
    which there are as many as are needed. A group that did not go into that one goes into no other one of its kind."""
    counts, groups = _first_counts(stock, collection), collection.group_count()
    tried: tuple[AnyHeuristic, ...] = HEURISTICS if heuristic == "best" else (heuristic,)
    for it in tried if stock.is_open else ():
        full = _full_with(stock, counts, collection, it)
        while any(counts[kind] < groups for kind in full):
            for kind in full:
                counts[kind] = min(2 * counts[kind], groups)
            full = _full_with(stock, counts, collection, it)
    return counts


def enough_to_search(stock: Stock, collection: Collection[Any]) -> list[int]:
    """So many bins of each kind that a search can do as well as the best heuristic. With more of a kind it would cost more, but
    where groups are left: each of these takes one more at most."""
    counts = enough(stock, collection, "best")
    if not stock.is_open:
        return counts
    offer = stock.offer(counts)
    fit, costs = _Fit(offer, collection, "best"), dict(stock.costs_of(offer))
    cost = sum(costs.get(bin, 1) for bin in fit.used)
    return [
        min((cost // own if own else len(fit.used)) + fit.left_groups, collection.group_count()) if given is None else count
        for given, own, count in zip(stock.counts, stock.costs, counts)]
