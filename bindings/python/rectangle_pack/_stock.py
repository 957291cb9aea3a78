"""The bins that are offered: several of one name, or as many as are needed."""
from __future__ import annotations

from collections.abc import Iterable, Mapping, Sequence
from typing import Any

from . import _library
from ._collection import bin_of, items_of
from ._numbers import MOST_OF_64, SIDES, Size, check_rows, number
from ._types import Bin


class Offer:
    """Bins as the library gets them, one after another: their names, their sizes, and which of the bins of its name each is."""

    def __init__(self, names: Sequence[Any], sizes: Sequence[Size], copies: Sequence[int]) -> None:
        self.names, self.sizes, self.copies = names, sizes, copies

    def as_c(self) -> tuple[object, int]:
        """The bins as C takes them, and how many there are."""
        return _library.listed(_library.RpBin, self.sizes), len(self.sizes)


class Stock:
    """Kinds of bins: for each its name, its size, how many there are, or None for as many as are needed, and what one costs."""

    def __init__(self, bins: Mapping[Any, Bin] | Iterable[Bin]) -> None:
        named = [*items_of(bins)]
        self.names = [name for name, _ in named]
        kinds = [bin_of(name, bin) for name, bin in named]
        self.sizes: list[Size] = [bin[:3] for bin in kinds]
        check_rows("bin", self.names, SIDES, self.sizes)
        # Most often there is one bin of each name, and each costs as much.
        self.is_plain = [bin[3:] for bin in kinds] == [(1, 1)] * len(kinds)
        self.counts: list[int | None] = [1] * len(kinds)
        self.costs = [1] * len(kinds)
        if not self.is_plain:
            self._take_numbers(kinds)

    def _take_numbers(self, kinds: Sequence[Bin]) -> None:
        self.counts = [bin.count for bin in kinds]
        self.costs = [bin.cost for bin in kinds]
        for name, count, cost in zip(self.names, self.counts, self.costs):
            if count is not None:
                number(count, f"bin {name!r}: count")
            number(cost, f"bin {name!r}: cost", MOST_OF_64)

    @property
    def is_open(self) -> bool:
        """Whether there are as many of some kind as are needed."""
        return None in self.counts

    def most(self, most: int) -> list[int]:
        """How many there are of each kind, no more than these."""
        return [most if count is None else min(count, most) for count in self.counts]

    def offer(self, counts: Sequence[int]) -> Offer:
        """So many bins of each kind."""
        names: list[Any] = []
        sizes: list[Size] = []
        copies: list[int] = []
        for name, size, count in zip(self.names, self.sizes, counts):
            names += [name] * count
            sizes += [size] * count
            copies += range(count)
        return Offer(names, sizes, copies)

    def one_of_each(self) -> Offer:
        """The bins, where there is one of each kind."""
        return Offer(self.names, self.sizes, [0] * len(self.names))

    def only(self, homes: Iterable[tuple[Any, int]]) -> tuple[Offer, dict[tuple[Any, int], int]]:
        """Those of these bins that there are, and the index of each."""
        kinds = {name: index for index, name in enumerate(self.names)}
        names: list[Any] = []
        sizes: list[Size] = []
        copies: list[int] = []
        indices: dict[tuple[Any, int], int] = {}
        for home in homes:
            kind = None if home in indices else kinds.get(home[0])
            if kind is not None and self._has(kind, home[1]):
                indices[home] = len(names)
                names.append(home[0])
                sizes.append(self.sizes[kind])
                copies.append(home[1])
        return Offer(names, sizes, copies), indices

    def _has(self, kind: int, copy: int) -> bool:
        count = self.counts[kind]
        return 0 <= copy and (count is None or copy < count)

    def costs_of(self, offer: Offer) -> list[tuple[int, int]]:
        """The bins of an offer that do not cost 1, each by its index, and what it costs."""
        if self.is_plain:
            return []
        by_name = dict(zip(self.names, self.costs))
        return [(index, by_name[name]) for index, name in enumerate(offer.names) if by_name[name] != 1]
