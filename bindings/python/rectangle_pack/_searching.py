"""Searches for a packing that is better than that of any heuristic, made in pieces."""
from __future__ import annotations

import ctypes
import weakref
from collections.abc import Sequence
from typing import Any, NamedTuple

from . import _library
from ._bounding import turns_as_c
from ._collection import heuristic_number
from ._numbers import MOST_OF_64, number
from ._types import AnyHeuristic, Asked, Progress, Turning

# So many tries are made where it is only said how boxes may be turned.
_TRIES = 1000

# A piece has so many tries at most, and fewer where there are many boxes: some tenths of a second pass until it is over.
_PIECE, _PIECE_BOXES = 1000, 50_000

# No packer places all boxes.
_NO_PACKING = MOST_OF_64


class Wanted(NamedTuple):
    """What a search is asked for."""
    tries: int
    seed: int
    turn: Turning[Any]
    partial: bool
    asked: Asked | None


def wanted_of(
    heuristic: AnyHeuristic | None, tries: int, seed: int, turn: Turning[Any] | None, partial: bool, asked: Asked | None,
) -> Wanted:
    """What a search is asked for. Refuses numbers, and a heuristic that alone would pack otherwise."""
    number(tries, "tries", MOST_OF_64)
    number(seed, "seed", MOST_OF_64)
    if heuristic is not None and heuristic_number(heuristic) != heuristic_number("best"):
        raise ValueError(f"a search takes all heuristics: leave out heuristic={heuristic!r}, or else tries and turn")
    if asked is not None and not callable(asked):
        raise TypeError(f"progress {asked!r} is no function: write progress=print")
    return Wanted(tries or _TRIES, seed, "none" if turn is None else turn, partial, asked)


def as_options(wanted: Wanted, turns: Sequence[int], costs: Sequence[tuple[int, int]]) -> _library.RpSearchOptions:
    """What a search is asked for as C takes it. The costs are those of bins that do not cost 1, by index or id."""
    return _library.RpSearchOptions(
        ctypes.sizeof(_library.RpSearchOptions), wanted.tries, wanted.seed, int(wanted.partial), *turns_as_c(turns),
        _library.listed(_library.RpCost, costs), len(costs))


def _free(handle: _library.RpSearch) -> None:
    if handle.at:
        _library.call("search_free", handle)
        handle.at = None


class Search:
    """A search that is on its way, of these bins or this session. Its memory is given back at the end of the with block, or when
    nothing refers to it any more."""

    def __init__(self, calls: str, *given: object) -> None:
        self._given, self._handle = given, _library.RpSearch()
        self._close = weakref.finalize(self, _free, self._handle)
        # At the end of the process all memory goes anyway.
        self._close.atexit = False
        _library.check(_library.call(f"{calls}search_begin", *given, self._handle))

    def __enter__(self) -> Search:
        return self

    def __exit__(self, *error: object) -> None:
        self._close()

    def run(self, wanted: Wanted, boxes: int) -> None:
        """Makes the tries, in pieces. Between these it is asked whether to go on."""
        piece = max(min(_PIECE, _PIECE_BOXES // max(boxes, 1)), 1)
        left, is_over = wanted.tries, False
        while left and not is_over:
            told = self._run(min(piece, left))
            left, is_over = left - min(piece, left), bool(told.is_over)
            if wanted.asked is not None and wanted.asked(_progress(told)) is False:
                return

    def _run(self, tries: int) -> _library.RpProgress:
        told = _library.RpProgress()
        status = _library.call("search_run", self._handle, tries, told)
        if status:
            # The library has freed it.
            self._handle.at = None
        _library.check(status)
        return told

    def found(self, call: str, first: object, length: int) -> int | None:
        """Packs what was found, and writes the places. Answers how many bins are needed, None where no packer places all."""
        told = _library.RpSearched()
        status = _library.call(call, *self._given, self._handle, first, length, told)
        self._handle.at = None
        _library.check(status)
        least: int = told.least
        return None if least == _NO_PACKING else least


def _progress(told: _library.RpProgress) -> Progress:
    return Progress(told.tries, told.bins, int(told.cost), int(told.left))


def known(least: int | None) -> int | None:
    """How many bins are needed, where a search has answered it."""
    return least
