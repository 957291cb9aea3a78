"""Searches by the library for C, in one call and in pieces, in bins of one call and in a session."""
from __future__ import annotations

import ctypes
import random
from typing import Any, NamedTuple

from asked_in_c import Asked, c, call, empty

NO_PACKING = 2**64 - 1


class Calls(NamedTuple):
    """The calls that search in one, that begin a search and that pack what it found, and what they write of a box."""

    searched: str
    begin: str
    found: str
    place: type[ctypes.Structure]


ONCE = Calls("searched", "search_begin", "found", c.RpLocation)
IN_SESSION = Calls("session_pack_searched", "session_search_begin", "session_pack_found", c.RpStanding)


class Search(NamedTuple):
    """Bins of one call, or a session, and what is to be found: so many tries, the seed, and whether something may be left."""

    calls: Calls
    given: tuple[object, ...]
    asked: Asked
    wanted: tuple[int, int, int]


class Found(NamedTuple):
    """The status, what is written of each box, and of all of them."""

    status: int
    places: list[Any]
    said: c.RpSearched

    def least(self) -> int:
        """How many bins are needed; -1 where no packer places all boxes."""
        least: int = self.said.least
        return -1 if least == NO_PACKING else least


def run(search: c.RpSearch, tries: int, r: random.Random) -> None:
    """Makes the tries in pieces that are drawn, some of them of no tries."""
    left, told = tries, c.RpProgress()
    while left:
        piece = r.randint(0, left)
        c.check(call("search_run", search, piece, told))
        left -= piece
        if told.tries > tries - left or (told.tries < tries - left and not told.is_over):
            raise AssertionError(f"{tries - left} tries were asked for, {told.tries} are told")


def find(it: Search, r: random.Random) -> Found:
    """Searches in one call or, as it is drawn, in pieces. At times another search is begun and freed before."""
    collection, options, count = it.asked.collection(), it.asked.options(*it.wanted), it.asked.count()
    places, said = empty(it.calls.place, count), c.RpSearched()
    lists = (*it.given, collection, options)
    if r.random() < 0.1:
        other = c.RpSearch()
        c.check(call(it.calls.begin, *lists, other))
        call("search_free", other)
    if r.random() < 0.5:
        status = call(it.calls.searched, *lists, places, count, said)
    else:
        search = c.RpSearch()
        c.check(call(it.calls.begin, *lists, search))
        run(search, it.wanted[0], r)
        status = call(it.calls.found, *lists, search, places, count, said)
    return Found(status, list(places[:count]), said)
