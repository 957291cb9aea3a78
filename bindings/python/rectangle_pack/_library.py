"""The shared library, as ctypes sees it: the calls of include/rectangle_pack.h."""
from __future__ import annotations

import ctypes
import functools
import os
import struct
from collections.abc import Callable, Iterable
from itertools import starmap
from pathlib import Path
from typing import Any, TypeVar

from ._errors import (
    BinInUse, DuplicateBin, EqualGroups, NotASession, NotEnoughBinSpace, NotFree, NotFromCuts, NumbersUsedUp, OutOfMemory,
    PackError, TooLarge, TooMany, UnknownAxis, UnknownBin, UnknownBox, UnknownHeuristic, UnknownPlacement,
)
from ._structures import *

Entry = TypeVar("Entry", bound=ctypes.Structure)

NOT_ENOUGH_SPACE, SHORT_ARRAY, NO_PLAN, WRONG_PARTS, STEP_REFUSED = 1, 8, 9, 18, 20

ERRORS: dict[int, type[PackError]] = {
    NOT_ENOUGH_SPACE: NotEnoughBinSpace, 2: OutOfMemory, 3: TooMany,
    4: DuplicateBin, 5: UnknownBin, 6: UnknownPlacement, 7: NumbersUsedUp,
    10: UnknownHeuristic, 11: UnknownBox, 12: EqualGroups, 13: BinInUse, 14: TooLarge, 15: NotFree,
    16: UnknownAxis, 17: NotFromCuts, 18: NotASession,
}


def _array_of(kind: type[ctypes.Structure]) -> list[type[object]]:
    """What a call that writes a list is given: an array, its length, and where the length of the list goes."""
    return [ctypes.POINTER(kind), ctypes.c_size_t, ctypes.POINTER(ctypes.c_size_t)]


def _places_of(kind: type[ctypes.Structure], told: type[Any] = ctypes.c_uint32) -> list[type[object]]:
    """What a call that packs is given: a collection, a heuristic, an array, its length, and where it tells what was chosen."""
    return [ctypes.POINTER(RpCollection), ctypes.c_uint32, ctypes.POINTER(kind), ctypes.c_size_t, ctypes.POINTER(told)]


def _list_of(kind: type[ctypes.Structure]) -> list[type[object]]:
    """What a call that reads a list is given: an array, and how many entries count."""
    return [ctypes.POINTER(kind), ctypes.c_size_t]


def _steps_of(kind: type[ctypes.Structure]) -> list[type[object]]:
    """What a call that is told steps is given: a collection, the steps, an array, and where it tells what it refuses."""
    return [ctypes.POINTER(RpCollection), *_list_of(RpStep), *_list_of(kind), ctypes.POINTER(RpRefused)]


_SESSION, _SEARCH = ctypes.POINTER(RpSession), ctypes.POINTER(RpSearch)

# A collection, the options, and the search.
_SEARCHING = [ctypes.POINTER(RpCollection), ctypes.POINTER(RpSearchOptions), _SEARCH]

# A box, a heuristic, and where the placement goes.
_BEST_PLACE = [ctypes.POINTER(RpBox), ctypes.c_uint32, ctypes.POINTER(RpOutstanding)]

_ARGUMENTS = {
    "collection": [*_list_of(RpBin), *_places_of(RpPlacement)],
    "fitting": [*_list_of(RpBin), *_places_of(RpPlacement, RpFitted)],
    "told": [*_list_of(RpBin), *_steps_of(RpPlacement)],
    "least_bins": [
        *_list_of(RpBin), ctypes.POINTER(RpCollection), *_list_of(RpTurns), ctypes.POINTER(ctypes.c_size_t)],
    "search_begin": [*_list_of(RpBin), *_SEARCHING],
    "search_run": [_SEARCH, ctypes.c_uint64, ctypes.POINTER(RpProgress)],
    "search_free": [_SEARCH],
    "found": [*_list_of(RpBin), *_SEARCHING, *_list_of(RpLocation), ctypes.POINTER(RpSearched)],
    "check": [*_list_of(RpBin), *_list_of(RpEntry), *_list_of(RpExclusion), *_list_of(RpClaim), ctypes.POINTER(RpFault)],
    "straight_cuts": [ctypes.POINTER(RpBin), *_list_of(RpSection), *_array_of(RpCutStep), ctypes.POINTER(RpWrong)],
    "session_new": [_SESSION],
    "session_restore": [_SESSION, ctypes.POINTER(RpSaved), ctypes.POINTER(RpWrong)],
    "session_free": [_SESSION],
    "session_add_bin": [_SESSION] + [ctypes.c_uint32] * 4,
    "session_pack_collection": [_SESSION, *_places_of(RpOutstanding)],
    "session_pack_fitting": [_SESSION, *_places_of(RpOutstanding, RpFitted)],
    "session_pack_told": [_SESSION, *_steps_of(RpOutstanding)],
    "session_search_begin": [_SESSION, *_SEARCHING],
    "session_pack_found": [_SESSION, *_SEARCHING, *_list_of(RpStanding), ctypes.POINTER(RpSearched)],
    "session_release": [_SESSION, ctypes.c_uint64],
    "session_release_all": [_SESSION, ctypes.POINTER(ctypes.c_uint64), ctypes.c_size_t],
    "session_coalesce_all": [_SESSION, ctypes.c_uint32],
    "session_coalesce": [_SESSION, ctypes.c_uint32] + [ctypes.c_size_t] * 3,
    "session_clear_bin": [_SESSION, ctypes.c_uint32],
    "session_remove_bin": [_SESSION, ctypes.c_uint32],
    "session_grow_bin": [_SESSION] + [ctypes.c_uint32] * 3,
    "session_place_at": [_SESSION, ctypes.c_uint32, ctypes.POINTER(RpSection), ctypes.POINTER(ctypes.c_uint64)],
    "session_place_best": [_SESSION, ctypes.c_uint32, *_BEST_PLACE],
    "session_place_best_anywhere": [_SESSION, *_BEST_PLACE],
    "session_recut": [_SESSION, ctypes.c_uint32],
    "session_stats": [_SESSION, ctypes.c_uint32, ctypes.POINTER(RpStats)],
    "session_bins": [_SESSION, *_array_of(BinId)],
    "session_free_sections": [_SESSION, ctypes.c_uint32, *_array_of(RpSection)],
    "session_outstanding": [_SESSION, *_array_of(RpStanding)],
    "session_outstanding_in": [_SESSION, ctypes.c_uint32, *_array_of(RpStanding)],
    "session_cut_plan": [_SESSION, ctypes.c_uint32, *_array_of(RpCutStep)],
    "session_was_coalesced": [_SESSION, ctypes.c_uint32, ctypes.POINTER(ctypes.c_uint32)],
    "session_next_number": [_SESSION],
}

# All others answer a status.
_RESULTS = {"session_free": None, "search_free": None, "session_next_number": ctypes.c_uint64}


def _path() -> str:
    """Where the shared library is: where RECTANGLE_PACK says, beside this module, as in a wheel, or in build/."""
    here, name = Path(__file__).resolve(), "librectangle_pack.so"
    beside = here.with_name(name)
    return os.environ.get("RECTANGLE_PACK") or str(beside if beside.is_file() else here.parents[3] / "build" / name)


@functools.lru_cache(maxsize=None)
def loaded() -> dict[str, Callable[..., int]]:
    """The calls of the library by their names. It is looked for at the first call."""
    try:
        library = ctypes.CDLL(_path())
    except OSError as why:
        raise ImportError(f"the shared library cannot be loaded (in a clone tools/build_c.sh builds it): {why}") from None
    calls: dict[str, Callable[..., int]] = {}
    for name, arguments in _ARGUMENTS.items():
        function = getattr(library, f"rectangle_pack_{name}")
        function.argtypes = arguments
        function.restype = _RESULTS.get(name, ctypes.c_uint32)
        calls[name] = function
    return calls


def call(name: str, *arguments: object) -> int:
    """What the call of this name answers: a status, or a number."""
    return loaded()[name](*arguments)


def check(status: int) -> None:
    """Raises the error of a status."""
    if status:
        raise ERRORS[status]()


def _format(kind: type[Any]) -> str:
    """The numbers of a structure, as the module struct has them."""
    if issubclass(kind, ctypes.Structure):
        return "".join(_format(field[1]) for field in kind._fields_)
    return "I" if kind is ctypes.c_uint32 else "Q"


@functools.lru_cache(maxsize=None)
def row_of(kind: type[ctypes.Structure]) -> struct.Struct:
    """By it the numbers of a structure become bytes, and bytes become numbers, many rows at a time."""
    numbers = _format(kind)
    # A structure with numbers of 64 bits ends where the next one may begin.
    return struct.Struct(numbers + "0Q" if "Q" in numbers else numbers)


def listed(kind: type[Entry], rows: Iterable[tuple[int, ...]]) -> ctypes._Pointer[Entry]:
    """The rows as C takes them: where the first one is. An empty list has an entry that is not counted, so that no pointer is
    NULL."""
    data = bytearray(b"".join(starmap(row_of(kind).pack, rows)))
    return ctypes.pointer(kind.from_buffer(data or bytearray(ctypes.sizeof(kind))))


def room_of(kind: type[Entry], length: int) -> tuple[bytearray, Entry]:
    """Room for a list that a call writes, with an entry more where it has none; and its first entry, which the call is given."""
    room = bytearray(ctypes.sizeof(kind) * max(length, 1))
    return room, kind.from_buffer(room)
