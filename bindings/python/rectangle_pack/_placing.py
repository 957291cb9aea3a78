"""Boxes that come to a session one by one, and go."""
from __future__ import annotations

import ctypes
from collections.abc import Iterable
from typing import Any

from . import _library
from ._bounding import least_of_box
from ._collection import HEURISTICS, heuristic_number
from ._errors import NotFree, UnknownHeuristic, UnknownPlacement, naming
from ._handle import alone
from ._numbers import MOST_OF_64, SIDES, Size, check_row, number as checked
from ._reading import Reading
from ._types import BinName, Box, BoxName, Heuristic, Outstanding, Packing, Section

# In place of the name of a bin, which may be None: any bin will do.
_ANY_BIN: Any = object()

# By it placements are read that the library wrote.
OUTSTANDING = _library.row_of(_library.RpOutstanding)


class _OneBox:
    """What a packing of one box is told and what it answers. It is kept for the next one, so that nothing is made anew."""

    def __init__(self) -> None:
        self.box, self.place, self.chosen = _library.RpBox(), _library.RpOutstanding(), ctypes.c_uint32()
        none = _library.listed(_library.RpMember, []), 0, _library.listed(_library.RpExclusion, []), 0
        self.collection = _library.RpCollection(ctypes.pointer(self.box), 1, *none)


class Placing(Reading[BinName]):
    """The calls that place one box, and those that release boxes."""

    def __init__(self) -> None:
        super().__init__()
        self._one_boxes: list[_OneBox] = []

    def _pack_one(self, name: Any, box: Box, asked: int) -> Packing[Any, Outstanding[Any, BinName]]:
        """Packs a box that is alone."""
        size = box[:3]
        check_row("box", name, SIDES, size)
        with self._lock:
            # A call that comes in between, as of a finalizer, takes another one.
            it = self._one_boxes.pop() if self._one_boxes else _OneBox()
            it.box.width, it.box.height, it.box.depth = size
            self._check_open()
            _library.check(_library.call(
                "session_pack_collection", self._handle, it.collection, asked, it.place, 1, it.chosen))
            placed, chosen = self._stands(name, size, it.place), it.chosen.value
            self._one_boxes.append(it)
        return Packing(HEURISTICS[chosen], (placed,), (), least_of_box, self._stock or self._sizes_now(), size)

    def _stands(self, name: Any, size: Size, place: _library.RpOutstanding) -> Outstanding[Any, BinName]:
        """Keeps the name of a box that is alone, and says where it stands."""
        number, id, x, y, z = OUTSTANDING.unpack(place)
        self._boxes[number] = (name, None, id, False)
        return Outstanding(name, None, self._names[id], x, y, z, *size, number)

    @alone
    def place_at(self, bin: BinName, name: BoxName, section: Section) -> Outstanding[BoxName, BinName]:
        """Places one box at a place of the caller's choice, by its corner and its size. So go in knots, pillars, and a layout
        that was made elsewhere.

        >>> with Session({"board": Bin(10, 10)}) as session:
        ...     session.place_at("board", "knot", Section(4, 3, 0, 2, 2, 1)).number
        0

        Raises UnknownBin, NumbersUsedUp or OutOfMemory; or NotFree where no free section of the bin holds the box there, also
        where its cells are free in several."""
        id, place, number = self._id(bin), Section(*section), ctypes.c_uint64()
        check_row("box", name, Section._fields, place)
        with naming(bin), naming(place, (NotFree,)):
            self._call("place_at", id, _library.RpSection(*place), number)
        self._boxes[number.value] = (name, None, id, False)
        return Outstanding(name, None, self._names[id], *place, number.value)

    @alone
    def place_best(
        self, name: BoxName, width: int, height: int, depth: int = 1, *,
        bin: BinName = _ANY_BIN, heuristic: Heuristic = "volume",
    ) -> Outstanding[BoxName, BinName]:
        """Places one box into the free section that it fits best, of this bin or, where none is given, of any.

        >>> with Session({"large": Bin(20, 20), "small": Bin(10, 8)}) as session:
        ...     session.place_best("shelf", 9, 5).bin
        'small'

        It fits that section best of which it leaves the least on its tightest side: of several such in one bin the newest, of
        several such bins the one that was added first. An axis on which the bin has one cell does not count. The rest of the
        section is cut by the heuristic.

        Raises UnknownHeuristic, which is a ValueError, also for "best"; UnknownBin, NumbersUsedUp or OutOfMemory; or
        NotEnoughBinSpace where no free section holds the box."""
        size, place = (width, height, depth), _library.RpOutstanding()
        check_row("box", name, SIDES, size)
        asked = heuristic_number(heuristic)
        with naming(heuristic, (UnknownHeuristic,)), naming(bin):
            if bin is _ANY_BIN:
                self._call("place_best_anywhere", _library.RpBox(*size), asked, place)
            else:
                self._call("place_best", self._id(bin), _library.RpBox(*size), asked, place)
        return self._stands(name, size, place)

    def release(self, number: int) -> None:
        """Releases a placement by its number: its cells are free again, as the newest free section of its bin, the last of the
        list. A box without cells leaves none.

        Raises UnknownPlacement or OutOfMemory."""
        checked(number, "placement", MOST_OF_64)
        with self._lock:
            self._check_open()
            try:
                _library.check(_library.call("session_release", self._handle, number))
            except UnknownPlacement:
                raise UnknownPlacement(number) from None
            del self._boxes[number]

    @alone
    def release_all(self, numbers: Iterable[int]) -> None:
        """Releases placements by their numbers, all or none, each as release does it, in their order. So a list of boxes goes by
        one call:

        >>> with Session({"sheet": Bin(10, 10)}) as session:
        ...     packing = session.pack({"hat": Box(4, 10), "cap": Box(2, 2)})
        ...     session.release_all(it.number for it in packing)
        ...     session.outstanding()
        []

        Raises UnknownPlacement, also where a number stands twice, or OutOfMemory."""
        listed = [checked(it, "placement", MOST_OF_64) for it in numbers]
        self._call("release_all", (ctypes.c_uint64 * max(len(listed), 1))(*listed), len(listed))
        for number in listed:
            del self._boxes[number]
