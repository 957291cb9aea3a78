"""The bins of a session: they are added, made larger, whole again, and taken out; their free sections are joined and cut anew."""
from __future__ import annotations

import ctypes
from collections.abc import Hashable
from typing import Any, Generic

from ._cuts import Axis, axis_number
from ._errors import TooMany, naming
from ._handle import Handle, alone
from ._numbers import MOST_OF_64, SIDES, Size, check_row, number as checked
from ._types import Bin, BinName

# No bin gets this id: by it bins are asked for that are not there.
NO_BIN = 2**32 - 1


class Bins(Handle, Generic[BinName]):
    """What a session knows of its bins and boxes, and the calls that change its bins."""

    def __init__(self) -> None:
        super().__init__()
        # The names and the sides of bins, by their ids, and the ids by name. The next bin gets the next id, also where others
        # were removed: so ids go by the order in which bins were added.
        self._names: dict[int, BinName] = {}
        self._sides: dict[int, list[int]] = {}
        self._ids: dict[BinName, int] = {}
        self._next_id = 0
        # What bins cost that do not cost 1, by their ids.
        self._costs: dict[int, int] = {}
        # The sizes of the bins, made when they are asked for.
        self._stock: tuple[Bin, ...] | None = None
        # The name of the box, its group, the id of its bin and whether it is turned, for each number that is outstanding.
        self._boxes: dict[int, tuple[Any, Hashable, int, bool]] = {}

    def _id(self, bin: BinName) -> int:
        """The id of a bin. A name that is not known has that of no bin."""
        return self._ids.get(bin, NO_BIN)

    def _sizes_now(self) -> tuple[Bin, ...]:
        """The sizes of the bins as they are now."""
        if self._stock is None:
            self._stock = tuple(Bin(*sides) for sides in self._sides.values())
        return self._stock

    def _new_id(self, bin: BinName) -> int:
        """The id under which a bin is added. That of a name that is known is refused."""
        return self._ids.get(bin, self._next_id)

    @alone
    def add_bin(self, bin: BinName, width: int, height: int, depth: int = 1, *, cost: int = 1) -> None:
        """Adds a bin of this size under a name of the caller's choice. It stays until it is removed or the session is closed. cost
        is what it costs to use it, which counts where a packing is searched for.

        Raises DuplicateBin or OutOfMemory; or TooMany, once 2**32 - 1 bins were added, also where they were removed."""
        size, id = (width, height, depth), self._new_id(bin)
        check_row("bin", bin, SIDES, size)
        checked(cost, f"bin {bin!r}: cost", MOST_OF_64)
        if id == NO_BIN:
            raise TooMany()
        with naming(bin):
            self._call("add_bin", id, *size)
        self._keep_bin(bin, id, size, cost)
        self._next_id += 1

    def _keep_bin(self, bin: BinName, id: int, size: Size, cost: int) -> None:
        """Keeps what the library does not know of a bin that was added."""
        self._ids[bin], self._names[id], self._sides[id], self._stock = id, bin, list(size), None
        if cost != 1:
            self._costs[id] = cost

    @alone
    def grow_bin(self, bin: BinName, axis: Axis, by: int) -> None:
        """Makes a bin larger by so many cells on an axis. What is new is its newest free section, where it has cells. All else
        in the bin stays where it is.

        >>> with Session({"sheet": Bin(4, 10)}) as session:
        ...     session.grow_bin("sheet", "x", 6)
        ...     session.free_sections("sheet")
        [Section(x=0, y=0, z=0, width=4, height=10, depth=1), Section(x=4, y=0, z=0, width=6, height=10, depth=1)]

        Raises UnknownBin, TooLarge or OutOfMemory; and before these UnknownAxis, which is a ValueError."""
        number, id = axis_number(axis), self._id(bin)
        check_row("bin", bin, ("by",), (by,))
        with naming(bin):
            self._call("grow_bin", id, number, by)
        self._sides[id][number] += by
        self._stock = None

    @alone
    def clear_bin(self, bin: BinName) -> None:
        """Makes a bin whole again: it has one free section, which is all of it, and does not count as coalesced. Its placements
        are no longer outstanding. No number is given again.

        Raises UnknownBin or OutOfMemory."""
        id = self._id(bin)
        here = [number for number, (_, _, home, _) in self._boxes.items() if home == id]
        with naming(bin):
            self._call("clear_bin", id)
        for number in here:
            del self._boxes[number]

    @alone
    def recut(self, bin: BinName) -> None:
        """Cuts the free part of a bin anew, where boxes that came and went left it in many small sections. Placements stay where
        they are, and straight cuts part the bin into them and the new free sections.

        >>> with Session({"board": Bin(10, 10)}) as session:
        ...     knot = session.place_at("board", "knot", Section(4, 3, 0, 2, 2, 1))
        ...     session.release(knot.number)
        ...     session.recut("board")
        ...     session.free_sections("board")
        [Section(x=0, y=0, z=0, width=10, height=10, depth=1)]

        The section whose least side is the greatest stands first; an axis on which the bin has one cell does not count. Of those
        that tie that one does which was cut off the smallest part of the bin, and then the smallest. Whether the bin counts as
        coalesced stays.

        Raises UnknownBin or OutOfMemory; or NotFromCuts where no straight cuts part the boxes, which is so only where sections
        of the bin were joined."""
        id = self._id(bin)
        with naming(bin):
            self._call("recut", id)

    @alone
    def remove_bin(self, bin: BinName) -> None:
        """Takes out a bin in which no placement is outstanding. Another may be added under its name.

        Raises UnknownBin or BinInUse."""
        id = self._id(bin)
        with naming(bin):
            self._call("remove_bin", id)
        del self._ids[bin], self._names[id], self._sides[id]
        self._costs.pop(id, None)
        self._stock = None

    @alone
    def coalesce_all(self, bin: BinName) -> None:
        """Joins free sections of a bin until no two share a whole face. A bin that is empty again need not become one
        section: that depends on the order of releases and on where joins stand between them. clear_bin makes it whole.

        Raises UnknownBin."""
        with naming(bin):
            self._call("coalesce_all", self._id(bin))

    @alone
    def coalesce(self, bin: BinName, index: int, start: int, end: int) -> None:
        """Joins one free section of a bin, by its index in free_sections, with those from start to below end that share a whole
        face with it. The joined section stands in its place. What is past the end of the list joins nothing. After a release it
        is cheaper than coalesce_all:

        >>> with Session({"sheet": Bin(10, 10)}) as session:
        ...     packing = session.pack({"hat": Box(4, 10)})
        ...     session.release(packing["hat"].number)
        ...     last = len(session.free_sections("sheet")) - 1
        ...     session.coalesce("sheet", last, 0, last)
        ...     session.free_sections("sheet")
        [Section(x=0, y=0, z=0, width=10, height=10, depth=1)]

        Raises UnknownBin."""
        named = {"index": index, "start": start, "end": end}
        whole = [checked(value, f"bin {bin!r}: {name}", MOST_OF_64) for name, value in named.items()]
        with naming(bin):
            self._call("coalesce", self._id(bin), *whole)

    @alone
    def was_coalesced(self, bin: BinName) -> bool:
        """Whether sections of a bin were joined since it was added or last cleared, also where nothing was there to join.

        Raises UnknownBin."""
        it = ctypes.c_uint32()
        with naming(bin):
            self._call("was_coalesced", self._id(bin), it)
        return it.value != 0
