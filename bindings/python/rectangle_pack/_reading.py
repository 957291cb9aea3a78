"""What is read of a session."""
from __future__ import annotations

from collections.abc import Iterable
from typing import Any

from . import _library
from ._bins import Bins
from ._cuts import CutStep, CutTree, steps_of, tree_of
from ._errors import naming
from ._handle import alone
from ._types import BinName, Outstanding, Section, Stats


class Reading(Bins[BinName]):
    """The calls that change nothing."""

    @alone
    def next_number(self) -> int:
        """The number that the next placement gets, or 2**64 - 1 where numbers are used up."""
        self._check_open()
        return _library.call("session_next_number", self._handle)

    @alone
    def bins(self) -> list[BinName]:
        """The names of all bins, in the order in which they were added."""
        return [self._names[id] for id, in self._read("bins", _library.BinId)]

    @alone
    def free_sections(self, bin: BinName) -> list[Section]:
        """The free sections of a bin, the newest last.

        Raises UnknownBin."""
        with naming(bin):
            return [Section(*it) for it in self._read("free_sections", _library.RpSection, self._id(bin))]

    @alone
    def outstanding(self) -> list[Outstanding[Any, BinName]]:
        """The outstanding placements of all bins, in the order of their numbers."""
        return self._standing(self._read("outstanding", _library.RpStanding))

    @alone
    def outstanding_in(self, bin: BinName) -> list[Outstanding[Any, BinName]]:
        """The outstanding placements of one bin, in the order of their numbers.

        >>> with Session({"page": Bin(4, 4), "next": Bin(4, 4)}) as session:
        ...     packing = session.pack({"hat": Box(4, 3), "cap": Box(4, 2)})
        ...     [it.name for it in session.outstanding_in("next")]
        ['cap']

        Raises UnknownBin."""
        with naming(bin):
            return self._standing(self._read("outstanding_in", _library.RpStanding, self._id(bin)))

    def _standing(self, rows: Iterable[tuple[int, ...]]) -> list[Outstanding[Any, BinName]]:
        """The placements that the library listed."""
        standing = []
        for number, _, id, x, y, z, width, height, depth in rows:
            name, group, _, turned = self._boxes[number]
            standing.append(Outstanding(name, group, self._names[id], x, y, z, width, height, depth, number, turned=turned))
        return standing

    @alone
    def cut_plan(self, bin: BinName) -> list[CutStep] | None:
        """The cutting plan of a bin: straight cuts, each across a whole part, that leave its free sections and its boxes.

        >>> with Session({"sheet": Bin(10, 10)}) as session:
        ...     packing = session.pack({"hat": Box(4, 10)})
        ...     session.cut_plan("sheet")
        [Cut(axis='x', place=4), Leaf(), Leaf()]

        A part with two of these or more is cut on the first axis of x, y and z on which it can be, at the least place. None
        where no straight cuts leave them, which is so only where sections of the bin were joined.

        Raises UnknownBin or OutOfMemory."""
        with naming(bin):
            status, steps = self._ask("cut_plan", _library.RpCutStep, self._id(bin))
            if status == _library.NO_PLAN:
                return None
            _library.check(status)
        return steps_of(steps)

    @alone
    def cut_tree(self, bin: BinName) -> CutTree | None:
        """The cutting plan of a bin as a tree: each cut with what it leaves, down to the sections that are not cut.

        >>> with Session({"sheet": Bin(10, 10)}) as session:
        ...     packing = session.pack({"hat": Box(4, 10)})
        ...     cut = session.cut_tree("sheet")
        >>> cut
        CutNode(axis='x', place=4)
        >>> cut.lower == packing["hat"].section
        True
        >>> cut.upper
        Section(x=4, y=0, z=0, width=6, height=10, depth=1)

        It may be as deep as it has cuts, thousands deep: go through it with a stack. None where there is no plan.

        Raises UnknownBin or OutOfMemory."""
        steps = self.cut_plan(bin)
        return None if steps is None else tree_of(steps, Section(0, 0, 0, *self._sides[self._ids[bin]]))

    @alone
    def stats(self, bin: BinName) -> Stats:
        """What is free and what is placed in a bin. The free and the placed volume add up to that of the bin.

        Raises UnknownBin."""
        it = _library.RpStats()
        with naming(bin):
            self._call("stats", self._id(bin), it)
        return Stats(int(it.bin_volume), int(it.free_volume), int(it.placed_volume), it.free_sections, it.placements)
