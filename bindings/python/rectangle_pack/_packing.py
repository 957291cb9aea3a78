"""Many boxes that are packed into a session at a time: by a heuristic, as a search finds it, or as it is told."""
from __future__ import annotations

from collections.abc import Iterable
from typing import Any

from . import _library
from ._bins import NO_BIN
from ._bounding import least_of_bins
from ._collection import Collection
from ._fitting import LEFT_NUMBER, Rows, packed, parted
from ._placing import OUTSTANDING, Placing
from ._searching import Search, Wanted, as_options, known
from ._steps import Steps
from ._turning import turns_in_order
from ._types import AnyStep, BinName, Left, Outstanding, Packing, Step

_STANDING = _library.row_of(_library.RpStanding)

_Packing = Packing[Any, Outstanding[Any, BinName]]


class PackingAll(Placing[BinName]):
    """The calls that pack a collection."""

    def _pack_all(self, collection: Collection[Any], asked: int, may_leave: bool) -> _Packing[BinName]:
        entries = collection.entries()
        room, first = _library.room_of(_library.RpOutstanding, len(entries))
        told = collection.as_c()
        left: tuple[Left, ...] = ()
        with self._lock:
            self._check_open()
            chosen = packed("session_pack_", may_leave, self._handle, told, asked, first, len(entries))
            rows: Rows = zip(entries, OUTSTANDING.iter_unpack(room))
            if may_leave:
                rows, left = parted(rows, LEFT_NUMBER)
            placed = self._all_stand(rows)
            return Packing(chosen, placed, left, least_of_bins, self._sizes_now(), collection)

    def _pack_told(self, collection: Collection[Any], steps: Iterable[AnyStep]) -> _Packing[BinName]:
        told, entries = Steps(collection, steps), collection.entries()
        room, first = _library.room_of(_library.RpOutstanding, len(entries))
        refused = _library.RpRefused()
        with self._lock:
            self._check_open()
            rows = told.as_c(self._id_of_step)
            told.check(_library.call(
                "session_pack_told", self._handle, collection.as_c(), *rows, first, len(entries), refused), refused)
            placed, left = parted(zip(entries, OUTSTANDING.iter_unpack(room)), LEFT_NUMBER)
            return Packing(
                None, self._all_stand(placed), left, least_of_bins, self._sizes_now(), collection)

    def _id_of_step(self, step: Step) -> int:
        """The id of its bin, where there is one: no other one has its name."""
        name: Any = step.bin
        return NO_BIN if step.copy else self._id(name)

    def _all_stand(self, rows: Rows) -> tuple[Outstanding[Any, BinName], ...]:
        """Keeps the names of boxes that stand as they are, and says where."""
        placed = []
        for (name, group, size), (number, id, x, y, z) in rows:
            self._boxes[number] = (name, group, id, False)
            placed.append(Outstanding(name, group, self._names[id], x, y, z, *size, number))
        return tuple(placed)

    def _pack_searched(self, collection: Collection[Any], wanted: Wanted) -> _Packing[BinName]:
        turns, entries = turns_in_order(collection.names, wanted.turn), collection.entries()
        room, first = _library.room_of(_library.RpStanding, len(entries))
        told = collection.as_c()
        with self._lock:
            self._check_open()
            options = as_options(wanted, turns, [*self._costs.items()])
            with Search("session_", self._handle, told, options) as search:
                search.run(wanted, len(entries))
                # Who is asked whether to go on may have closed the session.
                next_number = self.next_number()
                try:
                    least = search.found("session_pack_found", first, len(entries))
                finally:
                    # Boxes that stand have names, also where Ctrl-C was pressed while the library packed.
                    if self.next_number() > next_number:
                        self._keep_names(zip(entries, _STANDING.iter_unpack(room)))
            rows, left = parted(zip(entries, _STANDING.iter_unpack(room)), LEFT_NUMBER)
            placed = self._standing(row for _, row in rows)
        return Packing(None, tuple(placed), left, known, least)

    def _keep_names(self, rows: Rows) -> None:
        """Keeps the names of boxes that were searched for, and whether they are turned."""
        for (name, group, size), (number, _, id, *section) in parted(rows, LEFT_NUMBER)[0]:
            self._boxes[number] = (name, group, id, tuple(section[3:]) != size)
