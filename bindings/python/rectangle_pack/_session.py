"""Sessions."""
from __future__ import annotations

import os
from collections.abc import Iterable, Mapping, Sequence
from pathlib import Path
from types import TracebackType
from typing import Any, overload

from . import _library
from ._collection import Collection, bin_of, box_of, heuristic_number, items_of
from ._errors import NotASession
from ._files import write_whole
from ._handle import alone
from ._packing import PackingAll
from ._saving import Saved, SavedBin, SavedPlacement, as_c, saved_of, what_is_wrong
from ._searching import wanted_of
from ._types import (
    AnyHeuristic, AnyStep, Asked, Bin, BinName, Box, BoxName, Groups, Outstanding, Packing, Pairs, Section, Turning,
)


def _the_one(boxes: Mapping[Any, Box] | Sequence[Box]) -> tuple[Any, Box] | None:
    """The name and the box, where there is one, and it is alone."""
    if not isinstance(boxes, (dict, list)) or len(boxes) != 1:
        return None
    (name, box), = boxes.items() if isinstance(boxes, dict) else enumerate(boxes)
    box = box_of(name, box)
    return (name, box) if box.group is None else None


class Session(PackingAll[BinName]):
    """Bins that stay, and boxes that are packed into them and released by number.

    >>> from rectangle_pack import Bin, Box, Session
    >>> with Session({"sheet": Bin(10, 10)}) as session:
    ...     packing = session.pack({"hat": Box(4, 10)})
    ...     session.release(packing["hat"].number)
    ...     session.coalesce_all("sheet")
    ...     session.stats("sheet")
    Stats(bin_volume=100, free_volume=100, placed_volume=0, free_sections=1, placements=0)

    Names of bins, boxes and groups are any values that a dict takes as keys. Those of boxes and groups belong to one packing:
    a later one may use them anew.

    Each cell of a bin is in exactly one free section or outstanding placement. A call that raises leaves the session as it
    was. Memory is given back at the end of the with block, by close(), or when nothing refers to the session any more.

    Each method raises ValueError where the session is closed, and ValueError or TypeError where a size or a corner is not of
    numbers of 32 bits, or where that of a placement or an index in a list is not one of 64. Several threads may use a session:
    a call waits until that of another thread has ended."""

    @overload
    def __init__(self, bins: Mapping[BinName, Bin] = ...) -> None: ...

    @overload
    def __init__(self: Session[int], bins: Sequence[Bin]) -> None: ...

    def __init__(self, bins: Mapping[Any, Bin] | Sequence[Bin] = ()) -> None:
        """A session with these bins. More can be added. A list in place of a mapping means that the names are the indices.

        Where there are no bins yet, a type checker is told the type of their names: Session[str]().

        Raises OutOfMemory."""
        super().__init__()
        for name, size in items_of(bins):
            width, height, depth, count, cost = bin_of(name, size)
            if count != 1:
                raise ValueError(f"bin {name!r}: count {count}: a session has one bin of each name")
            self.add_bin(name, width, height, depth, cost=cost)

    def __enter__(self) -> Session[BinName]:
        self._check_open()
        return self

    def __exit__(
        self, kind: type[BaseException] | None, error: BaseException | None, trace: TracebackType | None,
    ) -> None:
        self.close()

    @alone
    def save(self, path: str | os.PathLike[str]) -> None:
        """Saves the session to a file of JSON: bins, free sections, placements and the next number. The file is written whole or
        not at all.

        Names of bins, boxes and groups may be texts, whole numbers, None, and tuples of these. Raises TypeError where one is not,
        and OSError."""
        homes = {id: index for index, (id,) in enumerate(self._read("bins", _library.BinId))}
        bins = []
        for id in homes:
            name = self._names[id]
            size = Bin(*self._sides[id])._replace(cost=self._costs.get(id, 1))
            bins.append(SavedBin(name, size, self.was_coalesced(name), self.free_sections(name)))
        placements = []
        for number, _, id, *section in self._read("outstanding", _library.RpStanding):
            box, group, _, turned = self._boxes[number]
            placements.append(SavedPlacement(number, box, group, homes[id], Section(*section), turned))
        write_whole(Path(path), Saved(bins, placements, self.next_number()).text().encode())

    @classmethod
    def load(cls, path: str | os.PathLike[str]) -> Session[Any]:
        """The session that was saved to this file. It goes on as the other one would: placements keep their numbers.

        >>> with Session({"sheet": Bin(10, 10)}) as session:
        ...     packing = session.pack({"hat": Box(4, 10)})
        ...     session.save("atlas.json")
        >>> with Session.load("atlas.json") as session:
        ...     session.outstanding()[0].name
        'hat'

        The library looks at all that the file says: so no file makes a session that gives a cell twice, or loses one. Raises
        NotASession, which says what is wrong and where; OutOfMemory; or OSError."""
        try:
            saved = saved_of(Path(path).read_text("utf-8"))
        except UnicodeDecodeError:
            raise NotASession("no UTF-8") from None
        session: Session[Any] = cls()
        wrong = _library.RpWrong()
        status = session._restore(as_c(saved), wrong)
        if status == _library.WRONG_PARTS:
            raise what_is_wrong(saved, wrong)
        _library.check(status)
        for id, bin in enumerate(saved.bins):
            session._keep_bin(bin.name, id, bin.size[:3], bin.size.cost)
        session._next_id = len(saved.bins)
        session._boxes = {it.number: (it.name, it.group, it.bin, it.turned) for it in saved.placements}
        return session

    @overload
    def pack(
        self, boxes: Mapping[BoxName, Box], *,
        groups: Groups[BoxName] | None = ..., exclude: Pairs = ..., heuristic: AnyHeuristic | None = ...,
        partial: bool = ..., tries: int = ..., seed: int = ..., turn: Turning[BoxName] | None = ..., progress: Asked | None = ...,
    ) -> Packing[BoxName, Outstanding[BoxName, BinName]]: ...

    @overload
    def pack(
        self, boxes: Sequence[Box], *,
        groups: Groups[int] | None = ..., exclude: Pairs = ..., heuristic: AnyHeuristic | None = ...,
        partial: bool = ..., tries: int = ..., seed: int = ..., turn: Turning[int] | None = ..., progress: Asked | None = ...,
    ) -> Packing[int, Outstanding[int, BinName]]: ...

    def pack(
        self, boxes: Mapping[Any, Box] | Sequence[Box], *,
        groups: Groups[Any] | None = None, exclude: Pairs = (), heuristic: AnyHeuristic | None = None,
        partial: bool = False, tries: int = 0, seed: int = 0, turn: Turning[Any] | None = None, progress: Asked | None = None,
    ) -> Packing[Any, Outstanding[Any, BinName]]:
        """Packs all boxes into what is free in the bins, as the function pack does. What stood there before excludes nothing,
        and "best" does not count it.

        Placements are numbered 0, 1, 2 and so on, in the order of packing: groups by falling sum of their boxes' rates, at ties
        boxes that are alone first, in their order, and then groups as they were named. Each goes into the first bin that takes
        it, by rising rate, at ties in the order in which the bins were added. In a group boxes go in their order, and last
        those for which it is a further group.

        With partial what fits is packed, and boxes that are left have no number:

        >>> with Session({"sheet": Bin(10, 10)}) as session:
        ...     packing = session.pack({"door": Box(8, 9), "shelf": Box(8, 3), "strip": Box(1, 9)}, partial=True)
        ...     session.release(packing["door"].number)
        ...     [it.name for it in session.outstanding()], packing.left
        (['strip'], (Left(name='shelf', group=None),))

        With tries, or turn, a packing is searched for; other threads wait until it is packed. packing.least and packing.optimal do
        not count what stood there before. Where Ctrl-C is pressed while what was found is packed, it is outstanding.

        Raises NotEnoughBinSpace, which never comes with partial, OutOfMemory, TooMany or NumbersUsedUp; and before anything is
        packed UnknownHeuristic, UnknownBox, UnknownGroup or EqualGroups, which are ValueErrors."""
        if tries or turn is not None:
            wanted = wanted_of(heuristic, tries, seed, turn, partial, progress)
            return self._pack_searched(Collection(boxes, groups or {}, exclude), wanted)
        asked = heuristic_number("volume" if heuristic is None else heuristic)
        one = None if groups or exclude or partial else _the_one(boxes)
        if one is not None:
            return self._pack_one(*one, asked)
        return self._pack_all(Collection(boxes, groups or {}, exclude), asked, partial)

    @overload
    def pack_told(
        self, boxes: Mapping[BoxName, Box], steps: Iterable[AnyStep], *,
        groups: Groups[BoxName] | None = ..., exclude: Pairs = ...,
    ) -> Packing[BoxName, Outstanding[BoxName, BinName]]: ...

    @overload
    def pack_told(
        self, boxes: Sequence[Box], steps: Iterable[AnyStep], *,
        groups: Groups[int] | None = ..., exclude: Pairs = ...,
    ) -> Packing[int, Outstanding[int, BinName]]: ...

    def pack_told(
        self, boxes: Mapping[Any, Box] | Sequence[Box], steps: Iterable[AnyStep], *,
        groups: Groups[Any] | None = None, exclude: Pairs = (),
    ) -> Packing[Any, Outstanding[Any, BinName]]:
        """Packs into what is free in the bins as it is told, as the function pack_told does. What stood there before excludes
        nothing.

        >>> with Session({"page": Bin(4, 4), "next": Bin(4, 4)}) as session:
        ...     packing = session.pack_told({"hat": Box(4, 3), "cap": Box(4, 2)}, [("cap", "next")])
        ...     [(it.name, it.bin, it.number) for it in packing], packing.left
        ([('cap', 'next', 0)], (Left(name='hat', group=None),))

        Raises StepRefused, OutOfMemory, TooMany or NumbersUsedUp; and before anything is packed what pack_told raises."""
        return self._pack_told(Collection(boxes, groups or {}, exclude), steps)
