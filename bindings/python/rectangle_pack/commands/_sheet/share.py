"""Which sprites share a page: as few pages of the greatest size as can be found."""
from __future__ import annotations

from collections.abc import Iterator, Mapping, Sequence
from dataclasses import dataclass
from typing import Any

from ... import AnyHeuristic, Bin, Box, Heuristic, Packing, Session
from .._common import NoRoom, progress
from .packer import Boxes, Packer
from .rules import PageRules, Size, shown

__all__ = ["Page", "cells_of", "pages_of", "shared_out"]

# After a group that does not fit a page, the next to be tried there is smaller by a part of its cells: the number of boxes in so
# many. So for many boxes there are few tries, and for few boxes all groups are tried.
_BOXES_FOR_ONE_TRY = 50_000

# All boxes but those on the first pages are packed at once for about so many numbers of first pages.
_TIMES_AT_ONCE = 8


@dataclass(frozen=True)
class Page:
    """The boxes on a page, each with its corner in the bin; which of them are turned; and what they were packed by, None where
    that was searched for."""

    heuristic: Heuristic | None
    corners: Mapping[int, Size]
    turned: frozenset[int] = frozenset()

    def end_of(self, index: int, box: Box) -> Size:
        """The corner of a box that is opposite to its own one."""
        x, y = self.corners[index]
        return (x + box.height, y + box.width) if index in self.turned else (x + box.width, y + box.height)


def cells_of(boxes: Boxes) -> int:
    return sum(box.width * box.height for box in boxes.values())


def _groups(boxes: Boxes) -> dict[object, dict[int, Box]]:
    """The groups. Their boxes are alone here, since one page that takes a group may take its boxes in any order."""
    groups: dict[object, dict[int, Box]] = {}
    for index, box in boxes.items():
        if box.group is not None:
            groups.setdefault(box.group, {})[index] = Box(box.width, box.height)
    return groups


def pages_of(*packings: Packing[int, Any]) -> list[Page]:
    """The pages of packings into the same bins, by one heuristic."""
    pages: dict[int, dict[int, Size]] = {}
    for it in (it for packing in packings for it in packing):
        pages.setdefault(it.bin, {})[it.name] = (it.x, it.y)
    turned = frozenset(it.name for packing in packings for it in packing if it.turned)
    return [Page(packings[0].heuristic, pages[number], turned & pages[number].keys()) for number in sorted(pages)]


class _Sharing:
    """Boxes, and the pages that are filled by them one after the other. Of boxes that are rated alike the first goes first."""

    def __init__(self, boxes: Boxes, bin: Bin, packer: Packer) -> None:
        self._boxes, self._bin, self._packer = boxes, bin, packer
        self._room = bin.width * bin.height
        self._filled: list[Page] = []

    def fitting(self, boxes: Boxes, count: int = 1) -> Packing[int, Any]:
        """What fits of these boxes onto so many pages."""
        return self._packer.fitting([self._bin] * count, boxes)

    def refused(self) -> list[tuple[object, int]]:
        """The groups that fit no page, and how many boxes each has."""
        return [(group, len(members)) for group, members in _groups(self._boxes).items() if self.fitting(members).left]

    def fill(self) -> Iterator[int]:
        """Fills page after page, until no box is left. The boxes as they are placed."""
        left = dict(self._boxes)
        while left:
            page = self._next_page(left)
            self._filled.append(page)
            for index in page.corners:
                del left[index]
            yield from page.corners

    def _next_page(self, left: Boxes) -> Page:
        """A page with as many groups as are found for it, and with boxes that are alone in what these leave."""
        groups, alone = self._gathered(left), {index: box for index, box in left.items() if box.group is None}
        if not groups or not alone:
            return pages_of(self.fitting(groups or alone))[0]
        pages = [page for packer in self._packer.each for page in self._with_alone(groups, alone, packer)]
        return max(pages, key=self._cells)

    def _gathered(self, left: Boxes) -> dict[int, Box]:
        """Groups that one page takes: the largest first, as many at a time as fit with those before them. At first all are tried,
        after a failure half as many, and after a success twice as many."""
        chosen: dict[int, Box] = {}
        groups = _groups(left).values()
        waiting = sorted(((cells_of(group), group) for group in groups), key=lambda it: it[0], reverse=True)
        count, most = len(waiting), self._room
        while waiting:
            tried = waiting[:count]
            together = {**chosen, **{index: box for _, group in tried for index, box in group.items()}}
            if cells_of(together) <= self._room and not self.fitting(together).left:
                chosen, waiting, count = together, waiting[count:], 2 * count
                most = self._room - cells_of(chosen)
            elif len(tried) > 1:
                count = len(tried) // 2
            else:
                cells, count = waiting.pop(0)[0], 1
                most = cells - 1 - cells * len(self._boxes) // _BOXES_FOR_ONE_TRY
            waiting = [it for it in waiting if it[0] <= most]
        return chosen

    def _with_alone(self, groups: Boxes, alone: Boxes, packer: Packer) -> list[Page]:
        """The page of these groups, and of what fits beside them. None where this packer does not get them onto a page."""
        with Session([self._bin]) as session:
            packing = packer.fitting_free(session, groups)
            return [] if packing.left else pages_of(packing, packer.fitting_free(session, alone))

    def fewest(self) -> list[Page]:
        """The filled pages, or better ones, of which the first stay, and all other boxes are packed at once."""
        best, left = self._filled, dict(self._boxes)
        for kept, page in enumerate(self._filled):
            count = len(best) - kept - 1
            if cells_of(left) > count * self._room:
                break
            if kept % (len(self._filled) // _TIMES_AT_ONCE + 1) == 0:
                packing = self.fitting(left, count)
                last = self.fitting({it.name: left[it.name] for it in packing.left})
                if not last.left:
                    best = min(best, [*self._filled[:kept], *pages_of(packing), *pages_of(last)], key=self.use)
            for index in page.corners:
                del left[index]
        return best

    def _cells(self, page: Page) -> int:
        return cells_of({index: self._boxes[index] for index in page.corners})

    def use(self, pages: Sequence[Page]) -> tuple[int, int]:
        """How many pages, and how many cells are taken on the last one."""
        return len(pages), self._cells(pages[-1])


def shared_out(boxes: Sequence[Box], rules: PageRules, heuristic: AnyHeuristic) -> list[Page]:
    """The pages, each of the greatest size. Each box fits a page. Refuses a group that fits none.

    All is done in two orders, the given one and by falling sum of the sides, as either may need fewer pages. A search tries
    orders itself."""
    given, bin, packer = dict(enumerate(boxes)), rules.bin(rules.most), rules.packer(heuristic)
    falling = dict(sorted(given.items(), key=lambda it: it[1].width + it[1].height, reverse=True))
    sharings = [_Sharing(ordered, bin, packer) for ordered in ((given,) if packer.tries else (given, falling))]
    takers = [sharing for sharing in sharings if not sharing.refused()]
    if not takers:
        group, count = sharings[0].refused()[0]
        raise NoRoom(f"the group {group!r} ({count} sprites) fits no page of {shown(rules.most)}{rules.why_most}")
    steps = (index for sharing in takers for index in sharing.fill())
    for _ in progress(steps, len(takers) * len(boxes), "sharing"):
        pass
    return min((sharing.fewest() for sharing in takers), key=takers[0].use)
