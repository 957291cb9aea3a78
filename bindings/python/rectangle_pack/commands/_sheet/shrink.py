"""The smallest pages that take the same sprites. Of all sizes that are tried this is the one with the fewest pixels, and of
equally many the one whose longer side is shorter."""
from __future__ import annotations

import math
from collections.abc import Sequence
from dataclasses import dataclass

from ... import AnyHeuristic, Bin, Box
from .._common import progress
from .packer import Boxes
from .rules import PageRules, Size
from .share import Page, cells_of, pages_of

__all__ = ["Smallest", "shrunk"]

# In at least so many steps the widths go from the least to the greatest one that is tried. There are more steps for few boxes:
# so many that steps times boxes are as many as this. A search for how boxes are turned takes longer, and is made in fewer steps.
_STEPS, _STEPS_TIMES_BOXES, _STEPS_OF_SEARCH = 48, 24_000, 8


def _rank(size: Size) -> tuple[int, int]:
    """Least for the smallest."""
    return size[0] * size[1], max(size)


@dataclass(frozen=True)
class Smallest:
    """The smallest page that was found: its size, and what stands on it."""

    size: Size
    page: Page


class _Search:
    """Looks for the smallest page that takes these boxes, from one that takes them."""

    def __init__(self, page: Page, boxes: Boxes, rules: PageRules, heuristic: AnyHeuristic) -> None:
        # They stay together anyway, so groups count no longer.
        self._boxes = {index: Box(*boxes[index][:2]) for index in page.corners}
        self._rules, self._packer = rules, rules.packer(heuristic)
        self._cells = cells_of(self._boxes)
        # The sides that a bin has at least.
        self._widest = max(box.width for box in self._boxes.values())
        self._highest = max(box.height for box in self._boxes.values())
        if rules.turn:
            self._widest = self._highest = max(min(box.width, box.height) for box in self._boxes.values())
        self.best = self._cut_off(page)

    def _cut_off(self, page: Page) -> Smallest:
        """A page without what is empty at its right and at its lower edge."""
        ends = [page.end_of(index, box) for index, box in self._boxes.items()]
        return Smallest(self._rules.page((max(x for x, _ in ends), max(y for _, y in ends))), page)

    def _take(self, bin: Bin) -> bool:
        """Whether this bin takes the boxes. If the page is smaller than the best one, it is the best from then on."""
        packing = self._packer.whole(bin, self._boxes)
        if packing is None:
            return False
        found = self._cut_off(*pages_of(packing))
        if _rank(found.size) < _rank(self.best.size):
            self.best = found
        return True

    def tries(self) -> list[Bin]:
        """The bins to try one after the other. Where pages may have any size, these have all widths and the greatest height."""
        return self._sizes() if self._rules.has_few_sizes else self._widths()

    def attempt(self, bin: Bin) -> None:
        if not self._rules.has_few_sizes:
            self._try_width(bin)
        elif _rank(self._rules.page(bin[:2])) < _rank(self.best.size):
            self._take(bin)

    def _sizes(self) -> list[Bin]:
        """The smallest first, and of equal ones the wide one."""
        bins = map(self._rules.bin, sorted(self._rules.sizes(), key=lambda it: (_rank(it), it[1])))
        return [it for it in bins if it.width >= self._widest and it.height >= self._least_height(it.width)]

    def _least_height(self, width: int) -> int:
        return max(self._highest, -(-self._cells // width))

    def _widths(self) -> list[Bin]:
        """From half the root of the boxes' cells to twice that, in equal steps, as far as boxes and pages allow it. The one
        that is nearest to the root comes first, so that a small page is found soon."""
        most, root = self._rules.bin(self._rules.most), math.isqrt(self._cells)
        least = max(self._widest, -(-self._cells // most.height), min(root // 2, most.width))
        greatest = min(most.width, 2 * max(least, root))
        most_steps = _STEPS_OF_SEARCH if self._packer.tries else max(_STEPS, _STEPS_TIMES_BOXES // len(self._boxes))
        steps = max(1, min(greatest - least, most_steps))
        widths = {self._whole_width(least + (greatest - least) * step // steps) for step in range(steps + 1)}
        return [Bin(width, most.height) for width in sorted(widths, key=lambda it: (abs(it - root), it))]

    def _whole_width(self, width: int) -> int:
        """The width of the bin of the least page that is so wide."""
        return self._rules.bin(self._rules.page((width, width))).width

    def _try_width(self, bin: Bin) -> None:
        """Tries the greatest height at which a page of this width has no more pixels than the best one. Where it takes the
        boxes, the least height is looked for by halving."""
        width, more, pixels = bin.width, self._rules.more, self.best.size[0] * self.best.size[1]
        least, height = self._least_height(width), min(bin.height, pixels // (width + more) - more)
        if height < least or not self._take(Bin(width, height)):
            return
        while least < height:
            middle = (least + height) // 2
            if self._take(Bin(width, middle)):
                height = middle
            else:
                least = middle + 1


def shrunk(pages: Sequence[Page], boxes: Sequence[Box], rules: PageRules, heuristic: AnyHeuristic) -> list[Smallest]:
    """The smallest page for the boxes of each page."""
    indexed = dict(enumerate(boxes))
    searches = [_Search(page, indexed, rules, heuristic) for page in pages]
    tries = [(search, bin) for search in searches for bin in search.tries()]
    for search, bin in progress(tries, len(tries), "packing"):
        search.attempt(bin)
    return [search.best for search in searches]
