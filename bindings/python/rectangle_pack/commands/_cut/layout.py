"""Where things stand on the page of a sheet: its scale, the drawing, and the legend below that."""
from __future__ import annotations

from collections import Counter
from collections.abc import Sequence
from dataclasses import dataclass
from decimal import Decimal

from .page import Area, text_width
from .plan import Part, SheetPlan, piece_of
from .result import Result

__all__ = [
    "FACTS_AT", "JOB_AT", "LEGEND_LINE", "LEGEND_SIZE", "LONG", "MARGIN", "MEASURES", "SHORT", "SWATCH", "TITLE_AT", "Layout",
    "colour_of", "entries_of", "offcut_key", "scale_text",
]

COLOURS = ("#bfe0ee", "#ffe3a0", "#d3e6ab", "#f9cfc3", "#e2d6ec", "#bfe0d8", "#f7e3c0", "#cfdaff",
           "#f2cfd1", "#dcdcd0", "#ffe7c9", "#c9e2ba")

LONG, SHORT, MARGIN = 297.0, 210.0, 10.0
# Where title, job and facts stand; how high are the head, the measures of the sheet, the gap below it, a line of the legend,
# and what stands below that.
TITLE_AT, JOB_AT, FACTS_AT, HEAD, MEASURES, GAP, LEGEND_LINE, FOOT = 13.0, 18.5, 23.0, 26.0, 8.0, 5.0, 4.6, 5.0
# A column of the legend is at least so wide. Long entries are cut short where it would have more lines than these. It takes
# at most this part of the page. Then the size of its text, and how much room the coloured number before that takes.
COLUMN, LEGEND_LINES, LEGEND_PART, LEGEND_SIZE, SWATCH = 45.0, 8, 0.35, 2.8, 9.0

# One of these, times a power of ten, is what one millimetre of paper stands for.
SCALES = ("1", "1.2", "1.5", "1.8", "2", "2.5", "3", "3.5", "4", "5", "6", "7", "8", "9")


@dataclass(frozen=True)
class Entry:
    """A line of the legend."""

    key: str
    text: str
    colour: str
    is_offcut: bool = False


def entries_of(result: Result, plan: SheetPlan) -> list[Entry]:
    """Which panels are on the sheet, by the lines of the list, and then the offcuts."""
    lengths = result.job.lengths
    counts = Counter(part.laid.panel.key for part in plan.panels if part.laid)
    panels = {part.laid.panel.key: part.laid.panel for part in plan.panels if part.laid}
    entries = []
    for key in sorted(counts):
        text = f"{counts[key]} x {panels[key].title}, {lengths.size(panels[key].width, panels[key].height)}"
        entries.append(Entry(str(key), text, colour_of(key)))
    for part in plan.offcuts:
        piece = piece_of(result.job, part)
        entries.append(Entry(offcut_key(part), f"offcut {piece.name}, {piece.size}", "#ffffff", True))
    return entries


def colour_of(key: int) -> str:
    return COLOURS[(key - 1) % len(COLOURS)]


def offcut_key(part: Part) -> str:
    """The end of its name, which has the number of the sheet and its own."""
    return part.name.rsplit(" ", 1)[-1]


class Layout:
    """Where things stand on a page of this size."""

    def __init__(self, width: float, height: float, entries: Sequence[Entry], size: tuple[Decimal, Decimal]) -> None:
        self.width, self.height, self.entries = width, height, list(entries)
        widest = max(text_width(entry.text, LEGEND_SIZE) for entry in entries) + SWATCH + 3.5
        whole = width - 2 * MARGIN
        self.columns = min(max(int(whole // widest), -(-len(entries) // LEGEND_LINES)), int(whole // COLUMN))
        most = int(height * LEGEND_PART // LEGEND_LINE) * self.columns
        self.hidden = max(len(self.entries) - most, 0)
        if self.hidden:
            self.hidden += 1
            self.entries = self.entries[:most - 1]
        self.lines = -(-(len(self.entries) + bool(self.hidden)) // self.columns)
        below = GAP + self.lines * LEGEND_LINE + FOOT
        room = (width - 2 * MARGIN - MEASURES, height - HEAD - MEASURES - below - MARGIN)
        self.scale = _scale(max(float(size[0]) / room[0], float(size[1]) / room[1]))
        # The sheet is in the middle between left and right, and the legend below it.
        self.x = MARGIN + MEASURES + (room[0] - float(size[0] / self.scale)) / 2
        self.y = HEAD + MEASURES
        self.legend = self.y + float(size[1] / self.scale) + GAP
        self.end = self.legend + self.lines * LEGEND_LINE + FOOT

    def column(self, index: int) -> Area:
        """The place of a line of the legend: columns are filled one after the other."""
        width = (self.width - 2 * MARGIN) / self.columns
        across, along = divmod(index, self.lines)
        return Area(MARGIN + across * width, self.legend + along * LEGEND_LINE, width - 2, LEGEND_LINE)


def _scale(least: float) -> Decimal:
    """The least scale that is not below this one."""
    for power in range(-3, 9):
        for scale in SCALES:
            found = Decimal(scale).scaleb(power)
            if found >= Decimal(least):
                return found
    raise AssertionError("a sheet has at most 2**32 mm")


def scale_text(scale: Decimal) -> str:
    """As it is written: 1:12, or 2.5:1 where the drawing is larger than the sheet."""
    if scale >= 1:
        return f"1:{scale.normalize():f}"
    return f"{(1 / scale).quantize(Decimal('0.1')).normalize():f}:1"
