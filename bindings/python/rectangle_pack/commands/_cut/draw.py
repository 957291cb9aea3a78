"""The drawing of a sheet, to scale, on a page of A4."""
from __future__ import annotations

from collections.abc import Iterator
from decimal import Decimal

from .label import Words, label
from .layout import (
    FACTS_AT, JOB_AT, LEGEND_LINE, LEGEND_SIZE, LONG, MARGIN, MEASURES, SHORT, SWATCH, TITLE_AT, Layout, colour_of,
    entries_of, offcut_key, scale_text,
)
from .page import Area, Disc, Lines, Oblong, Page, Shape, Stroke, Text, shortened, text_width
from .plan import Cut, Part, Rect, SheetPlan, piece_of, steps_of
from .result import Result, percent
from .text import counted, heading, stem_of

__all__ = ["page_of"]

# The size of the numbers of cuts: on paper less could not be read. Those that have no room are left out.
NUMBER_SIZE = 2.5

INK, FAINT, BLADE, KEPT, WASTE, HATCH = "#1d2429", "#5d686f", "#b3261e", "#1f6b3a", "#f1f1ee", "#c9cdca"


def _hatch(area: Area) -> Iterator[Stroke]:
    """Slanted lines across all of it."""
    step = at = 3.0
    while at < area.width + area.height:
        x, y = max(at - area.height, 0.0), min(at, area.height)
        to_x, to_y = min(at, area.width), max(at - area.width, 0.0)
        yield Stroke(area.x + x, area.y + y, area.x + to_x, area.y + to_y)
        at += step


class _Drawing:
    """Draws one sheet."""

    def __init__(self, result: Result, plan: SheetPlan) -> None:
        self.result, self.plan, self.lengths = result, plan, result.job.lengths
        entries = entries_of(result, plan)
        size = self.mm(plan.kind.width), self.mm(plan.kind.height)
        several = [Layout(*paper, entries, size) for paper in ((LONG, SHORT), (SHORT, LONG))]
        # The larger drawing; where both are as large, the page lies as the sheet does.
        self.layout = min(several, key=lambda it: (it.scale, (it.width < it.height) != (size[0] < size[1])))
        self.shapes: list[Shape] = []
        self.taken: list[Area] = []
        self.without_label = 0

    def mm(self, cells: int) -> Decimal:
        return self.lengths.mm(cells)

    def paper(self, cells: int) -> float:
        """A length of the sheet on paper."""
        return float(self.mm(cells) / self.layout.scale)

    def area(self, rect: Rect) -> Area:
        """Where a part of the sheet is on the page. On paper y goes down."""
        above = self.plan.kind.height - rect.y - rect.height
        return Area(self.layout.x + self.paper(rect.x), self.layout.y + self.paper(above),
                    self.paper(rect.width), self.paper(rect.height))

    def head(self) -> None:
        """The title, the job, and below it what is to be known of the sheet."""
        plan, job, width = self.plan, self.result.job, self.layout.width - 2 * MARGIN
        title = shortened(heading(self.result, plan), width, 4.6, f": {plan.times}" if plan.times else "", True)
        self.shapes.append(Text(MARGIN, TITLE_AT, title, 4.6, INK, is_centred=False, is_bold=True))
        of = f", {job.of}" if job.of else ""
        title = shortened(f"Job {job.name}", width, 3.4, of, True) or shortened(job.title, width, 3.4, is_bold=True)
        self.shapes.append(Text(MARGIN, JOB_AT, title, 3.4, INK, is_centred=False, is_bold=True))
        facts = [
            f"scale {scale_text(self.layout.scale)}", f"kerf {self.lengths.text(job.kerf)}",
            f"trim {self.lengths.text(plan.kind.trim)}", counted(len(plan.panels), "panel"),
            f"waste {percent(plan.waste, plan.kind.area)} %",
            f"{counted(len(plan.cuts), 'cut')} of {self.lengths.far(plan.cut_length)} together",
        ]
        self.shapes.append(Text(MARGIN, FACTS_AT, ", ".join(facts), 3.0, FAINT, is_centred=False))

    def sheet(self) -> None:
        """The sheet, hatched as waste is, with its measures."""
        whole = self.area(Rect(0, 0, self.plan.kind.width, self.plan.kind.height))
        self.shapes += [Oblong(whole, WASTE), Lines(list(_hatch(whole)), HATCH, 0.15), Oblong(whole, "", INK, 0.35)]
        above, left = whole.y - MEASURES / 2, whole.x - MEASURES / 2
        width, height = self.lengths.text(self.plan.kind.width), self.lengths.text(self.plan.kind.height)
        self.measure(Stroke(whole.x, above, whole.x + whole.width, above), f"x {width}")
        self.measure(Stroke(left, whole.y + whole.height, left, whole.y), f"y {height}")

    def measure(self, line: Stroke, text: str) -> None:
        """A line with a tick at each end and a text in its middle."""
        is_upright = line.x == line.to_x
        across, along = (1.2, 0.0) if is_upright else (0.0, 1.2)
        ticks = [Stroke(x - across, y - along, x + across, y + along) for x, y in (line[:2], line[2:])]
        it = Text((line.x + line.to_x) / 2, (line.y + line.to_y) / 2, text, 3.0, INK, is_upright=is_upright)
        self.shapes += [Lines([line, *ticks], FAINT, 0.2), Oblong(it.area, "#ffffff"), it]

    def part(self, part: Part, fill: str, colour: str, key: str, name: tuple[str, str]) -> None:
        """A panel or an offcut, with its label."""
        area, piece = self.area(part.rect), piece_of(self.result.job, part)
        title = f"{piece.role} {piece.name}, {piece.size}{', turned' if piece.is_turned else ''}"
        self.shapes.append(Oblong(area, fill, colour, 0.15, part.role == "offcut", title))
        words = Words(*name, piece.width, piece.height, key, colour)
        texts = label(words, area)
        self.shapes += texts
        self.taken += [text.area for text in texts]
        self.without_label += not texts

    def parts(self) -> None:
        """The panels, each in the colour of its line in the list, and the offcuts."""
        for part in self.plan.panels:
            assert part.laid
            panel = part.laid.panel
            tail = part.name[len(panel.title):]
            self.part(part, colour_of(panel.key), INK, str(panel.key), (panel.title, tail))
        # That it is an offcut is seen by its edges: so there is more room for the name.
        for part in self.plan.offcuts:
            key = offcut_key(part)
            self.part(part, "#ffffff", KEPT, key, (part.name[:-len(key) - 1], f" {key}"))

    def blade(self, cut: Cut) -> Area:
        """What the blade takes, widened where it would not be seen."""
        rect, (near, far) = cut.part.rect, cut.blade
        taken = Rect(near, rect.y, far - near, rect.height) if cut.axis == "x" else Rect(rect.x, near, rect.width, far - near)
        it = self.area(taken)
        wide, high = max(it.width, 0.2), max(it.height, 0.2)
        return Area(it.x - (wide - it.width) / 2, it.y - (high - it.height) / 2, wide, high)

    def cuts(self) -> None:
        """The cuts, and their numbers where there is room for them."""
        for cut in self.plan.cuts:
            self.shapes.append(Oblong(self.blade(cut), BLADE))
        for step, cut in zip(steps_of(self.result.job, self.plan), self.plan.cuts):
            self.number(str(step.number), self.blade(cut), step.axis == "x")

    def number(self, text: str, blade: Area, is_upright: bool) -> None:
        """The number of a cut, somewhere on it: rather near its ends, and not on other texts."""
        size = NUMBER_SIZE
        radius = text_width(text, size) / 2 + 0.35
        # On a short cut it would hide what is cut.
        if max(blade.width, blade.height) < 5 * radius:
            return
        for part in (0.06, 0.94, 0.14, 0.86, 0.24, 0.76, 0.33, 0.67, 0.42, 0.58, 0.5):
            x = blade.x + (blade.width / 2 if is_upright else blade.width * part)
            y = blade.y + (blade.height * part if is_upright else blade.height / 2)
            area = Area(x - radius, y - radius, 2 * radius, 2 * radius)
            if not any(area.meets(other) for other in self.taken):
                self.taken.append(area)
                self.shapes += [Disc(x, y, radius, "#ffffff", BLADE), Text(x, y, text, size, BLADE)]
                return

    def legend(self) -> None:
        """What the numbers on panels stand for, and the notes below that."""
        layout = self.layout
        for index, entry in enumerate(layout.entries):
            place = layout.column(index)
            swatch = Area(place.x, place.y + 0.5, SWATCH - 1.5, LEGEND_LINE - 1)
            self.shapes.append(Oblong(swatch, entry.colour, KEPT if entry.is_offcut else INK, 0.15, entry.is_offcut))
            self.shapes.append(Text(*swatch.middle, entry.key, 2.3, KEPT if entry.is_offcut else INK, is_bold=True))
            text = shortened(entry.text, place.width - SWATCH, LEGEND_SIZE)
            self.shapes.append(Text(place.x + SWATCH, swatch.middle[1], text, LEGEND_SIZE, INK, is_centred=False))
        if layout.hidden:
            place = layout.column(len(layout.entries))
            self.shapes.append(Text(place.x, place.middle[1], f"and {layout.hidden} more", LEGEND_SIZE, INK, is_centred=False))
        notes = [f"Numbers in circles: the cuts of {stem_of(self.plan)}.txt, which has all of them. Hatched: waste."]
        if self.without_label:
            notes.append(f"Too small for a number: {self.without_label}.")
        self.shapes.append(Text(MARGIN, layout.end - 1.5, " ".join(notes), 2.4, FAINT, is_centred=False))

    def drawn(self) -> Page:
        """All of it."""
        self.head()
        self.sheet()
        self.parts()
        self.cuts()
        self.legend()
        plan = self.plan
        description = f"{len(plan.panels)} panels, {len(plan.offcuts)} offcuts, {len(plan.cuts)} cuts."
        what = "; ".join(entry.text for entry in entries_of(self.result, plan))
        title, layout = ", ".join(filter(None, (heading(self.result, plan), plan.times, self.result.job.title))), self.layout
        return Page(layout.width, layout.height, layout.end + MARGIN, title, f"{description} {what}", self.shapes)


def page_of(result: Result, plan: SheetPlan) -> Page:
    """The page of a sheet."""
    return _Drawing(result, plan).drawn()
