"""What a run decided: the plans of all sheets, what is left of the offcuts, and the sums."""
from __future__ import annotations

from collections import Counter
from collections.abc import Iterable, Sequence
from dataclasses import dataclass
from functools import cached_property

from .alike import Alike
from .job import Job, Kind, Panel, Work
from .plan import SheetPlan

__all__ = ["Result", "Results", "Sums", "percent"]


@dataclass
class Sums:
    """What is added up over sheets."""

    sheets: int = 0
    cost: int = 0
    panels: int = 0
    area: int = 0
    panel_area: int = 0
    offcuts: int = 0
    offcut_area: int = 0
    waste: int = 0
    cuts: int = 0
    cut_length: int = 0

    def add(self, plan: SheetPlan) -> None:
        self.sheets += 1
        self.cost += plan.kind.cost
        self.panels += len(plan.panels)
        self.area += plan.kind.area
        self.panel_area += sum(part.rect.area for part in plan.panels)
        self.offcuts += len(plan.offcuts)
        self.offcut_area += sum(part.rect.area for part in plan.offcuts)
        self.waste += plan.waste
        self.cuts += len(plan.cuts)
        self.cut_length += plan.cut_length


def sums_of(sheets: Iterable[SheetPlan]) -> Sums:
    sums = Sums()
    for plan in sheets:
        sums.add(plan)
    return sums


@dataclass(frozen=True, eq=False)
class Result:
    """The sheets of one material."""

    job: Job
    alike: Sequence[Alike] = ()
    # The panels that no sheet takes, and how many sheets are needed, whatever plan is made, where that is known.
    left: Sequence[Panel] = ()
    least: int | None = None

    @property
    def plans(self) -> list[SheetPlan]:
        """The plans: of sheets that are cut alike there is one."""
        return [it.plan for it in self.alike]

    @cached_property
    def sheets(self) -> list[SheetPlan]:
        """All sheets, each with the names of its panels."""
        return [sheet for it in self.alike for sheet in it.sheets]

    @cached_property
    def sums(self) -> Sums:
        return sums_of(self.sheets)

    @property
    def is_optimal(self) -> bool:
        """Whether it is proved that no plan needs fewer sheets."""
        return self.least is not None and self.sums.sheets <= self.least

    @property
    def used(self) -> list[tuple[Kind, int]]:
        """The kinds of sheets that are used, each with their number."""
        counts = Counter(id(plan.kind) for plan in self.sheets)
        return [(kind, counts[id(kind)]) for kind in self.job.kinds if counts[id(kind)]]

    @property
    def offcuts_left(self) -> list[tuple[Kind, int]]:
        """The offcuts that the run was given and did not use."""
        used = {id(kind): count for kind, count in self.used}
        left = [(kind, (kind.count or 0) - used.get(id(kind), 0)) for kind in self.job.kinds if kind.is_offcut]
        return [(kind, count) for kind, count in left if count]


@dataclass(frozen=True, eq=False)
class Results:
    """The results of a run, one for each material: also for those of which it has no plan."""

    work: Work
    results: Sequence[Result]

    @property
    def planned(self) -> list[Result]:
        """Those with sheets."""
        return [it for it in self.results if it.alike]

    @property
    def left(self) -> list[Panel]:
        return [panel for it in self.results for panel in it.left]

    @cached_property
    def sums(self) -> Sums:
        return sums_of(sheet for it in self.results for sheet in it.sheets)

    @property
    def job(self) -> Job:
        """One of them, for what all have in common."""
        return self.results[0].job


def percent(part: int, whole: int) -> str:
    """A share with one decimal, rounded half up."""
    tenths = (2000 * part + whole) // (2 * whole) if whole else 0
    return f"{tenths // 10}.{tenths % 10}"
