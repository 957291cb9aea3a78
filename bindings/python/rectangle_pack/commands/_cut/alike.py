"""Sheets that are cut alike: those of a kind that have the same panels. They have one plan, the best that was found of them."""
from __future__ import annotations

from collections.abc import Iterable, Sequence
from dataclasses import dataclass, replace

from .job import Job
from .packing import Filled
from .plan import Cut, Part, SheetPlan
from .saw import sawn

__all__ = ["Alike", "alike_of"]


@dataclass(frozen=True)
class Alike:
    """Sheets that are cut alike, with the names that their panels have. The numbers of these panels stand not in their plan,
    where there are several sheets."""

    plan: SheetPlan
    sheets: Sequence[SheetPlan]


def _without_number(part: Part | None) -> Part | None:
    return replace(part, name=part.laid.panel.title) if part and part.laid else part


def _shared(plan: SheetPlan, count: int) -> SheetPlan:
    """The plan of so many sheets."""
    if count == 1:
        return plan

    def cut_of(cut: Cut) -> Cut:
        return replace(cut, lower=_without_number(cut.lower), upper=_without_number(cut.upper))

    panels = [replace(part, name=part.laid.panel.title) for part in plan.panels if part.laid]
    return replace(plan, cuts=[*map(cut_of, plan.cuts)], panels=panels, count=count)


def _group(job: Job, several: Sequence[Filled], first: int) -> Alike:
    """Sheets with the same panels, which are numbered from the first on. Their offcuts have names in common."""
    plans = [sawn(job, it, first) for it in several]
    if len(plans) == 1:
        return Alike(plans[0], plans)
    best = min(plans, key=lambda plan: (plan.waste, len(plan.cuts), plan.cut_length)).filled
    sheets = []
    for number, it in enumerate(several, first):
        sheets.append(replace(sawn(job, best.with_panels_of(it), first), number=number))
    return Alike(_shared(sheets[0], len(sheets)), sheets)


def alike_of(job: Job, filled: Iterable[Filled]) -> list[Alike]:
    """The sheets, in the order in which the first ones of those that are cut alike come."""
    groups: dict[object, list[Filled]] = {}
    for it in filled:
        groups.setdefault(it.content, []).append(it)
    found, first = [], 1
    for several in groups.values():
        found.append(_group(job, several, first))
        first += len(several)
    return found
