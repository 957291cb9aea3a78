"""The sheets of a run, as a page shows them."""
from __future__ import annotations

from .._scale import Scale
from .._scene import Item, PartCut, Room, Scene, Step, Triple
from .job import Job
from .plan import Rect, SheetPlan, steps_of
from .result import Results, percent

__all__ = ["scene_of"]


def _box(rect: Rect) -> tuple[Triple, Triple]:
    return (rect.x, rect.y, 0), (rect.width, rect.height, 1)


def _name(job: Job, plan: SheetPlan) -> str:
    """The name of a sheet, or of those that are cut alike."""
    sheets = f"sheets {plan.numbers}" if plan.count > 1 else f"sheet {plan.numbers}"
    return f"{job.of}, {sheets}: {plan.kind.name}" if job.of else f"{sheets}: {plan.kind.name}"


def _step(job: Job, plan: SheetPlan, first: int) -> Step:
    """What a sheet is cut into. What is free are the offcuts."""
    items, name = [], _name(job, plan)
    for number, part in enumerate(plan.panels, first):
        assert part.laid
        at, size = _box(part.rect)
        note = "turned" if part.laid.is_turned else ""
        items.append(Item(number, part.name, name, at, size, part.laid.panel.title, note))
    text = f"{name}, {len(plan.panels)} panels, waste {percent(plan.waste, plan.kind.area)} %"
    return Step(", ".join(filter(None, (text, plan.times))), items, (), {name: [_box(part.rect) for part in plan.offcuts]})


def _cuts(job: Job, plan: SheetPlan) -> list[PartCut]:
    return [PartCut(it, cut.blade, _box(cut.part.rect)) for it, cut in zip(steps_of(job, plan), plan.cuts)]


def scene_of(results: Results) -> Scene:
    """The sheets in their order, with their cuts. Those that are cut alike are there once."""
    lengths, sums = results.job.lengths, results.sums
    plans = [(it.job, plan) for it in results.results for plan in it.plans]
    steps: list[Step] = []
    first = 0
    for job, plan in plans:
        steps.append(_step(job, plan, first))
        first += len(plan.panels)
    facts = [
        ("sheets", str(sums.sheets)), ("cost", results.job.costs.text(sums.cost)), ("panels", str(sums.panels)),
        ("waste", f"{percent(sums.waste, sums.area)} %"),
        ("kerf", f"{lengths.text(results.job.kerf)} {lengths.unit.name}"),
        ("cuts", f"{sums.cuts}, {lengths.far(sums.cut_length)}"),
    ]
    # A cell is a part of a unit: 0.01 mm
    cell = Scale(lengths.decimals).text(1)
    unit = lengths.unit.name if cell == "1" else f"{cell} {lengths.unit.name}"
    rooms = [Room(_name(job, plan), (plan.kind.width, plan.kind.height, 1)) for job, plan in plans]
    return Scene(results.work.name, rooms, steps, {_name(job, plan): _cuts(job, plan) for job, plan in plans}, unit, facts)
