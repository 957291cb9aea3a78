"""Plans and sums as text."""
from __future__ import annotations

from collections.abc import Iterator

from .job import Job
from .plan import SheetPlan, piece_of, steps_of
from .result import Result, Results, Sums, percent
from .unit import Unit

__all__ = ["counted", "heading", "plan_text", "stem_of", "sums_text"]

HOW_TO_READ = """\
Sizes are in {unit}, width by height: the width runs to the right, the height upwards, as in the drawing.
"across x at {at}": the blade runs from top to bottom; {at} is from the part's left edge to the near side of the blade.
"across y at {at}": the blade runs from left to right; {at} is from the part's lower edge to the near side of the blade.
"trim 10 off the left": 10 is what goes, the blade's width included.
Each cut goes through the whole part. Parts that are cut on have letters: mark them.
"""


def how_to_read(unit: Unit) -> str:
    return HOW_TO_READ.format(unit=unit.plural, at=unit.example)


def heading(result: Result, plan: SheetPlan) -> str:
    """Which sheet it is: Sheet 1 of 3: birch 18, 2440 x 1220 mm"""
    what = "offcut " if plan.kind.is_offcut else ""
    lengths = result.job.lengths
    size = f"{lengths.size(plan.kind.width, plan.kind.height)} {lengths.unit.name}"
    sheets = "Sheets" if plan.count > 1 else "Sheet"
    return f"{sheets} {plan.numbers} of {len(result.sheets)}: {what}{plan.kind.name}, {size}"


def stem_of(plan: SheetPlan) -> str:
    """The name of its files: sheet-4, or sheet-1-to-3"""
    return f"sheet-{plan.numbers.replace(' ', '-')}"


def _cuts(job: Job, plan: SheetPlan) -> Iterator[str]:
    digits = len(str(len(plan.cuts)))
    for step in steps_of(job, plan):
        yield f"{step.number:{digits}}. {step.text}"
    if not plan.cuts:
        yield f"Nothing is cut: the sheet is {piece_of(job, plan.panels[0]).text}"


def plan_text(result: Result, plan: SheetPlan) -> str:
    """The plan of a sheet, for the person at the saw."""
    job = result.job
    lines = [heading(result, plan), *filter(None, [plan.times]), job.title]
    lines += [f"Kerf {job.lengths.text(job.kerf)}, trim {job.lengths.text(plan.kind.trim)}", ""]
    lines += [how_to_read(job.lengths.unit), *_cuts(job, plan), ""]
    waste = percent(plan.waste, plan.kind.area)
    each = "each sheet: " if plan.count > 1 else ""
    lines.append(f"{each}{counted(len(plan.panels), 'panel')}, {counted(len(plan.offcuts), 'offcut')}, waste {waste} %, "
                 f"{counted(len(plan.cuts), 'cut')} of {job.lengths.far(plan.cut_length)} together")
    return "\n".join(lines) + "\n"


def counted(number: int, what: str) -> str:
    """1 cut, 2 cuts"""
    return f"{number} {what}" if number == 1 else f"{number} {what}s"


def _sums(job: Job, sums: Sums) -> tuple[str, list[str]]:
    """What was cut of which sheets; and the shares, and the cuts."""
    first = f"{counted(sums.panels, 'panel')} from {counted(sums.sheets, 'sheet')}, cost {job.costs.text(sums.cost)}"
    kept = f"{counted(sums.offcuts, 'offcut')} kept, {percent(sums.offcut_area, sums.area)} %"
    return first, [f"waste {percent(sums.waste, sums.area)} %; {kept}",
                   f"{counted(sums.cuts, 'cut')} of {job.lengths.far(sums.cut_length)} together"]


def _result_lines(result: Result) -> Iterator[str]:
    """The sums of one material."""
    job = result.job
    first, last = _sums(job, result.sums)
    yield f"{job.of}: {first}" if job.of else first
    for kind, count in result.used:
        what = "offcut " if kind.is_offcut else ""
        cost = job.costs.text(count * kind.cost)
        yield f"  {count} x {what}{kind.name}, {job.lengths.size(kind.width, kind.height)}, cost {cost}"
    for plan in result.plans:
        if plan.times:
            yield f"  sheets {plan.numbers}: {plan.times}"
    if result.least is not None:
        yield "no plan needs fewer sheets: proved" if result.is_optimal else (
            f"at least {counted(result.least, 'sheet')} {'is' if result.least == 1 else 'are'} needed")
    yield from last


def sums_text(results: Results) -> str:
    """The sums of a run: those of each material, and then together."""
    lines = [line for it in results.planned for line in _result_lines(it)]
    if len(results.planned) > 1:
        first, last = _sums(results.job, results.sums)
        lines += [f"together: {first}", *last]
    if results.left:
        is_one = len(results.left) == 1
        are, them = ("is", "it") if is_one else ("are", "them")
        lines.append(f"{counted(len(results.left), 'panel')} {are} left, in left.csv: no sheet has room for {them}")
    return "\n".join(lines)
