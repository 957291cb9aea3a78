"""The tables that are written: the offcuts that there are then, what is to be bought, and which panels are left."""
from __future__ import annotations

import csv
import io
from collections import Counter
from collections.abc import Iterable, Sequence

from .job import Job, Work
from .result import Result, Results

__all__ = ["buy_table", "left_table", "offcuts_table"]

BUY = ("sheet", "size", "material", "thickness", "count", "cost each", "cost")


def _table(rows: Iterable[Sequence[object]]) -> str:
    text = io.StringIO()
    csv.writer(text, lineterminator="\n").writerows(rows)
    return text.getvalue()


def _of(job: Job, work: Work) -> list[str]:
    """What stands in the columns for materials, as far as the tables have these."""
    return [job.material.name] * work.has_names + [job.material.thickness] * work.has_thicknesses


def offcuts_table(results: Results) -> str:
    """offcuts.csv: what a later run may take as stock. First what this run did not use, then what it leaves."""
    work = results.work
    rows: list[Sequence[object]] = [
        ("name", "count", *["material"] * work.has_names, *["thickness"] * work.has_thicknesses, "width", "height", "cost")]
    for it in results.results:
        lengths, costs, of = it.job.lengths, it.job.costs, _of(it.job, work)
        for kind, count in it.offcuts_left:
            sides = lengths.text(kind.width), lengths.text(kind.height)
            rows.append((kind.name, count, *of, *sides, costs.text(kind.cost)))
    for it in results.results:
        rows += _cut_rows(it, _of(it.job, work))
    return _table(rows)


def _cut_rows(result: Result, of: Sequence[str]) -> Iterable[Sequence[object]]:
    """The offcuts of one material. Those of sheets that are cut alike have one name."""
    lengths = result.job.lengths
    for plan in result.plans:
        for part in plan.offcuts:
            yield part.name, plan.count, *of, lengths.text(part.rect.width), lengths.text(part.rect.height), 0


def buy_table(results: Results) -> str:
    """buy.csv: the sheets that are bought."""
    rows: list[Sequence[object]] = [BUY]
    for it in results.results:
        job = it.job
        for kind, count in it.used:
            if not kind.is_offcut:
                size = job.lengths.size(kind.width, kind.height)
                costs = job.costs.text(kind.cost), job.costs.text(count * kind.cost)
                rows.append((kind.name, size, job.material.name, job.material.thickness, count, *costs))
    return _table(rows)


def left_table(results: Results) -> str:
    """left.csv: the panels that are left, in the columns of the cutting list, so that it may be one."""
    counts = Counter(panel.key for panel in results.left)
    lines = results.work.lines
    rows: list[Sequence[object]] = [[*lines[0].row.heads.values()]]
    for key in sorted(counts):
        values = lines[key - 1].row.values
        rows.append([counts[key] if column == "count" else values[column] for column in lines[0].row.heads])
    return _table(rows)
