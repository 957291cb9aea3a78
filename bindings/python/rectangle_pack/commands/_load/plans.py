"""The plan of each container, as a sheet of text to print for those who load it."""
from __future__ import annotations

import re
from collections import Counter
from pathlib import Path

from .._common import write
from .._folder import earlier_files, remove
from .job import Job, Kind
from .printing import AXES, HEAD, cells, inside, stands_on, table
from .report import LoadedContainer, Report

__all__ = ["OURS", "plan_text", "write_plans"]

# What a run writes to its folder.
OURS = re.compile(r"container-[0-9]+\.txt")

HOW_TO_READ = f"""\
{AXES[0].upper()}{AXES[1:]}.
Load in the order of the steps. Each crate goes straight in from the door, at the height at which it stands.
"""


def _head(report: Report, number: int, it: LoadedContainer) -> list[str]:
    """Which container it is, and how full."""
    job = report.job
    wide, high, long = map(job.told, it.container.room)
    unit = f", in {job.unit}" if job.unit else ""
    return [
        f"Container {number} of {len(report.containers)}: {it.name}, {wide} wide, {high} high, {long} long{unit}",
        inside(job, it)]


def _crates(job: Job, it: LoadedContainer) -> list[str]:
    """How many crates of each line of the packing list are in it, in the order of the list."""
    kinds: dict[int, Kind] = {step.crate.kind.index: step.crate.kind for step in it.steps}
    counts = Counter(step.crate.kind.index for step in it.steps)
    width = len(str(max(counts.values(), default=0)))
    lines = []
    for index, kind in sorted(kinds.items()):
        words = filter(None, (kind.name, job.sizes(kind), kind.customer))
        lines.append(f"  {counts[index]:{width}} x {', '.join(words)}")
    return lines


def plan_text(report: Report, number: int) -> str:
    """The plan of a container, by its number from 1 on. Each step has a box to tick."""
    job, it = report.job, report.containers[number - 1]
    head, *steps = table([HEAD, *(cells(job, step, stands_on(step)) for step in it.steps)])
    lines = [*_head(report, number, it), "", *_crates(job, it), "", HOW_TO_READ, f"    {head}", *(f"[ ] {step}" for step in steps)]
    return "\n".join(lines) + "\n"


def write_plans(report: Report, folder: Path) -> None:
    """Writes a plan for each container. Those of an earlier run go first, so that none stands beside a new one."""
    remove(earlier_files(folder, OURS))
    for number in range(1, len(report.containers) + 1):
        write(folder / f"container-{number}.txt", plan_text(report, number))
