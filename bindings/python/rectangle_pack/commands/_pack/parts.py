"""The cutting plan of a bin as a list of parts, which is no deeper for many cuts than for one."""
from __future__ import annotations

from collections.abc import Mapping
from typing import Any

from ... import Bin, Cut, Placement, Section, straight_cuts

__all__ = ["parts_of"]

_AXES = {"x": 0, "y": 1, "z": 2}


def _halves(part: Section, cut: Cut) -> tuple[Section, Section]:
    """The part below a cut, and the part from it on."""
    axis = _AXES[cut.axis]
    lower, upper = list(part), list(part)
    lower[3 + axis] = cut.place - part[axis]
    upper[axis], upper[3 + axis] = cut.place, part[axis] + part[3 + axis] - cut.place
    return Section(*lower), Section(*upper)


def parts_of(bin: Bin, standing: Mapping[int, Placement[int, int]]) -> list[dict[str, Any]] | None:
    """The parts into which straight cuts part a bin, with the index of the placement that one is. The first is the bin. A part
    that is cut says where, and which parts this leaves. None where no straight cuts leave the boxes whole."""
    steps = straight_cuts(bin, standing.values())
    if steps is None:
        return None
    placed = {it.section: index for index, it in standing.items()}
    parts: list[dict[str, Any]] = []
    # The parts that still come, with the part whose upper part each is.
    waiting: list[tuple[Section, dict[str, Any] | None]] = [(Section(0, 0, 0, *bin[:3]), None)]
    for index, step in enumerate(steps):
        section, above = waiting.pop()
        if above is not None:
            above["upper"] = index
        part: dict[str, Any] = section._asdict()
        if isinstance(step, Cut):
            lower, upper = _halves(section, step)
            part.update(axis=step.axis, at=step.place, lower=index + 1)
            # The plan of the lower part comes first.
            waiting += [(upper, part), (lower, None)]
        else:
            part["placement"] = placed.get(section)
        parts.append(part)
    return parts
