"""The cutting plans in what the example programs print: a line `-- BIN` and a line for each step."""
from __future__ import annotations

import re
from dataclasses import dataclass, field

from .._common import Wrong
from .._sawing import FlatAxis, Piece, Role, SawStep
from .._scale import Scale
from .._scene import Part, PartCut

__all__ = ["Plan"]

# "2. 2800 x 600  cut 1200 mm from the left", "3. 1200 x 600  is top-1", "4. 400 x 600  is an offcut"
STEP = re.compile(r"\s*\d+\.\s+(\d+) x (\d+)\s+(?:cut (\d+) (?:\S+ )?from (below|the left)|is (\S.*?))\s*")


@dataclass
class Plan:
    """The cuts of a bin that is flat, as far as they are read, and the parts that still wait, the next one last."""

    name: str
    lengths: Scale
    waiting: list[Part]
    # Of each cut its axis, how far it is from the part's left or lower edge, and the part.
    found: list[tuple[FlatAxis, int, Part]] = field(default_factory=list)
    # What those parts are that are not cut on.
    leaves: dict[Part, tuple[Role, str]] = field(default_factory=dict)

    def take(self, line: str) -> bool:
        """Takes a line, where it is a step. The plan of the lower part of a cut comes before that of the upper part."""
        step = STEP.fullmatch(line)
        if not step:
            return False
        if not self.waiting:
            raise Wrong(f"the plan of {self.name} has ended, and here is one more step")
        part = self.waiting.pop()
        if (int(step[1]), int(step[2])) != part[1][:2]:
            raise Wrong(f"the plan of {self.name} has come to a part of {part[1][0]} x {part[1][1]}")
        if step[3]:
            self._cut(part, "y" if step[4] == "below" else "x", int(step[3]))
        else:
            is_offcut = step[5] == "an offcut"
            self.leaves[part] = ("offcut" if is_offcut else "panel", "" if is_offcut else step[5])
        return True

    def _cut(self, part: Part, axis: FlatAxis, below: int) -> None:
        if not 0 < below < part[1]["xy".index(axis)]:
            raise Wrong(f"the cut of {self.name} is not inside its part")
        self.found.append((axis, below, part))
        self.waiting += reversed(_halves(part, axis, below))

    def _piece(self, part: Part) -> Piece:
        role, name = self.leaves.get(part, ("part", ""))
        _, (width, height, _) = part
        return Piece(role, name, self.lengths.text(width), self.lengths.text(height))

    @property
    def cuts(self) -> list[PartCut]:
        """The cuts in their order. The program's saw takes nothing away."""
        cuts = []
        for number, (axis, below, part) in enumerate(self.found, 1):
            leaves, place = _halves(part, axis, below), part[0]["xy".index(axis)] + below
            step = SawStep(
                number, self._piece(part), axis, self.lengths.text(below), self.lengths.text(0), [*map(self._piece, leaves)])
            cuts.append(PartCut(step, (place, place), part))
        return cuts


def _halves(part: Part, axis: FlatAxis, below: int) -> tuple[Part, Part]:
    """The lower and the upper part that a cut leaves."""
    (x, y, z), (width, height, depth) = part
    if axis == "x":
        return (part[0], (below, height, depth)), ((x + below, y, z), (width - below, height, depth))
    return (part[0], (width, below, depth)), ((x, y + below, z), (width, height - below, depth))
