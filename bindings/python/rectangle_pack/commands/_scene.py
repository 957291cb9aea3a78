"""What a page shows: bins, and what happens in them step by step. Each command makes one of what it packed."""
from __future__ import annotations

import dataclasses
import re
from collections.abc import Mapping, Sequence

from ._sawing import SawStep
from ._scale import Scale

__all__ = ["Item", "Part", "PartCut", "Room", "Scene", "Step", "Triple", "scale_of"]

# A corner and a size, along x, y and z. A page that is flat has the depth 1.
Triple = tuple[int, int, int]

# A box of cells: its corner and its size.
Part = tuple[Triple, Triple]


@dataclasses.dataclass(frozen=True)
class Item:
    """A box that stands in a bin. Its number is its own in the whole scene."""

    number: int
    name: str
    bin: str
    at: Triple
    size: Triple
    group: str = ""
    # A line or two that is shown beside name and size: a file, a customer.
    note: str = ""


@dataclasses.dataclass(frozen=True)
class Room:
    """A bin. Its name is its own in the whole scene."""

    name: str
    size: Triple
    # A picture that is drawn in it, as a data URL. Its rows are counted from above, so y goes downward in a scene that has one.
    image: str = ""
    # The index of the step from which on it is there.
    since: int = 0


@dataclasses.dataclass(frozen=True)
class Step:
    """What one step says, adds and takes away; and, where that is known, what is free then in a bin that it changed."""

    text: str
    placed: Sequence[Item] = ()
    released: Sequence[int] = ()
    free: Mapping[str, Sequence[Part]] = dataclasses.field(default_factory=dict)
    # The lines that are answered to it, whether these refuse it, and a line about it.
    answer: Sequence[str] = ()
    refused: bool = False
    note: str = ""


@dataclasses.dataclass(frozen=True)
class PartCut:
    """A straight cut through a whole part: what is written of it, and where it is drawn."""

    step: SawStep
    # From where to where the blade takes something of the part, counted from the corner of the bin, as the part is.
    blade: tuple[int, int]
    part: Part


@dataclasses.dataclass(frozen=True)
class Scene:
    """Bins, steps, and for each bin that is sawn apart the cuts in order."""

    title: str
    rooms: Sequence[Room]
    steps: Sequence[Step]
    cuts: Mapping[str, Sequence[PartCut]] = dataclasses.field(default_factory=dict)
    # What one cell is, as "mm" or "pixels"; or a part of a unit, as "0.1 mm": then lengths are told in mm.
    unit: str = "cells"
    # What two things are to be said of the whole: ("waste", "12 %").
    facts: Sequence[tuple[str, str]] = ()


def scale_of(unit: str) -> Scale:
    """How lengths are told in a unit: where it is a part of one, as "0.1 mm", in mm."""
    part = re.fullmatch(r"0\.(0*1) .+", unit)
    return Scale(len(part[1]) if part else 0)
