"""What is to be cut, and from what, in whole cells."""
from __future__ import annotations

from collections.abc import Iterator, Sequence
from dataclasses import dataclass, field
from itertools import count

from .._scale import Scale
from .lines import Line
from .unit import Lengths

__all__ = ["Job", "Kind", "Laid", "Material", "Panel", "Work"]


@dataclass(frozen=True)
class Material:
    """What panels and sheets are of, as far as the tables say it: its thickness as it is written."""

    name: str = ""
    thickness: str = ""

    @property
    def text(self) -> str:
        """birch 18"""
        return " ".join(filter(None, (self.name, self.thickness)))


@dataclass(frozen=True, eq=False)
class Panel:
    """One panel. A line of the list with the count 4 makes four of them."""

    name: str
    # Which line of the list it comes from, counted from 1: drawings call it by this number.
    key: int
    # The name, without the number of the panel among those of its name.
    title: str
    width: int
    height: int
    is_free: bool
    # The line of the file.
    line: int

    @property
    def area(self) -> int:
        return self.width * self.height


@dataclass(frozen=True)
class Laid:
    """A panel as it lies on a sheet."""

    panel: Panel
    is_turned: bool = False

    @property
    def width(self) -> int:
        return self.panel.height if self.is_turned else self.panel.width

    @property
    def height(self) -> int:
        return self.panel.width if self.is_turned else self.panel.height


@dataclass(frozen=True, eq=False)
class Kind:
    """A kind of sheet: a line of the table of stock or of the offcuts. Without a count there are as many as are needed."""

    name: str
    width: int
    height: int
    cost: int
    count: int | None
    is_offcut: bool
    # So much is cut off each edge.
    trim: int

    @property
    def usable(self) -> tuple[int, int]:
        """What is left of it when it is trimmed."""
        return max(self.width - 2 * self.trim, 0), max(self.height - 2 * self.trim, 0)

    @property
    def area(self) -> int:
        return self.width * self.height

    def takes(self, width: int, height: int) -> bool:
        across, along = self.usable
        return width <= across and height <= along

    def holds(self, panel: Panel) -> bool:
        return self.takes(panel.width, panel.height) or panel.is_free and self.takes(panel.height, panel.width)


@dataclass(frozen=True, eq=False)
class Job:
    """The panels of one material, and the sheets that they may be cut from."""

    panels: Sequence[Panel]
    kinds: Sequence[Kind]
    kerf: int
    # The longer and the shorter side of the smallest offcut worth keeping.
    keep: tuple[int, int]
    lengths: Lengths
    costs: Scale
    # The name of the whole, which other materials have too.
    name: str = ""
    material: Material = field(default_factory=Material)
    # The names that no new offcut may have.
    taken: frozenset[str] = frozenset()

    def is_worth_keeping(self, width: int, height: int) -> bool:
        return max(width, height) >= self.keep[0] and min(width, height) >= self.keep[1]

    @property
    def of(self) -> str:
        """Its material, with the unit: birch 18 mm"""
        unit = self.lengths.unit.name if self.material.thickness else ""
        return " ".join(filter(None, (self.material.text, unit)))

    @property
    def title(self) -> str:
        """Job sideboard, birch 18 mm"""
        return ", ".join(filter(None, (f"Job {self.name}", self.of)))

    def offcut_names(self, kind: Kind, number: int) -> Iterator[str]:
        """The names of the offcuts of a sheet, one after the other: they say the job, the material, or else the sheet's name,
        the number of the sheet, and their own."""
        head = f"{self.name} {self.material.text or kind.name} {number}"
        return (name for name in (f"{head}-{index}" for index in count(1)) if name not in self.taken)


@dataclass(frozen=True, eq=False)
class Work:
    """All that a run is given: a job for each material. Of those that are idle there are sheets, and no panels."""

    name: str
    jobs: Sequence[Job]
    idle: Sequence[Job]
    # Which columns the tables have: whether they name materials, and whether thicknesses.
    has_names: bool
    has_thicknesses: bool
    # What is passed over, in a line; else nothing.
    note: str
    # The lines of the cutting list, by the keys of panels less one.
    lines: Sequence[Line]
