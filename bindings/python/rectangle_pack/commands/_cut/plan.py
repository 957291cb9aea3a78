"""How a sheet is cut: its parts, and the cuts in their order. All is in cells of the sheet, trim included. At the end these are
written: each number is written once, there."""
from __future__ import annotations

from collections.abc import Sequence
from dataclasses import dataclass

from .._sawing import Edge, FlatAxis, Piece, Role, SawStep
from .job import Job, Kind, Laid
from .packing import Filled

__all__ = ["Cut", "Part", "Rect", "SheetPlan", "piece_of", "steps_of"]


@dataclass(frozen=True)
class Rect:
    """A rectangle of material in cells of the sheet, trim included, by its left lower corner and its size."""

    x: int
    y: int
    width: int
    height: int

    @property
    def area(self) -> int:
        return self.width * self.height

    def stretch(self, axis: FlatAxis) -> tuple[int, int]:
        """Where it begins and ends along an axis."""
        return (self.x, self.x + self.width) if axis == "x" else (self.y, self.y + self.height)

    def halves(self, axis: FlatAxis, size: int, kerf: int) -> tuple[Rect, Rect]:
        """What is left before the blade, of this size along the axis, and behind it: which may be nothing."""
        gone = size + kerf
        if axis == "x":
            return Rect(self.x, self.y, size, self.height), Rect(self.x + gone, self.y, self.width - gone, self.height)
        return Rect(self.x, self.y, self.width, size), Rect(self.x, self.y + gone, self.width, self.height - gone)


@dataclass(frozen=True)
class Part:
    """What is cut, or what a cut leaves. A part that is cut on has a letter for its name, waste has no name."""

    role: Role
    name: str
    rect: Rect
    laid: Laid | None = None


@dataclass(frozen=True)
class Cut:
    """A cut, straight through the whole part. The blade takes what is between near and far, counted from the left or lower
    edge of the sheet; where it takes an edge of the part with it, one of these may be beyond that."""

    part: Part
    axis: FlatAxis
    near: int
    far: int
    # Left or below, and right or above of the blade. None, where the blade takes all that was there.
    lower: Part | None
    upper: Part | None
    # The edge of the part that it trims: nothing is left there, or waste.
    trims: Edge = ""

    @property
    def length(self) -> int:
        return self.part.rect.height if self.axis == "x" else self.part.rect.width

    @property
    def at(self) -> int:
        """How far the near side of the blade is from the part's left or lower edge: so much of it is left there."""
        return self.near - self.part.rect.stretch(self.axis)[0]

    @property
    def off(self) -> int:
        """How much a trim takes off, the blade's width included."""
        start, end = self.part.rect.stretch(self.axis)
        return self.far - start if self.trims in ("left", "bottom") else end - self.near

    @property
    def blade(self) -> tuple[int, int]:
        """From where to where the blade takes something of the part."""
        start, end = self.part.rect.stretch(self.axis)
        return max(self.near, start), min(self.far, end)

    @property
    def parts(self) -> list[Part]:
        return [part for part in (self.lower, self.upper) if part]


@dataclass(frozen=True)
class SheetPlan:
    """How a sheet is cut."""

    number: int
    filled: Filled
    cuts: Sequence[Cut]
    panels: Sequence[Part]
    offcuts: Sequence[Part]
    # How many sheets are cut by it: this one, and those that follow.
    count: int = 1

    @property
    def kind(self) -> Kind:
        return self.filled.kind

    @property
    def numbers(self) -> str:
        """Of the sheets that are cut by it: 4, or 1 to 3"""
        return str(self.number) if self.count == 1 else f"{self.number} to {self.number + self.count - 1}"

    @property
    def times(self) -> str:
        """How many they are, where they are several: 3 times this sheet"""
        return f"{self.count} times this sheet" if self.count > 1 else ""

    @property
    def waste(self) -> int:
        """The area that is neither panel nor an offcut worth keeping: kerf, trim, and what is too small."""
        return self.kind.area - sum(part.rect.area for part in (*self.panels, *self.offcuts))

    @property
    def cut_length(self) -> int:
        return sum(cut.length for cut in self.cuts)


def piece_of(job: Job, part: Part) -> Piece:
    """A part as it is written."""
    lengths, rect = job.lengths, part.rect
    is_turned = part.laid is not None and part.laid.is_turned
    return Piece(part.role, part.name, lengths.text(rect.width), lengths.text(rect.height), is_turned)


def _step(job: Job, number: int, cut: Cut) -> SawStep:
    """A cut as it is written."""
    leaves, kerf = [piece_of(job, it) for it in cut.parts], job.lengths.text(job.kerf)
    if cut.trims:
        return SawStep(number, piece_of(job, cut.part), cut.axis, "", kerf, leaves, cut.trims, job.lengths.text(cut.off))
    return SawStep(number, piece_of(job, cut.part), cut.axis, job.lengths.text(cut.at), kerf, leaves)


def steps_of(job: Job, plan: SheetPlan) -> list[SawStep]:
    """The cuts of a sheet in their order."""
    return [_step(job, number, cut) for number, cut in enumerate(plan.cuts, 1)]
