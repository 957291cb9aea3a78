"""The steps at a saw, in numbers as they are written. The text plan, the drawing and the page read them here, and count nothing
themselves: so what one of them says, all say."""
from __future__ import annotations

from collections.abc import Sequence
from dataclasses import dataclass
from typing import Literal

__all__ = ["Edge", "FlatAxis", "Piece", "Role", "SawStep"]

FlatAxis = Literal["x", "y"]

Edge = Literal["", "left", "right", "bottom", "top"]

Role = Literal["part", "panel", "offcut", "waste"]


@dataclass(frozen=True)
class Piece:
    """What is cut, or what a cut leaves. A part that is cut on has a letter for its name, or none; waste has none."""

    role: Role
    name: str
    width: str
    height: str
    is_turned: bool = False

    @property
    def size(self) -> str:
        return f"{self.width} x {self.height}"

    @property
    def title(self) -> str:
        """What it is: D, waste, panel "top"."""
        if self.role == "part":
            return self.name
        return f'{self.role} "{self.name}"' if self.name else self.role

    @property
    def text(self) -> str:
        """What it is and its size: panel "top" 470 x 1800 (turned)"""
        return " ".join(filter(None, (self.title, self.size, "(turned)" if self.is_turned else "")))


@dataclass(frozen=True)
class SawStep:
    """A straight cut through a whole piece. It says how far the blade is from the piece's edge, or how much it trims off."""

    number: int
    piece: Piece
    axis: FlatAxis
    # From the piece's left or lower edge to the near side of the blade, as a tape on the piece has it. A trim has none.
    at: str
    # What the blade takes.
    kerf: str
    leaves: Sequence[Piece]
    # Of a trim the edge that goes, and how much, the blade's width included.
    edge: Edge = ""
    off: str = ""

    @property
    def what(self) -> str:
        """What is done: cut across x at 600, trim 10 off the left"""
        return f"trim {self.off} off the {self.edge}" if self.edge else f"cut across {self.axis} at {self.at}"

    @property
    def text(self) -> str:
        """All of it: D 676.8 x 470: cut across x at 600 -> panel "top" 600 x 470, E 73.6 x 470"""
        return f"{self.piece.text}: {self.what} -> {', '.join(it.text for it in self.leaves)}"
