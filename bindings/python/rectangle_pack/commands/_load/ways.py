"""The ways in which crates are stacked on trial: which face is down, and what goes first."""
from __future__ import annotations

from collections.abc import Callable
from typing import NamedTuple

from .job import Room, Turn

__all__ = ["ORDERS", "TURNINGS", "WAYS", "Way"]


def _rows(side: int, whole: int) -> int:
    """How much of a side is taken by as many equal crates as fit along it."""
    return whole - whole % side


# Which face is down. What is less is better.
TURNINGS: dict[str, Callable[[Turn, Room], tuple[int, ...]]] = {
    "filling the height": lambda turn, room: (-_rows(turn.high, room.high), turn.high),
    "in walls": lambda turn, room: (-_rows(turn.wide, room.wide) * _rows(turn.high, room.high), turn.long),
    "flat": lambda turn, room: (turn.high, -turn.wide),
    "standing": lambda turn, room: (-turn.high, turn.wide * turn.long),
}

# What goes first, below or on a top. What is more is better.
ORDERS: dict[str, Callable[[Turn], int]] = {
    "bottom": lambda turn: turn.wide * turn.long,
    "volume": lambda turn: turn.wide * turn.high * turn.long,
    "height": lambda turn: turn.high,
    "longest side": lambda turn: max(turn.wide, turn.long),
}


class Way(NamedTuple):
    """How stacks are made: which face is down, what goes below first, what on a top, and whether equal crates go side by side
    across the container and along it."""

    turning: str
    below: str
    on: str
    across: bool = False
    along: bool = False
    # By so much of itself a rate may be more by chance.
    noise: float = 0.0
    seed: int = 0


# What all crates are stacked in at first.
WAYS = (
    Way("standing", "bottom", "bottom"),
    Way("filling the height", "bottom", "bottom"),
    Way("in walls", "volume", "volume", across=True),
    Way("in walls", "bottom", "bottom", across=True, along=True),
    Way("flat", "volume", "bottom", along=True),
)
