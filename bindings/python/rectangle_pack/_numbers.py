"""Numbers that the library takes. What is refused is named: which box, bin or placement it is, and which of its fields."""
from __future__ import annotations

from collections.abc import Hashable, Iterable, Sequence
from itertools import chain

# A width, a height and a depth, of 32 bits each.
Size = tuple[int, int, int]

SIDES = ("width", "height", "depth")

# The greatest numbers of 32 bits and of 64.
MOST, MOST_OF_64 = 2**32 - 1, 2**64 - 1


def number(value: int, what: str, most: int = MOST) -> int:
    """The number, where it is not too great: ctypes alone would drop the bits above."""
    if not isinstance(value, int) or isinstance(value, bool):
        raise TypeError(f"{what} {value!r} is not a whole number")
    if not 0 <= value <= most:
        raise ValueError(f"{what} {value} is not a number from 0 to {most}")
    return value


def check_row(kind: str, name: Hashable, fields: Sequence[str], row: Sequence[int]) -> None:
    """Refuses a row with a number that 32 bits do not hold: box 'hat': width -1 is not a number from 0 to 4294967295"""
    for value in row:
        if type(value) is not int or not 0 <= value <= MOST:
            break
    else:
        return
    for field, value in zip(fields, row):
        number(value, f"{kind} {name!r}: {field}")


def check_rows(kind: str, names: Iterable[Hashable], fields: Sequence[str], rows: Sequence[Sequence[int]]) -> None:
    """The same for many rows, each with its name. All numbers are looked at together first, which takes little time."""
    numbers = [*chain.from_iterable(rows)]
    if {*map(type, numbers)} <= {int} and (not numbers or 0 <= min(numbers) and max(numbers) <= MOST):
        return
    for name, row in zip(names, rows):
        check_row(kind, name, fields, row)
