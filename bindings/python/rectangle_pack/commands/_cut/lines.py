"""The lines of the tables: the cutting list, the stock and the offcuts, with their numbers as they stand there."""
from __future__ import annotations

from collections.abc import Callable, Sequence
from dataclasses import dataclass, replace
from decimal import Decimal
from functools import partial
from pathlib import Path

from .._common import Wrong
from .._scale import MOST, MOST_DECIMALS, decimals_of
from .._tables import Row, read_table
from .unit import Unit

__all__ = ["Line", "Table", "panel_table", "printable", "sheet_table", "why_not"]

# What stands in the column grain: whether the panel keeps its direction.
GRAIN = {"keep": True, "yes": True, "free": False, "no": False}

# Other names of columns. A name may also be called by what a line stands for: panel, sheet, offcut.
OTHER_NAMES = {
    "count": ("qty", "quantity", "pieces", "pcs"), "name": ("part", "label", "description"), "cost": ("price",),
}


@dataclass(frozen=True)
class Line:
    """A line of a table."""

    row: Row
    name: str
    count: int | None
    width: Decimal
    height: Decimal
    material: str
    thickness: Decimal | None
    cost: Decimal = Decimal(0)
    is_offcut: bool = False
    is_free: bool = False


@dataclass(frozen=True)
class Table:
    """The lines of a file, and which of its columns are passed over."""

    path: Path
    lines: Sequence[Line]
    passed: Sequence[str]


def why_not(number: Decimal) -> str:
    """Why a number is refused, whatever the others are; else nothing."""
    if number > MOST:
        return f"must be at most {MOST}"
    if decimals_of(number) > MOST_DECIMALS:
        return f"must have at most {MOST_DECIMALS} decimals"
    return ""


def printable(text: str) -> str:
    """The text in one line, without what cannot be printed."""
    return "".join(letter if letter.isprintable() else "?" for letter in " ".join(text.split()))


def _renamed(what: str, names: Sequence[str]) -> list[str]:
    """The names of columns, those that are known by another name as they are called here: the first of several, and none where
    the column has its own name too. Where the sides are length and width, the length lies along x."""
    known = list(names)
    for column, others in OTHER_NAMES.items():
        found = [name for name in known if name in others or (column, name) == ("name", what)]
        if found and column not in known:
            known[known.index(found[0])] = column
    if "length" in known and "width" in known and "height" not in known:
        sides = {"length": "width", "width": "height"}
        known = [sides.get(name, name) for name in known]
    return known


def _read(path: Path, what: str, columns: Sequence[str], optional: Sequence[str], line_of: Callable[[Row], Line]) -> Table:
    passed: list[str] = []
    rows = read_table(path, columns, (*optional, "material", "thickness"), partial(_renamed, what), passed)
    if "length" in passed:
        raise Wrong("the column 'length' is one too many beside 'width' and 'height', which are the two sides", path, 1)
    return Table(path, [line_of(row) for row in rows], passed)


def _exact(row: Row, column: str, default: Decimal | None = None) -> Decimal:
    number = row.decimal(column, default=default)
    if why := why_not(number):
        raise row.wrong(f"{row.head(column)} is {row.text(column)}, and {why}")
    return number


def _length(row: Row, column: str, unit: Unit) -> Decimal:
    """A length, which is more than 0."""
    text = row.text(column)
    number = unit.number(text)
    if number is None:
        raise row.wrong(f"{row.head(column)} is {text!r}, and must be {unit.is_wanted}")
    if why := "must be more than 0" if number <= 0 else why_not(number):
        raise row.wrong(f"{row.head(column)} is {text}, and {why}")
    return number


def _count(row: Row, default: int | None) -> int | None:
    text = row.values.get("count", "")
    if not text:
        return default
    number = int(text) if text.isascii() and text.isdigit() and len(text) < 20 else -1
    if not 0 <= number <= MOST:
        raise row.wrong(f"{row.head('count')} is {text!r}, and must be a whole number from 0 to {MOST}")
    return number


def _line(row: Row, name: str, unit: Unit, count: int | None) -> Line:
    """What all lines have. A table that has a column for the material or the thickness says it in each line."""
    material = printable(row.text("material")) if "material" in row.values else ""
    thickness = _length(row, "thickness", unit) if "thickness" in row.values else None
    sides = _length(row, "width", unit), _length(row, "height", unit)
    return Line(row, printable(row.text("name", name)), _count(row, count), *sides, material, thickness)


def panel_table(path: Path, unit: Unit) -> Table:
    """The cutting list."""
    def line_of(row: Row) -> Line:
        line, grain = _line(row, "panel", unit, 1), row.choice("grain", tuple(GRAIN), "free")
        return replace(line, is_free=not GRAIN[grain])

    return _read(path, "panel", ("width", "height"), ("name", "count", "grain"), line_of)


def sheet_table(path: Path, unit: Unit, is_offcut: bool) -> Table:
    """The stock, or offcuts. Of an offcut there is one, where the table does not say more; of a sheet there are as many as are
    needed."""
    def line_of(row: Row) -> Line:
        line = _line(row, what, unit, 1 if is_offcut else None)
        cost = _exact(row, "cost", Decimal(0) if is_offcut else None)
        return replace(line, cost=cost, is_offcut=is_offcut)

    what, columns = ("offcut", ("width", "height")) if is_offcut else ("sheet", ("width", "height", "cost"))
    return _read(path, what, columns, ("name", "count", "cost"), line_of)
