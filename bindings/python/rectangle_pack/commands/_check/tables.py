"""Tables: a line for each box, with its bin and its place there."""
from __future__ import annotations

from decimal import Decimal
from pathlib import Path

from .._scale import MOST
from .._tables import Row, read_table
from .layout import NONE, ONE, Bins, Claim, Layout, Told, Triple, why_not
from .texts import quoted

__all__ = ["table"]

COLUMNS = ("name", "x", "y", "width", "height")
OPTIONAL = ("bin", "page", "z", "depth", "group", "bin_width", "bin_height", "bin_depth")


def _number(row: Row, column: str, least: int = 0, default: Decimal | None = None) -> Decimal:
    number = row.decimal(column, Decimal(least), default)
    why = why_not(number, least)
    if why:
        raise row.wrong(f"{column} is {row.text(column)}, and {why}")
    return number


def _bin(row: Row) -> str:
    """The name of a bin. Where none is named there is one, which is called as the file."""
    bin, page = row.text("bin", ""), row.text("page", "")
    if bin and page:
        raise row.wrong("has a bin and a page, which mean the same")
    return bin or page or row.path.name


def _put(bins: Bins, row: Row, fallback: Triple | None) -> None:
    """Puts the bin of a line among the others. Its size need not be said again."""
    name = _bin(row)
    if row.text("bin_width", "") or row.text("bin_height", ""):
        width, height = _number(row, "bin_width"), _number(row, "bin_height")
        bins.put(name, (width, height, _number(row, "bin_depth", default=ONE)), row.wrong)
    elif name not in bins:
        if fallback is None:
            raise row.wrong(f"says no size of the bin {quoted(name)}: give bin_width and bin_height, or say --size WxH")
        bins.put(name, fallback, row.wrong)


def _claim(row: Row) -> Claim:
    x, y = _number(row, "x", -MOST), _number(row, "y", -MOST)
    z = _number(row, "z", -MOST, NONE)
    size = _number(row, "width"), _number(row, "height"), _number(row, "depth", default=ONE)
    name = row.text("name")
    return Claim(name, name, _bin(row), (x, y, z), size, group=row.text("group", "") or None)


def table(path: Path, fallback: Triple | None) -> Told:
    """The bins and boxes of a table."""
    bins, claims, has_pages = Bins(), list[Claim](), False
    for row in read_table(path, COLUMNS, OPTIONAL):
        _put(bins, row, fallback)
        claims.append(_claim(row))
        has_pages |= bool(row.text("page", ""))
    return Told.of("page" if has_pages else "bin", Layout(bins, claims))
