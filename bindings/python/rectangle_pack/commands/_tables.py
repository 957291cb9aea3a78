"""Tables: CSV files whose first line names the columns, as spreadsheets write them."""
from __future__ import annotations

import csv
import sys
from collections.abc import Callable, Iterator, Mapping, Sequence
from dataclasses import dataclass, field
from decimal import Decimal, InvalidOperation
from itertools import zip_longest
from pathlib import Path

from ._common import Wrong

__all__ = ["Row", "read_known", "read_table"]

MOST = 2**32 - 1

# What the names in a head stand for, in their order: each is a column that is known, or stays as it is.
Renamed = Callable[[Sequence[str]], Sequence[str]]


@dataclass(frozen=True)
class Row:
    """A line of a table: what stands in each of its columns, without blanks around it."""

    path: Path
    line: int
    values: Mapping[str, str]
    # How the file calls a column, where it has another name for it.
    heads: Mapping[str, str] = field(default_factory=dict)

    def head(self, column: str) -> str:
        return self.heads.get(column, column)

    def wrong(self, why: str) -> Wrong:
        return Wrong(why, self.path, self.line)

    def text(self, column: str, default: str | None = None) -> str:
        value = self.values.get(column, "")
        if value:
            return value
        if default is None:
            raise self.wrong(f"{self.head(column)} is missing")
        return default

    def whole(self, column: str, least: int = 0, most: int = MOST, default: int | None = None) -> int:
        """A whole number."""
        value = self.values.get(column, "")
        if not value and default is not None:
            return default
        text = self.text(column)
        if not (text.isascii() and text.isdigit()):
            raise self.wrong(f"{self.head(column)} is {text!r}, and must be a whole number")
        number = int(text) if len(text) < 20 else MOST + 1
        if not least <= number <= most:
            raise self.wrong(f"{self.head(column)} is {text}, and must be from {least} to {most}")
        return number

    def decimal(self, column: str, least: Decimal = Decimal(0), default: Decimal | None = None) -> Decimal:
        """A number, with or without decimals, of which a comma may be the mark."""
        value = self.values.get(column, "")
        if not value and default is not None:
            return default
        text = self.text(column)
        try:
            number = Decimal(text.replace(",", ".") if text.count(",") == 1 and "." not in text else text)
        except InvalidOperation:
            number = Decimal("nan")
        if not number.is_finite():
            raise self.wrong(f"{self.head(column)} is {text!r}, and must be a number")
        if number < least:
            raise self.wrong(f"{self.head(column)} is {text}, and must be at least {least}")
        return number

    def choice(self, column: str, choices: Sequence[str], default: str | None = None) -> str:
        """One of these words."""
        text = self.text(column, default).lower()
        if text not in choices:
            raise self.wrong(f"{self.head(column)} is {text!r}, and must be one of: {', '.join(choices)}")
        return text


def _delimiter(head: str) -> str:
    """What separates the columns: where numbers have decimal commas, spreadsheets write semicolons."""
    return max(",;\t", key=head.count)


def _check_head(path: Path, names: Sequence[str], columns: Sequence[str], optional: Sequence[str], is_strict: bool) -> None:
    """Refuses a head that lacks a column, or has one twice. A strict table has none beside those that are known."""
    known = (*columns, *optional)
    others = [name for name in names if name and name not in known]
    for name in names:
        if is_strict and name not in known:
            raise Wrong(f"the column {name!r} is not known; there are: {', '.join(known)}", path, 1)
        if name in known and names.count(name) > 1:
            raise Wrong(f"the column {name!r} is named twice", path, 1)
    for name in columns:
        if name not in names:
            but = f"; not known: {', '.join(map(repr, others))}" if others else ""
            raise Wrong(f"the column {name!r} is missing{but}", path, 1)


def _rows(
    path: Path, lines: list[str], columns: Sequence[str], optional: Sequence[str], renamed: Renamed, passed: list[str] | None,
) -> Iterator[Row]:
    reader = csv.reader(lines, delimiter=_delimiter(lines[0]), strict=True)
    written = [name.strip().lower() for name in next(reader)]
    names = renamed(written)
    _check_head(path, names, columns, optional, passed is None)
    if passed is not None:
        passed += [name for name in names if name and name not in (*columns, *optional)]
    heads = dict(zip(names, written))
    line = reader.line_num + 1
    for values in reader:
        if any(value.strip() for value in values):
            if len(values) > len(names):
                raise Wrong(f"{len(values)} columns, and the first line names {len(names)}", path, line)
            filled = zip_longest(names, (value.strip() for value in values), fillvalue="")
            yield Row(path, line, dict(filled), heads)
        line = reader.line_num + 1


def read_table(
    path: Path, columns: Sequence[str], optional: Sequence[str] = (), renamed: Renamed = list, passed: list[str] | None = None,
) -> list[Row]:
    """The rows of a table that has these columns and may have the optional ones, in any order. Empty lines are passed over. So
    are other columns where there is a list for their names; else they are refused."""
    try:
        text = path.read_bytes().decode("utf-8-sig")
    except OSError as why:
        raise Wrong(f"cannot be read: {why.strerror}", path) from None
    except UnicodeDecodeError:
        raise Wrong("is no text in UTF-8: save it as CSV in UTF-8", path) from None
    lines = text.splitlines(keepends=True)
    if not lines or not lines[0].strip():
        raise Wrong(f"is empty; its first line names the columns: {', '.join(columns)}", path)
    try:
        return list(_rows(path, lines, columns, optional, renamed, passed))
    except csv.Error as why:
        raise Wrong(f"is no table: {why}", path) from None


def read_known(path: Path, columns: Sequence[str], optional: Sequence[str] = ()) -> list[Row]:
    """The rows of a table, of which columns that are not known are passed over. One line on standard error names these."""
    passed: list[str] = []
    rows = read_table(path, columns, optional, passed=passed)
    others = [repr(name) for name in dict.fromkeys(passed)]
    if others:
        what = f"the column {others[0]} is" if len(others) == 1 else f"the columns {', '.join(others)} are"
        known = ", ".join((*columns, *optional))
        print(f"note: {path}:1: {what} not known, and passed over; there are: {known}", file=sys.stderr)
    return rows
