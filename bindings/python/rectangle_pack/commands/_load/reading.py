"""The tables that load is given, and the words about customers."""
from __future__ import annotations

import csv
import re
import sys
from collections.abc import Iterable, Sequence
from dataclasses import dataclass
from decimal import Decimal
from pathlib import Path

from .._common import Wrong
from .._scale import Scale
from .._tables import MOST, Row, read_known
from .job import FACES, Container, Job, Kind, Room, turns_of

__all__ = ["MOST_CRATES", "read_job"]

SIDES = ("length", "width", "height")

# A crate more is a mistake in a count, or would take hours.
MOST_CRATES = 20_000

# Before the point, and behind it: 32 bits hold no more of the first, and of the second as many only where all is tiny.
MOST_DIGITS, MOST_DECIMALS = 10, 18


@dataclass(frozen=True)
class _Line:
    """A line of a table that has sizes, and these as they were read."""

    row: Row
    sizes: tuple[Decimal, ...]
    # Where it has one: of a crate, or of all crates in a container.
    weight: Decimal | None


def _number(row: Row, column: str) -> Decimal:
    """A number that has not too many digits to write them out, as 1E999999999 has."""
    number = row.decimal(column)
    exponent = number.as_tuple().exponent
    if number.adjusted() >= MOST_DIGITS or not isinstance(exponent, int) or exponent < -MOST_DECIMALS:
        raise row.wrong(f"{column} is {row.text(column)}, which has too many digits")
    return number


def _positive(row: Row, column: str) -> Decimal:
    number = _number(row, column)
    if number == 0:
        raise row.wrong(f"{column} is {row.text(column)}, and must be more than 0")
    return number


def _lines(rows: Iterable[Row], weight: str) -> list[_Line]:
    return [
        _Line(row, tuple(_positive(row, side) for side in SIDES), _number(row, weight) if row.text(weight, "") else None)
        for row in rows]


def _whole(line: _Line, scale: Scale) -> tuple[int, int, int]:
    """The sizes of a line as whole numbers."""
    length, width, height = map(scale.cells, line.sizes)
    for side, size in zip(SIDES, (length, width, height)):
        if size > MOST:
            why = f", as a size of the tables has {scale.decimals} decimals" if scale.decimals else ""
            raise line.row.wrong(f"{side} is {line.row.text(side)}, and must be at most {scale.text(MOST)}{why}")
    return length, width, height


def _name(text: str) -> str:
    """A name on one line, with single blanks: cells of spreadsheets may have several lines."""
    return " ".join(text.split())


def _faces(row: Row) -> tuple[str, ...]:
    """The faces that may be down."""
    text = row.text("down", "upright").lower()
    words = [word for word in re.split(r"[\s,;/+&]+", text) if word]
    if words == ["any"]:
        return FACES
    if words == ["upright"]:
        return FACES[:1]
    if not words or not set(words) <= set(FACES):
        raise row.wrong(f"down is {text!r}, and must be any, upright, or some of: {' '.join(FACES)}")
    return tuple(words)


def _kinds(lines: Sequence[_Line], path: Path, scale: Scale, weights: Scale) -> tuple[Kind, ...]:
    kinds, crates = [], 0
    for index, line in enumerate(lines):
        row = line.row
        count = row.whole("count", default=1)
        crates += count
        if crates > MOST_CRATES:
            raise row.wrong(f"count is {count}, and so there are {crates} crates: at most {MOST_CRATES} can be loaded")
        sizes = _whole(line, scale)
        turns = turns_of(*sizes, _faces(row))
        is_stackable = row.choice("stackable", ("yes", "no"), "yes") == "yes"
        name, customer = _name(row.text("name")), _name(row.text("customer", ""))
        weight = weights.cells(line.weight or Decimal(0))
        kinds.append(Kind(index, name, customer, count, sizes, turns, row.line, is_stackable, weight))
    if not crates:
        raise Wrong("lists no crates", path)
    return tuple(kinds)


def _containers(lines: Sequence[_Line], path: Path, scale: Scale, weights: Scale) -> tuple[Container, ...]:
    containers, names = [], dict[str, int]()
    has_costs = _has(lines, "cost")
    for index, line in enumerate(lines):
        row = line.row
        name = _name(row.text("name"))
        if name in names:
            raise row.wrong(f"the name {name!r} is that of line {names[name]} too")
        names[name] = row.line
        length, width, height = _whole(line, scale)
        cost = _number(row, "cost") if has_costs else Decimal(0)
        payload = None if line.weight is None else weights.cells(line.weight)
        containers.append(Container(index, name, row.whole("count", default=1), Room(width, height, length), cost, payload))
    if not any(it.count for it in containers):
        raise Wrong("lists no containers", path)
    return tuple(containers)


def _said(pairs: Sequence[str], customers: set[str]) -> list[tuple[str, str]]:
    """The pairs of customers that words of the command name."""
    said = []
    for text in pairs:
        names = [_name(name) for name in next(csv.reader([_name(text)]), [])]
        if len(names) != 2 or not all(names):
            raise Wrong(f"--apart {text!r} must name two customers, as in --apart 'Miller,Smith'")
        if names[0] == names[1]:
            raise Wrong(f"--apart {text!r} names one customer twice")
        for name in names:
            if name not in customers:
                raise Wrong(f"--apart {text!r}: no crate is for {name!r}")
        said.append((names[0], names[1]))
    return said


def _listed(path: Path, customers: set[str]) -> list[tuple[str, str]]:
    """The pairs of customers in a table. It may be one for all days, so that some of its customers have no crates now."""
    listed = []
    for row in read_known(path, ("customer", "other")):
        names = _name(row.text("customer")), _name(row.text("other"))
        if names[0] == names[1]:
            raise row.wrong(f"{names[0]!r} cannot be apart from itself")
        for name in names:
            if name not in customers:
                print(f"note: {path}:{row.line}: no crate is for {name!r}", file=sys.stderr)
        listed.append(names)
    return listed


def _apart(pairs: Iterable[tuple[str, str]]) -> dict[str, frozenset[str]]:
    """For each customer those that may not share a container with it."""
    apart: dict[str, frozenset[str]] = {}
    for one, other in pairs:
        apart[one] = apart.get(one, frozenset()) | {other}
        apart[other] = apart.get(other, frozenset()) | {one}
    return apart


def _has(lines: Iterable[_Line], column: str) -> bool:
    return any(line.row.text(column, "") for line in lines)


def _check_weights(crates: Sequence[_Line], containers: Sequence[_Line]) -> None:
    """Where a container has a limit each crate has a weight."""
    limited = next((line.row for line in containers if line.weight is not None), None)
    if limited is not None:
        for line in crates:
            if line.weight is None:
                raise line.row.wrong(f"weight is missing, and {limited.path}:{limited.line} has a payload")


def read_job(
    packing_list: Path, container_list: Path, *, apart: Sequence[str] = (), apart_list: Path | None = None,
    together: bool = False, units: tuple[str, str] = ("", ""),
) -> Job:
    """What is to be loaded, as tables and words say it. The units are those of sizes and of weights."""
    optional = ("count", "customer", "down", "stackable", "weight")
    crates = _lines(read_known(packing_list, ("name", *SIDES), optional), "weight")
    rooms = _lines(read_known(container_list, ("name", *SIDES), ("count", "cost", "payload")), "payload")
    _check_weights(crates, rooms)
    scale = Scale.of(size for line in (*crates, *rooms) for size in line.sizes)
    weights = Scale.of(line.weight for line in (*crates, *rooms) if line.weight is not None)
    kinds, containers = _kinds(crates, packing_list, scale, weights), _containers(rooms, container_list, scale, weights)
    customers = {kind.customer for kind in kinds} - {""}
    pairs = _said(apart, customers) + ([] if apart_list is None else _listed(apart_list, customers))
    return Job(
        kinds, containers, _apart(pairs), together, scale, weights, _has(rooms, "cost"), _has(crates, "weight"), *units)
