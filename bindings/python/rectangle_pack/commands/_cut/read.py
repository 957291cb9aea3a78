"""Reads the cutting list, the stock and the offcuts: a job for each material."""
from __future__ import annotations

from collections import Counter
from collections.abc import Iterator, Sequence
from dataclasses import dataclass
from decimal import Decimal
from pathlib import Path

from .._common import Wrong
from .._scale import MOST, Scale, decimals_of
from .job import Job, Kind, Material, Panel, Work
from .lines import Line, Table, panel_table, printable, sheet_table, why_not
from .unit import Lengths, Unit

__all__ = ["MOST_PANELS", "Sizes", "Tables", "read_work", "sizes_of"]

MOST_PANELS = 100_000

# What lines have in common whose panels are cut from their sheets.
_Key = tuple[str, Decimal]


@dataclass(frozen=True)
class Sizes:
    """The sizes that options give."""

    unit: Unit
    kerf: Decimal
    trim: Decimal
    # The longer and the shorter side.
    keep: tuple[Decimal, Decimal]
    trims_offcuts: bool


@dataclass(frozen=True)
class Tables:
    """The files that are read."""

    panels: Path
    stock: Path | None
    offcuts: Sequence[Path]


def _number(option: str, text: str, unit: Unit) -> Decimal:
    """A number of an option. Decimals may have a comma before them."""
    number = unit.number(text)
    if number is None or number < 0:
        raise Wrong(f"{option} is {text!r}, and must be a number in {unit.plural} that is not negative")
    if why := why_not(number):
        raise Wrong(f"{option} is {text}, and {why}")
    return number


def sizes_of(unit: Unit, kerf: str, trim: str, keep: str | None, trims_offcuts: bool) -> Sizes:
    """What the options --unit, --kerf, --trim and --keep say."""
    sides = (unit.keep if keep is None else keep).lower().split("x")
    if len(sides) != 2:
        raise Wrong(f"--keep is {keep!r}, and must be a width and a height in {unit.plural}, as {unit.keep}")
    shorter, longer = sorted(_number("--keep", side, unit) for side in sides)
    return Sizes(unit, _number("--kerf", kerf, unit), _number("--trim", trim, unit), (longer, shorter), trims_offcuts)


def _check_columns(tables: Sequence[Table]) -> None:
    """Refuses tables of which only some have a column for the material, or for the thickness."""
    for column in ("material", "thickness"):
        having = [it.path for it in tables if it.lines and column in it.lines[0].row.values]
        lacking = [it.path for it in tables if it.lines and column not in it.lines[0].row.values]
        if having and lacking:
            raise Wrong(f"the column {column!r} is missing, and {having[0]} has it", lacking[0], 1)


def _panel_table(path: Path, unit: Unit) -> Table:
    table = panel_table(path, unit)
    total = sum(line.count or 0 for line in table.lines)
    if not total:
        raise Wrong("names no panel", path)
    if total > MOST_PANELS:
        raise Wrong(f"names {total} panels, and at most {MOST_PANELS} can be cut at once", path)
    return table


def _sheet_tables(paths: Tables, unit: Unit) -> list[Table]:
    tables = [sheet_table(it, unit, True) for it in paths.offcuts]
    if paths.stock is not None:
        tables.append(sheet_table(paths.stock, unit, False))
        if not tables[-1].lines:
            raise Wrong("names no sheet", paths.stock)
    return tables


def _labels(lines: Sequence[Line]) -> Iterator[str]:
    """A name for each panel. Where several have one name they are numbered, past names that stand in the list."""
    totals: Counter[str] = Counter()
    for line in lines:
        totals[line.name] += line.count or 0
    given: Counter[str] = Counter()
    for line in lines:
        for _ in range(line.count or 0):
            label = line.name
            while totals[line.name] > 1 and label in totals:
                given[line.name] += 1
                label = f"{line.name} #{given[line.name]}"
            yield label


def _key(line: Line) -> _Key:
    return line.material.casefold(), line.thickness or Decimal(0)


class _Reader:
    """Turns lines into panels and kinds of sheets, in whole cells that all of these have in common."""

    def __init__(self, lines: Sequence[Line], sizes: Sizes) -> None:
        self.sizes = sizes
        numbers = [number for line in lines for number in (line.width, line.height)]
        self.lengths = Lengths(Scale.of([*numbers, sizes.kerf, sizes.trim, *sizes.keep]).decimals, sizes.unit)
        self.costs = Scale.of(line.cost for line in lines)
        self.kerf, self.trim = self.lengths.cells(sizes.kerf), self.lengths.cells(sizes.trim)
        self.keep = self.lengths.cells(sizes.keep[0]), self.lengths.cells(sizes.keep[1])
        if self.kerf >= MOST:
            raise Wrong(f"--kerf is too large, where all is measured in steps of {self.lengths.text(1)} {sizes.unit.name}")

    def sides(self, line: Line) -> tuple[int, int]:
        """The width and the height of a line in cells, where the library holds them with the kerf."""
        lengths, unit = self.lengths, self.sizes.unit.name
        for column, number in (("width", line.width), ("height", line.height)):
            if lengths.cells(number) + self.kerf > MOST:
                most = f"{lengths.text(MOST - self.kerf)} {unit} at most"
                step = f"where all is measured in steps of {lengths.text(1)} {unit}"
                raise line.row.wrong(f"{line.row.head(column)} is too large: {most}, {step}")
        return lengths.cells(line.width), lengths.cells(line.height)

    def panels(self, lines: Sequence[Line]) -> Iterator[tuple[_Key, Panel]]:
        """The panels, each with the key of its line."""
        labels = _labels(lines)
        for number, line in enumerate(lines, 1):
            sides = self.sides(line)
            for _ in range(line.count or 0):
                yield _key(line), Panel(next(labels), number, line.name, *sides, line.is_free, line.row.line)

    def kind(self, line: Line) -> Kind:
        is_trimmed = not line.is_offcut or self.sizes.trims_offcuts
        cost, trim = self.costs.cells(line.cost), self.trim if is_trimmed else 0
        return Kind(line.name, *self.sides(line), cost, line.count, line.is_offcut, trim)

    def material(self, line: Line) -> Material:
        number = line.thickness
        text = "" if number is None else (scale := Lengths(decimals_of(number), self.sizes.unit)).text(scale.cells(number))
        return Material(line.material, text)


def _jobs(name: str, panels: Sequence[Line], sheets: Sequence[Line], sizes: Sizes) -> list[Job]:
    """A job for each material, in the order of the lines."""
    it, lines = _Reader([*panels, *sheets], sizes), [*panels, *sheets]
    by_key: dict[_Key, tuple[Material, list[Panel], list[Kind]]] = {}
    for line in lines:
        by_key.setdefault(_key(line), (it.material(line), [], []))
    for key, panel in it.panels(panels):
        by_key[key][1].append(panel)
    for line in sheets:
        by_key[_key(line)][2].append(it.kind(line))
    taken = frozenset(line.name for line in sheets if line.is_offcut)
    return [
        Job(own, kinds, it.kerf, it.keep, it.lengths, it.costs, name, material, taken)
        for material, own, kinds in by_key.values()]


def _note(tables: Sequence[Table]) -> str:
    """Which columns are passed over."""
    passed = [f"{', '.join(map(repr, dict.fromkeys(it.passed)))} of {it.path}" for it in tables if it.passed]
    return f"columns that are passed over: {'; '.join(passed)}" if passed else ""


def read_work(name: str, paths: Tables, sizes: Sizes) -> Work:
    """All that a run is given."""
    name = printable(name)
    if not name:
        raise Wrong("--job is empty, and must be a name")
    panels, sheets = _panel_table(paths.panels, sizes.unit), _sheet_tables(paths, sizes.unit)
    tables = [panels, *sheets]
    _check_columns(tables)
    jobs = _jobs(name, panels.lines, [line for it in sheets for line in it.lines], sizes)
    first = panels.lines[0]
    return Work(
        name, [job for job in jobs if job.panels], [job for job in jobs if job.kinds and not job.panels],
        "material" in first.row.values, first.thickness is not None, _note(tables), panels.lines)
