"""What a run decided, as values for JSON."""
from __future__ import annotations

from dataclasses import asdict
from typing import Any

from .job import Job, Kind, Panel
from .plan import Cut, Part, Rect, SheetPlan
from .result import Result, Results, Sums, percent

__all__ = ["as_json"]

LENGTHS, AREAS = ("cut_length",), ("area", "panel_area", "offcut_area", "waste")


class _Json:
    """Makes the values of a job. Lengths are in its unit."""

    def __init__(self, job: Job) -> None:
        self.job = job
        self.length, self.area = job.lengths.number, job.lengths.squared.number
        self.cost = job.costs.number

    def rect(self, rect: Rect) -> dict[str, Any]:
        return {name: self.length(getattr(rect, name)) for name in ("x", "y", "width", "height")}

    def part(self, part: Part) -> dict[str, Any]:
        named: dict[str, Any] = {"role": part.role, "name": part.name, **self.rect(part.rect)}
        if part.laid:
            named.update(line=part.laid.panel.line, turned=part.laid.is_turned)
        return named

    def cut(self, number: int, cut: Cut) -> dict[str, Any]:
        """A cut, and what it leaves."""
        return {
            "number": number, "part": self.part(cut.part), "axis": cut.axis,
            # The edge that is trimmed, and how much goes, the blade's width included.
            "trims": cut.trims or None, "off": self.length(cut.off) if cut.trims else None,
            # From the part's left or lower edge to the blade, and the blade itself, from those of the sheet. Where a trim is
            # narrower than the blade, this begins before the edge.
            "at": self.signed(cut.at), "blade": [self.signed(cut.near), self.signed(cut.far)],
            "length": self.length(cut.length), "leaves": [self.part(it) for it in cut.parts],
        }

    def signed(self, length: int) -> float:
        return self.length(length) if length >= 0 else -self.length(-length)

    @property
    def material(self) -> dict[str, str]:
        return {"material": self.job.material.name, "thickness": self.job.material.thickness}

    def sheet(self, plan: SheetPlan, printed: SheetPlan) -> dict[str, Any]:
        """A sheet, and the number of the one in whose plan it stands."""
        kind = plan.kind
        return {
            "number": plan.number, "plan": printed.number, **self.material, "name": kind.name, "is_offcut": kind.is_offcut,
            "cost": self.cost(kind.cost), "width": self.length(kind.width), "height": self.length(kind.height),
            "trim": self.length(kind.trim), "panels": [self.part(it) for it in plan.panels],
            "offcuts": [self.part(it) for it in plan.offcuts],
            "cuts": [self.cut(number, it) for number, it in enumerate(plan.cuts, 1)],
            "waste": self.area(plan.waste), "cut_length": self.length(plan.cut_length),
        }

    def kind(self, kind: Kind, count: int) -> dict[str, Any]:
        """So many sheets of a kind."""
        return {
            "name": kind.name, **self.material, "is_offcut": kind.is_offcut, "width": self.length(kind.width),
            "height": self.length(kind.height), "count": count, "cost": self.cost(count * kind.cost),
        }

    def sums(self, sums: Sums) -> dict[str, Any]:
        """Sums as they are written. Areas are in square units."""
        values = asdict(sums)
        values.update({name: self.area(values[name]) for name in AREAS})
        values.update({name: self.length(values[name]) for name in LENGTHS})
        return {**values, "cost": self.cost(sums.cost), "waste_percent": float(percent(sums.waste, sums.area))}

    def result(self, result: Result) -> dict[str, Any]:
        """The sums of a material; how many sheets are needed, whatever plan is made, where that is known; and whether that is
        how many there are."""
        return {
            **self.material, "sums": self.sums(result.sums), "least_sheets": result.least, "is_optimal": result.is_optimal}

    def left(self, panel: Panel) -> dict[str, Any]:
        """A panel that is left."""
        return {
            "name": panel.name, **self.material, "line": panel.line, "width": self.length(panel.width),
            "height": self.length(panel.height)}

    def sheets(self, result: Result) -> list[dict[str, Any]]:
        return [self.sheet(sheet, it.plan) for it in result.alike for sheet in it.sheets]


def as_json(results: Results) -> dict[str, Any]:
    """All that was decided, for programs."""
    several, json = [(_Json(it.job), it) for it in results.results], _Json(results.job)
    return {
        "job": results.work.name, "unit": results.job.lengths.unit.name, "kerf": json.length(results.job.kerf),
        "keep": [json.length(it) for it in results.job.keep], "sums": json.sums(results.sums),
        "materials": [json.result(it) for json, it in several if it.alike],
        "used": [json.kind(*used) for json, it in several for used in it.used],
        "offcuts_left": [json.kind(*left) for json, it in several for left in it.offcuts_left],
        "sheets": [sheet for json, it in several for sheet in json.sheets(it)],
        "left": [json.left(panel) for json, it in several for panel in it.left],
    }
