"""A load as text, as CSV, as JSON, and as a scene for a page."""
from __future__ import annotations

import csv
import io
from collections.abc import Sequence
from decimal import Decimal
from fractions import Fraction
from typing import Any

from .._filled import filled_text
from .._scene import Item, Room, Scene
from .._scene import Step as SceneStep
from .job import Job
from .report import LoadedContainer, Report, Step

__all__ = ["AXES", "HEAD", "as_csv", "as_json", "as_text", "cells", "inside", "scene_of", "stands_on", "table"]

HEAD = ("step", "crate", "customer", "x", "y", "z", "wide", "high", "long", "down", "on")

# The columns of words, which begin at the left.
WORDS = {"crate", "customer", "down", "on"}

AXES = "x from the right wall, as one looks in at the door; y up from the floor; z from the end wall to the door"

# So many steps are named on which a crate stands; of more only the count is said.
MOST_NAMED = 4


def _filled(part: Fraction) -> str:
    """As it is told: 76.1 %"""
    return filled_text(part.numerator, part.denominator)


def _percent(part: Fraction) -> int | float:
    """Percent with one decimal, rounded down as in the text."""
    tenths = part.numerator * 1000 // part.denominator
    return tenths / 10 if tenths % 10 else tenths // 10


def _places(step: Step) -> dict[str, int]:
    """Where a crate goes, and its sides as it is turned."""
    it = step.crate
    return {"x": it.x, "y": it.y, "z": it.z, "wide": it.turn.wide, "high": it.turn.high, "long": it.turn.long}


def cells(job: Job, step: Step, on: str) -> tuple[str, ...]:
    kind = step.crate.kind
    return (str(step.number), kind.name, kind.customer, *map(job.told, _places(step).values()), step.crate.turn.down, on)


def table(rows: Sequence[Sequence[str]]) -> list[str]:
    """The lines of a table whose first row is its head."""
    widths = [max(map(len, column)) for column in zip(*rows)]
    is_word = [name in WORDS for name in rows[0]]
    return [
        "  ".join(cell.ljust(width) if left else cell.rjust(width) for cell, width, left in zip(row, widths, is_word)).rstrip()
        for row in rows]


def _counted(count: int, what: str) -> str:
    return f"{count} {what}" if count == 1 else f"{count} {what}s"


def stands_on(step: Step) -> str:
    """What a crate stands on, in short."""
    if not step.on:
        return "floor"
    return " ".join(map(str, step.on)) if len(step.on) <= MOST_NAMED else _counted(len(step.on), "crate")


def inside(job: Job, it: LoadedContainer) -> str:
    """How full a container is: 6 crates, 20.6 % filled, 200 of the length in use, 4800 of 21000 kg"""
    words = [_counted(len(it.steps), "crate"), f"{_filled(it.filled)} filled", f"{job.told(it.length)} of the length in use"]
    if job.has_weights:
        limit = "" if it.container.payload is None else f" of {job.weights.text(it.container.payload)}"
        words.append(f"{job.weights.text(it.weight)}{limit} {job.weight_unit or 'in weight'}")
    return ", ".join(words)


def _text_of(job: Job, it: LoadedContainer) -> str:
    wide, high, long = map(job.told, it.container.room)
    head = f"{it.name}: {wide} wide, {high} high, {long} long; {inside(job, it)}"
    return "\n".join([head, "", *table([HEAD, *(cells(job, step, stands_on(step)) for step in it.steps)])])


def _bound(report: Report) -> str:
    """What is proved of all plans."""
    if report.least is None:
        return "no plan takes all crates: proved"
    if report.is_proved:
        return "no plan needs fewer containers: proved"
    return f"all crates need at least {_counted(report.least, 'container')}: proved"


def as_text(report: Report) -> str:
    """A table for each container, and the sums."""
    job = report.job
    costs = [f"cost {report.cost:f}"] if job.has_costs else []
    weight = job.weights.text(sum(it.weight for it in report.containers))
    weights = [f"{weight} {job.weight_unit or 'in weight'}"] if job.has_weights else []
    sums = [
        _counted(len(report.containers), "container"), *costs, _counted(report.crates, "crate"),
        f"{_filled(report.filled)} filled", *weights]
    unit = f", in {job.unit}" if job.unit else ""
    return "\n\n".join([AXES + unit, *(_text_of(job, it) for it in report.containers), f"{', '.join(sums)}\n{_bound(report)}"])


def as_csv(report: Report) -> str:
    """A line for each crate, in the order of loading."""
    text = io.StringIO()
    writer = csv.writer(text, lineterminator="\n")
    writer.writerow(("container", *HEAD))
    for it in report.containers:
        for step in it.steps:
            writer.writerow((it.name, *cells(report.job, step, " ".join(map(str, step.on)) or "floor")))
    return text.getvalue()


def _cost(job: Job, cost: Decimal) -> int | float | None:
    text = f"{cost:f}"
    return None if not job.has_costs else float(text) if "." in text else int(text)


def _json_step(job: Job, step: Step) -> dict[str, Any]:
    kind = step.crate.kind
    places = {name: job.scale.number(size) for name, size in _places(step).items()}
    return {
        "step": step.number, "crate": kind.name, "line": kind.line, "piece": step.piece, "customer": kind.customer, **places,
        "down": step.crate.turn.down, "on": list(step.on)}


def _json_container(job: Job, it: LoadedContainer) -> dict[str, Any]:
    wide, high, long = map(job.scale.number, it.container.room)
    payload = it.container.payload
    return {
        "name": it.name, "kind": it.container.name, "wide": wide, "high": high, "long": long,
        "cost": _cost(job, it.container.cost), "filled": _percent(it.filled),
        "weight": job.weights.number(it.weight) if job.has_weights else None,
        "payload": None if payload is None else job.weights.number(payload),
        "length_in_use": job.scale.number(it.length), "steps": [_json_step(job, step) for step in it.steps]}


def as_json(report: Report) -> dict[str, Any]:
    """The load for programs."""
    job = report.job
    apart = sorted({tuple(sorted((one, other))) for one, others in job.apart.items() for other in others})
    return {
        "unit": job.unit, "weight_unit": job.weight_unit, "together": job.together, "apart": [list(pair) for pair in apart],
        "cost": _cost(job, report.cost), "crates": report.crates, "least": report.least, "proved": report.is_proved,
        "left": [
            {"crate": kind.name, "line": kind.line, "count": count} for kind, count in zip(job.kinds, report.left) if count],
        "filled": _percent(report.filled), "containers": [_json_container(job, it) for it in report.containers]}


def _cell_unit(job: Job) -> str:
    """What one cell of the scene is."""
    if not job.scale.decimals:
        return job.unit or "cells"
    return f"{Decimal(1).scaleb(-job.scale.decimals):f} {job.unit or 'units'}"


def scene_of(report: Report, title: str) -> Scene:
    """What a page shows: a step for each crate, in the order of loading."""
    job = report.job
    steps: list[SceneStep] = []
    for it in report.containers:
        for step in it.steps:
            crate = step.crate
            corner = (crate.x, crate.y, crate.z)
            text = f"{it.name}, step {step.number}: {crate.kind.name} at {' '.join(map(job.told, corner))}"
            note, number = f"{crate.turn.down} down", len(steps) + 1
            item = Item(number, crate.kind.name, it.name, corner, crate.turn[:3], crate.kind.customer, note)
            steps.append(SceneStep(text, [item]))
    facts = [
        ("containers", str(len(report.containers))), ("crates", str(report.crates)), ("filled", _filled(report.filled)),
        *([("cost", f"{report.cost:f}")] if job.has_costs else [])]
    rooms = [Room(it.name, it.container.room) for it in report.containers]
    return Scene(title, rooms, steps, unit=_cell_unit(job), facts=facts)
