"""What the tests of the command pack share: runs of the command, drawn jobs, and a judge of answers."""
from __future__ import annotations

import contextlib
import io
import json
import random
import tempfile
import unittest
from collections import Counter
from collections.abc import Iterator
from pathlib import Path
from typing import Any, NamedTuple, Optional

from rectangle_pack import Bin, Box, Placement, check
from rectangle_pack.commands import main

__all__ = ["HEURISTICS", "Json", "PackCase", "Run", "TURNS", "drawn_job", "fault_of", "placements_of", "wrong_part"]

Json = dict[str, Any]

HEURISTICS = ["volume", "height", "width", "depth", "side-sum", "longest-side", "shortest-side", "side-area"]
TURNS = ["none", "flat", "upright", "any"]


class Run(NamedTuple):
    """How a run of the command ended, and what it printed."""

    status: int
    out: str
    err: str

    @property
    def answer(self) -> Any:
        return json.loads(self.out)


class PackCase(unittest.TestCase):
    """A test with a folder of its own."""

    def setUp(self) -> None:
        folder = tempfile.TemporaryDirectory()
        self.addCleanup(folder.cleanup)
        self.folder = Path(folder.name)

    def job(self, job: object) -> Path:
        """The file of a job, which may be a text or bytes."""
        path = self.folder / "job.json"
        text = job if isinstance(job, (str, bytes)) else json.dumps(job)
        path.write_bytes(text if isinstance(text, bytes) else text.encode())
        return path

    def run_words(self, *words: object) -> Run:
        """A run of the command in this process."""
        out, err = io.StringIO(), io.StringIO()
        with contextlib.redirect_stdout(out), contextlib.redirect_stderr(err):
            try:
                status = main(["pack", *map(str, words)])
            except SystemExit as end:
                status = end.code if isinstance(end.code, int) else 1
        return Run(status, out.getvalue(), err.getvalue())

    def run_job(self, job: object, *words: object) -> Run:
        return self.run_words(self.job(job), *words)

    def answer(self, job: object, *words: object) -> Any:
        """The answer to a job of which all boxes fit."""
        done = self.run_job(job, *words)
        self.assertEqual((done.status, done.err), (0, ""), job)
        return done.answer

    def assert_refused(self, job: object, why: str, *words: object) -> None:
        """One line says why, after the name of the file, and nothing else is printed."""
        done = self.run_job(job, *words)
        self.assertEqual(done, Run(2, "", f"{self.folder / 'job.json'}{why}\n"))


def _size(r: random.Random, flat: bool, most: int) -> Json:
    size = {"width": r.randint(1, most), "height": r.randint(1, most)}
    return size if flat else {**size, "depth": r.randint(1, most)}


def _drawn_bin(r: random.Random, flat: bool) -> Json:
    it = _size(r, flat, 12)
    if r.random() < 0.5:
        it["count"] = r.choice([None, 0, 1, 2, 5])
    if r.random() < 0.3:
        it["cost"] = r.randint(0, 9)
    return it


def _drawn_box(r: random.Random, flat: bool, number: int, turned: bool) -> Json:
    it = _size(r, flat, 8)
    if r.random() < 0.5:
        it["name"] = r.choice([f"box {number}", "like others", "Tür"])
    if r.random() < 0.4:
        it["count"] = r.randint(0, 4)
    if r.random() < 0.4:
        it["groups"] = r.sample("abcd", r.randint(0, 2))
    if turned and r.random() < 0.5:
        it["turn"] = r.choice(TURNS)
    return it


def drawn_job(r: random.Random) -> Json:
    """A job that is right in itself. Its boxes may be too many for its bins."""
    flat, is_searched = r.random() < 0.5, r.random() < 0.5
    boxes = [_drawn_box(r, flat, number, is_searched) for number in range(r.randint(0, 9))]
    job: Json = {"bins": [_drawn_bin(r, flat) for _ in range(r.randint(0, 4))], "boxes": boxes}
    groups = sorted({group for box in boxes for group in box.get("groups", ())})
    if r.random() < 0.3:
        groups.append("of no box")
        job["groups"] = ["of no box"]
    if len(groups) > 1 and r.random() < 0.5:
        job["exclude"] = [r.sample(groups, 2) for _ in range(r.randint(1, 2))]
    if is_searched:
        job.update(tries=r.choice([0, 1, 20, 200, 500]), seed=r.randint(0, 9))
        job.update({"turn": r.choice(TURNS)} if r.random() < 0.5 else {})
    elif r.random() < 0.7:
        job["heuristic"] = r.choice(["best", *HEURISTICS])
    job.update({name: r.random() < 0.7 for name in ("partial", "cuts") if r.random() < 0.8})
    return job


def placements_of(answer: Json) -> list[Placement[Any, int]]:
    """The placements of an answer. A box is called by its index and that of its piece."""
    return [
        Placement(
            (it["box"], it["piece"]), it["group"], it["bin"], it["x"], it["y"], it["z"], it["width"], it["height"], it["depth"],
            it["copy"]) for it in answer["placements"]]


def _left_out(job: Json, answer: Json) -> Iterator[tuple[Any, Any]]:
    """The box and the group of each entry that is to be left, as a counter has them."""
    for it in answer["left"]:
        yield (it["box"], it["piece"]), it["group"]


def fault_of(job: Json, answer: Json) -> Optional[str]:
    """What the library's judge finds in an answer. Boxes that are left are not to be placed."""
    bins = [Bin(it["width"], it["height"], it.get("depth", 1), it.get("count", 1)) for it in job["bins"]]
    boxes, groups, turns = {}, dict[str, list[Any]](), {}
    left = Counter(_left_out(job, answer))
    for index, it in enumerate(job["boxes"]):
        for piece in range(it.get("count", 1)):
            name, own = (index, piece), it.get("groups") or [None]
            placed = [group for group in own if not left.pop((name, group), 0)]
            if placed:
                boxes[name] = Box(it["width"], it["height"], it.get("depth", 1), placed[0])
                turns[name] = it.get("turn", job.get("turn", "none"))
            for group in placed[1:]:
                groups.setdefault(group, []).append(name)
    if left:
        return f"these are left, and are no boxes: {left}"
    named = {*groups, *(box.group for box in boxes.values())}
    exclude = [(one, other) for one, other in job.get("exclude", ()) if one in named and other in named]
    fault = check(bins, boxes, placements_of(answer), groups=groups, exclude=exclude, turn=turns)
    return None if fault is None else str(fault)


def _section(it: Json) -> tuple[int, ...]:
    return tuple(it[key] for key in ("x", "y", "z", "width", "height", "depth"))


def _halves(part: Json) -> tuple[tuple[int, ...], tuple[int, ...]]:
    axis, lower, upper = "xyz".index(part["axis"]), list(_section(part)), list(_section(part))
    lower[3 + axis] = part["at"] - lower[axis]
    upper[axis], upper[3 + axis] = part["at"], upper[axis] + upper[3 + axis] - part["at"]
    return tuple(lower), tuple(upper)


def wrong_part(job: Json, answer: Json, told: Json) -> Optional[str]:
    """What is wrong with the cutting plan of a bin: its parts are those that cuts leave, and its boxes are each one of them."""
    size, parts, found, below = job["bins"][told["bin"]], told["parts"], [], [0]
    if _section(parts[0]) != (0, 0, 0, size["width"], size["height"], size.get("depth", 1)):
        return "the first part is not the bin"
    for index, part in enumerate(parts):
        if "axis" in part:
            below += [part["lower"], part["upper"]]
            if (_section(parts[part["lower"]]), _section(parts[part["upper"]])) != _halves(part):
                return f"part {index} leaves other parts"
        elif part["placement"] is not None:
            found.append(part["placement"])
            if _section(part) != _section(answer["placements"][part["placement"]]):
                return f"part {index} is no place of a box"
    if sorted(below) != [*range(len(parts))]:
        return "not each part is left by one cut"
    return None if sorted(found) == told["placements"] else "the parts have other boxes than the bin"
