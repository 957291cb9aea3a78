"""The answer to a job: where boxes stand, what is left, and what is proved of it."""
from __future__ import annotations

from typing import Any

from ... import Placement
from .._json import lines_of
from .packing import Packed
from .parts import parts_of

__all__ = ["answer_of", "answer_text"]


def _box(packed: Packed, box: int, group: object) -> dict[str, Any]:
    """Which box it is: the index of its line in the job, which of the boxes of this line, and its names."""
    piece = packed.pieces[box]
    return {"box": piece.kind, "piece": piece.number, "name": packed.kind_of(box).name, "group": group}


def _placement(packed: Packed, it: Placement[int, int]) -> dict[str, Any]:
    return {
        **_box(packed, it.name, it.group), "bin": it.bin, "copy": it.copy, **it.section._asdict(), "turned": it.turned}


def _bins(packed: Packed) -> list[dict[str, Any]]:
    """The bins that have a box, in the order of the job, and of each the cutting plan, where it is asked for."""
    standing: dict[tuple[int, int], dict[int, Placement[int, int]]] = {}
    for index, it in enumerate(packed.packing):
        standing.setdefault((it.bin, it.copy), {})[index] = it
    bins = []
    for (number, copy), placed in sorted(standing.items()):
        kind = packed.job.bins[number]
        told: dict[str, Any] = {"bin": number, "copy": copy, "name": kind.name, "placements": [*placed]}
        bins.append({**told, "parts": parts_of(kind.bin, placed)} if packed.job.cuts else told)
    return bins


def answer_of(packed: Packed) -> dict[str, Any]:
    """What is answered."""
    packing, bins = packed.packing, _bins(packed)
    return {
        "complete": not packing.left,
        "optimal": packing.optimal,
        "used": packing.used,
        "least": packing.least,
        "cost": sum(packed.job.bins[it["bin"]].bin.cost for it in bins),
        "heuristic": packing.heuristic,
        "bins": bins,
        "placements": [_placement(packed, it) for it in packing],
        "left": [_box(packed, it.name, it.group) for it in packing.left],
    }


def answer_text(packed: Packed) -> str:
    """The answer as JSON, with a line for each bin, each placement and each box that is left."""
    return lines_of(answer_of(packed), 2, ascii_only=True) + "\n"
