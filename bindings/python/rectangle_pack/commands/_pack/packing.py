"""The library's packing of a job."""
from __future__ import annotations

from collections.abc import Sequence
from dataclasses import dataclass

from ... import Asked, Box, Packing, Placement, pack
from .._common import NoRoom
from .job import BoxKind, Job

__all__ = ["Packed", "Piece", "packed"]

# So many kinds of boxes that are left are named.
_NAMED = 3


@dataclass(frozen=True)
class Piece:
    """One of equal boxes: the index of its kind in the job, and which of these boxes it is."""

    kind: int
    number: int


@dataclass(frozen=True)
class Packed:
    """A job, its boxes one by one, and their packing, in which they are called by their indices."""

    job: Job
    pieces: Sequence[Piece]
    packing: Packing[int, Placement[int, int]]

    def kind_of(self, box: int) -> BoxKind:
        return self.job.boxes[self.pieces[box].kind]


def _pieces(job: Job) -> list[Piece]:
    return [Piece(kind, number) for kind, it in enumerate(job.boxes) for number in range(it.count)]


def _groups(kinds: Sequence[BoxKind], others: Sequence[str]) -> dict[str, list[int]]:
    """The boxes of groups that are no box's first one, and the groups without boxes."""
    groups: dict[str, list[int]] = {}
    for index, group in ((index, group) for index, kind in enumerate(kinds) for group in kind.groups[1:]):
        groups.setdefault(group, []).append(index)
    for group in others:
        groups.setdefault(group, [])
    return groups


def _fitting(job: Job, kinds: Sequence[BoxKind], progress: Asked | None) -> Packing[int, Placement[int, int]]:
    """What fits of these boxes, each told by its kind."""
    boxes = [Box(*it.size, group=it.groups[0] if it.groups else None) for it in kinds]
    # A group may be named by none but a box of which there are none.
    named = [*job.groups, *(group for it in job.boxes for group in it.groups)]
    groups, bins = _groups(kinds, named), [it.bin for it in job.bins]
    if not job.is_searched:
        return pack(bins, boxes, groups=groups, exclude=job.exclude, heuristic=job.heuristic, partial=True)
    return pack(
        bins, boxes, groups=groups, exclude=job.exclude, partial=True, tries=job.tries, seed=job.seed,
        turn=[it.turn for it in kinds], progress=progress)


def _named(kinds: Sequence[BoxKind]) -> str:
    """The first of these kinds, and how many more there are."""
    texts = [it.text for it in kinds[:_NAMED]]
    if len(kinds) > _NAMED:
        texts.append(f"{len(kinds) - _NAMED} more")
    return f"{', '.join(texts[:-1])} and {texts[-1]}" if len(texts) > 1 else "".join(texts)


def packed(job: Job, progress: Asked | None = None) -> Packed:
    """The packing of a job. Raises NoRoom where boxes are left that may not be, and names these."""
    pieces = _pieces(job)
    packing = _fitting(job, [job.boxes[it.kind] for it in pieces], progress)
    if packing.left and not job.partial:
        names = _named([job.boxes[kind] for kind in sorted({pieces[it.name].kind for it in packing.left})])
        raise NoRoom(f'{job.file}: not all boxes fit: left are {names}; by "partial": true what fits is packed')
    return Packed(job, pieces, packing)
