"""How many containers are needed at least, whatever plan is made."""
from __future__ import annotations

from itertools import accumulate

from ... import Bin, Box, Turn, least_bins
from .job import Job, Kind

__all__ = ["least_containers"]


def _turn(kind: Kind) -> Turn:
    """How a crate may be turned, or more than that."""
    return "upright" if len({turn.down for turn in kind.turns}) == 1 else "any"


def _by_sizes(job: Job) -> int | None:
    kinds = [kind for kind in job.kinds for _ in range(kind.count)]
    here = sorted({kind.customer for kind in kinds})
    boxes = [Box(*kind.turns[0][:3], kind.customer or None) for kind in kinds]
    pairs = [(one, other) for one in here for other in sorted(job.apart.get(one, ())) if one < other and other in here]
    bins = [Bin(*it.room, min(it.count, len(boxes))) for it in job.containers]
    return least_bins(bins, boxes, exclude=pairs, turn=[_turn(kind) for kind in kinds])


def _by_weight(job: Job) -> int | None:
    """How many of the containers that may carry most carry the weight of all crates."""
    weight = sum(kind.weight * kind.count for kind in job.kinds)
    payloads = (weight if it.payload is None else it.payload for it in job.containers for _ in range(it.count))
    carried = accumulate(sorted(payloads, reverse=True), initial=0)
    return next((count for count, most in enumerate(carried) if most >= weight), None)


def least_containers(job: Job) -> int | None:
    """No plan takes all crates in fewer containers than this; None where none takes all."""
    by_sizes, by_weight = _by_sizes(job), _by_weight(job)
    return None if by_sizes is None or by_weight is None else max(by_sizes, by_weight)
