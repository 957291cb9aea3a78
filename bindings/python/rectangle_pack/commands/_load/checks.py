"""Why a load is refused, or what is left over."""
from __future__ import annotations

from collections.abc import Sequence

from .._common import NoRoom
from .job import Container, Job, Kind
from .search import Load

__all__ = ["refuse_left", "refuse_misfits", "what_is_left"]


def _counted(job: Job, kinds: Sequence[tuple[Kind, int]]) -> str:
    """Each kind of crates, with how many there are: 2 x 'pallet' of line 3 (120 x 80 x 105 cm, 400 kg)"""
    weights = [f", {job.weight(kind.weight)}" if job.has_weights else "" for kind, _ in kinds]
    return ", ".join(
        f"{count} x {kind.name!r} of line {kind.line} ({job.sizes(kind)}{weight})"
        for (kind, count), weight in zip(kinds, weights))


def _refuse_crates(job: Job, containers: Sequence[Container]) -> None:
    """Each crate fits into some container that carries it."""
    homes = {
        kind: [it for it in containers if any(turn.fits(it.room) for turn in kind.turns)] for kind in job.kinds if kind.count}
    over = [(kind, kind.count) for kind, takers in homes.items() if not takers]
    if over:
        raise NoRoom(f"no container is large enough, however the list lets crates be turned, for {_counted(job, over)}")
    over = [(kind, kind.count) for kind, takers in homes.items() if not any(it.carries(kind.weight) for it in takers)]
    if over:
        raise NoRoom(f"no container that is large enough has the payload for {_counted(job, over)}")


def _refuse_customers(job: Job, containers: Sequence[Container]) -> None:
    """Where customers are kept together, the crates of each go into one container."""
    volumes, weights = dict[str, int](), dict[str, int]()
    for kind in job.kinds:
        volumes[kind.customer] = volumes.get(kind.customer, 0) + kind.volume * kind.count
        weights[kind.customer] = weights.get(kind.customer, 0) + kind.weight * kind.count
    most = max(it.room.volume for it in containers)
    over = [f"those of customer {it!r} {job.volume(volume)}" for it, volume in volumes.items() if it and volume > most]
    if over:
        raise NoRoom(
            f"the greatest container has a volume of {job.volume(most)}, and crates that are to be kept together have more: "
            f"{', '.join(over)}")
    over = [
        f"those of customer {it!r} {job.weight(weight)}"
        for it, weight in weights.items() if it and not any(one.carries(weight) for one in containers)]
    if over:
        raise NoRoom(f"no container has the payload for crates that are to be kept together: {', '.join(over)}")


def refuse_misfits(job: Job) -> None:
    """Raises NoRoom where one sees, without a try, that not all crates fit."""
    containers = [it for it in job.containers if it.count]
    _refuse_crates(job, containers)
    crates = sum(kind.volume * kind.count for kind in job.kinds)
    volume = sum(it.room.volume * it.count for it in containers)
    if crates > volume:
        raise NoRoom(f"the containers are full: they have a volume of {job.volume(volume)}, and the crates {job.volume(crates)}")
    weight = sum(kind.weight * kind.count for kind in job.kinds)
    payloads = [it.payload * it.count for it in containers if it.payload is not None]
    if len(payloads) == len(containers) and sum(payloads) < weight:
        raise NoRoom(
            f"the containers are full: they have a payload of {job.weight(sum(payloads))}, "
            f"and the crates weigh {job.weight(weight)}")
    if job.together:
        _refuse_customers(job, containers)


def what_is_left(load: Load) -> str:
    """Which crates are left over; nothing where none are."""
    over = [(kind, count) for kind, count in zip(load.job.kinds, load.left) if count]
    crates = f"{sum(count for _, count in over)} of {sum(kind.count for kind in load.job.kinds)} crates"
    return f"{crates} are left over: {_counted(load.job, over)}" if over else ""


def refuse_left(load: Load) -> None:
    """Raises NoRoom where crates are left over."""
    left, job = what_is_left(load), load.job
    customers = dict.fromkeys(repr(kind.customer) for kind, count in zip(job.kinds, load.left) if count and kind.customer)
    if left and job.together and customers and len(load.containers) < sum(it.count for it in job.containers):
        raise NoRoom(f"no container that is free takes all crates of customer {' or of '.join(customers)}; {left}")
    if left:
        raise NoRoom(f"the containers are full: {left}")
