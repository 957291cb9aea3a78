"""What a job asks: bins, boxes, which groups may not share a bin, and how it is packed."""
from __future__ import annotations

from collections.abc import Callable, Mapping, Sequence
from dataclasses import dataclass
from typing import Any, TypeVar, cast, get_args

from ... import AnyHeuristic, Bin, Heuristic, Turn
from ..._numbers import MOST, MOST_OF_64
from .values import Value

__all__ = ["MOST_BOXES", "BinKind", "BoxKind", "Job", "job_of"]

# So many boxes are packed at most, each counted as often as its count says.
MOST_BOXES = 1_000_000

_SIZE = ("width", "height")

_T = TypeVar("_T")


@dataclass(frozen=True)
class BinKind:
    """Equal bins under one name, which they may lack."""

    name: str | None
    bin: Bin


@dataclass(frozen=True)
class BoxKind:
    """Equal boxes: their name, which they may lack, their size, how many there are, their groups, and how they may be turned."""

    name: str | None
    size: tuple[int, int, int]
    count: int
    groups: Sequence[str]
    turn: Turn
    # $.boxes[3]
    path: str

    @property
    def text(self) -> str:
        """The path, and the name where there is one."""
        return self.path if self.name is None else f"{self.path} {self.name!r}"


@dataclass(frozen=True)
class Job:
    """A job, and the name of its file. groups has those that no box may have."""

    file: str
    bins: Sequence[BinKind]
    boxes: Sequence[BoxKind]
    groups: Sequence[str]
    exclude: Sequence[tuple[str, str]]
    heuristic: AnyHeuristic
    tries: int
    seed: int
    # How boxes may be turned that do not say it themselves.
    turn: Turn
    partial: bool
    cuts: bool

    @property
    def is_searched(self) -> bool:
        return self.tries > 0 or self.turn != "none" or any(it.turn != "none" for it in self.boxes)


def _optional(members: Mapping[str, Value], name: str, read: Callable[[Value], _T], otherwise: _T) -> _T:
    """A member that may be left out."""
    return read(members[name]) if name in members else otherwise


def _size(members: Mapping[str, Value]) -> tuple[int, int, int]:
    width, height = (members[name].whole(1, MOST) for name in _SIZE)
    return width, height, _optional(members, "depth", lambda it: it.whole(1, MOST), 1)


def _name(members: Mapping[str, Value]) -> str | None:
    return _optional(members, "name", lambda it: it.text(), None)


def _groups(members: Mapping[str, Value]) -> list[str]:
    return members["groups"].names() if "groups" in members else []


def _count(value: Value) -> int | None:
    """How many equal bins there are; None for as many as are needed."""
    return None if value.is_null else value.whole(0, MOST)


def _turn(value: Value) -> Turn:
    return cast(Turn, value.word(get_args(Turn)))


def _bin(value: Value) -> BinKind:
    members = value.members(_SIZE, ("depth", "name", "count", "cost"))
    count = _count(members["count"]) if "count" in members else 1
    cost = _optional(members, "cost", lambda it: it.whole(0, MOST_OF_64), 1)
    return BinKind(_name(members), Bin(*_size(members), count=count, cost=cost))


def _box(value: Value, turn: Turn) -> BoxKind:
    """A box. Where it does not say how it may be turned, the job does."""
    members = value.members(_SIZE, ("depth", "name", "count", "groups", "turn"))
    count = _optional(members, "count", lambda it: it.whole(0, MOST_BOXES), 1)
    turn = _optional(members, "turn", _turn, turn)
    return BoxKind(_name(members), _size(members), count, _groups(members), turn, value.path)


def _pair(value: Value) -> tuple[str, str]:
    names = value.names()
    if len(names) != 2:
        value.refuse("not two groups")
    return names[0], names[1]


def _pairs(value: Value, known: set[str]) -> list[tuple[str, str]]:
    """Pairs of groups that are named."""
    pairs = []
    for it in value.items():
        pairs.append(_pair(it))
        for group in it.items():
            if group.text() not in known:
                group.refuse("no box has this group, and $.groups does not name it")
    return pairs


def _refuse_heuristic(heuristic: Value, job: Job) -> None:
    """Refuses a heuristic beside a search, which takes all."""
    if job.heuristic == "best" or not job.is_searched:
        return
    turned = (f"{it.path}.turn" for it in job.boxes if it.turn != "none")
    asking = "$.tries" if job.tries else "$.turn" if job.turn != "none" else next(turned)
    heuristic.refuse(f"a search takes all heuristics, and {asking} asks for one")


def job_of(file: str, told: Any) -> Job:
    """The job that a JSON value tells."""
    root = Value(file, told)
    members = root.members(
        ("bins", "boxes"),
        ("groups", "exclude", "heuristic", "tries", "seed", "turn", "partial", "cuts", "$schema"))
    _optional(members, "$schema", lambda it: it.text(), "")
    turn: Turn = _optional(members, "turn", _turn, "none")
    bins, boxes = [*map(_bin, members["bins"].items())], [_box(it, turn) for it in members["boxes"].items()]
    if sum(it.count for it in boxes) > MOST_BOXES:
        raise members["boxes"].wrong(f"more than {MOST_BOXES} boxes, with their counts")
    groups = _groups(members)
    known = {*groups, *(group for it in boxes for group in it.groups)}
    words = ("best", *get_args(Heuristic))
    job = Job(
        file, bins, boxes, groups, _optional(members, "exclude", lambda it: _pairs(it, known), []),
        cast(AnyHeuristic, _optional(members, "heuristic", lambda it: it.word(words), "best")),
        _optional(members, "tries", lambda it: it.whole(0, MOST_OF_64), 0),
        _optional(members, "seed", lambda it: it.whole(0, MOST_OF_64), 0),
        turn, *(_optional(members, name, lambda it: it.truth(), False) for name in ("partial", "cuts")))
    if "heuristic" in members:
        _refuse_heuristic(members["heuristic"], job)
    return job
