"""The boxes that lines of packrun have added, and that wait for the next packing."""
from __future__ import annotations

from collections.abc import Sequence
from dataclasses import dataclass, field

from .._scene import Triple

__all__ = ["Waiting"]


@dataclass
class Waiting:
    """The boxes that the next packing places, and the groups that it keeps apart."""

    sizes: dict[str, Triple] = field(default_factory=dict)
    alone: set[str] = field(default_factory=set)
    # For each group the boxes in it, in the order of their lines.
    members: dict[str, list[str]] = field(default_factory=dict)
    # The names of each pair are in order.
    pairs: set[tuple[str, str]] = field(default_factory=set)

    def add(self, name: str, size: Triple, groups: Sequence[str]) -> None:
        """A box that is named again gets the new size. It is placed once alone, and once for each naming of a group."""
        self.sizes[name] = size
        if not groups:
            self.alone.add(name)
        for group in groups:
            self.members.setdefault(group, []).append(name)

    def exclude(self, one: str, other: str) -> None:
        self.pairs.add((min(one, other), max(one, other)))

    def entries(self) -> list[tuple[str, str]]:
        """Each box with its group, which is empty where it is alone. By this order packrun decides between equals: boxes that
        are alone by their names, then groups by theirs, and in a group as the lines stand."""
        grouped = ((name, group) for group in sorted(self.members) for name in self.members[group])
        return [*((name, "") for name in sorted(self.alone)), *grouped]

    def says(self) -> str:
        """How much waits, in words."""
        boxes = len(self.alone) + sum(map(len, self.members.values()))
        said = f"{boxes} {'box waits' if boxes == 1 else 'boxes wait'} for the next pack"
        if not self.pairs:
            return said
        pairs = "1 pair of groups is" if len(self.pairs) == 1 else f"{len(self.pairs)} pairs of groups are"
        return f"{said}, {pairs} kept apart"
