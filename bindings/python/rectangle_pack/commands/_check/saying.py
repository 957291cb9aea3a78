"""What is said of a file: that nothing is wrong, or the first fault, by names and numbers."""
from __future__ import annotations

from ... import FaultKind
from .judge import Found
from .layout import ONE, Claim, Told, told
from .texts import quoted

__all__ = ["fault_line", "no_fault_line"]

# What boxes are on, or in.
ON = {"page": "on", "sheet": "on", "container": "in", "bin": "in"}


def no_fault_line(it: Told) -> str:
    """What is said of packings."""
    boxes = "1 box" if it.boxes == 1 else f"{it.boxes} boxes"
    bins = f"1 {it.kind}" if it.bins == 1 else f"{it.bins} {it.kind}s"
    return f"nothing is wrong: {boxes} {ON[it.kind]} {bins}"


class _Teller:
    """Tells of the claims of a fault."""

    def __init__(self, kind: str, found: Found) -> None:
        self._kind, self._layout = kind, found.layout
        claims = (found.first, found.second)
        has_depth = any(bin.size[2] != ONE for bin in found.layout.bins.values())
        self._is_flat = not has_depth and not any(it.corner[2] or it.size[2] != ONE for it in claims)

    def place(self, it: Claim) -> str:
        """Where a box stands: (0, 0) 10x20"""
        return f"({told(it.corner, self._is_flat, ', ')}) {told(it.size, self._is_flat)}"

    def bin(self, it: Claim) -> str:
        """A bin by its name: page "atlas.png\""""
        bin = self._layout.bins.get(it.bin)
        return f"{self._kind} {quoted(str(it.bin) if bin is None else bin.name)}"

    def bin_size(self, it: Claim) -> str:
        bin = self._layout.bins.get(it.bin)
        return "" if bin is None else told(bin.size, self._is_flat)

    def in_bin(self, it: Claim) -> str:
        """Where a box stands, and in which bin: (0, 0) 10x20 on page "atlas.png\""""
        return f"{self.place(it)} {ON[self._kind]} {self.bin(it)}"

    def first_of(self, it: Claim) -> Claim:
        """The first claim of the same box."""
        return next(other for other in self._layout.claims if other.box == it.box)


def _do_share(one: Claim, other: Claim) -> bool:
    """Whether two boxes share a cell as they are, and not only for the distance that they should have."""
    sides = zip(one.corner, one.size, other.corner, other.size)
    return all(max(at, other_at) < min(at + side, other_at + other_side) for at, side, other_at, other_side in sides)


def fault_line(kind: str, found: Found) -> str:
    """What is said of a fault, in a file whose bins are called so."""
    teller, first, second = _Teller(kind, found), found.first, found.second
    one, both = quoted(first.name), f"{quoted(first.name)} and {quoted(second.name)}"
    bin, places = teller.bin(first), f"{teller.place(first)} and {teller.place(second)}"
    meet = "share a cell of" if _do_share(first, second) else f"are not {found.layout.distance.normalize():f} apart {ON[kind]}"
    return {
        FaultKind.unknown_bin: f"{one} is {ON[kind]} {bin}, which is not there: {teller.place(first)}",
        FaultKind.wrong_size: f"{one} has two sizes: {teller.in_bin(teller.first_of(first))} and {teller.in_bin(first)}",
        FaultKind.outside: f"{one} is not inside {bin} of {teller.bin_size(first)}: {teller.place(first)}",
        FaultKind.placed_twice: f"{quoted(second.name)} is placed twice: {teller.in_bin(first)} and {teller.in_bin(second)}",
        FaultKind.shares_cell: f"{both} {meet} {bin}: {places}",
        FaultKind.group_in_two_bins: f"{both} belong together, and are {ON[kind]} {bin} and {teller.bin(second)}",
        FaultKind.excluded_together: f"{both} may not share a {kind}, and are {ON[kind]} {bin}",
    }[found.kind]
