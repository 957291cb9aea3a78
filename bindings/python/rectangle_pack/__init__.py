"""Packs boxes into bins, in two and three dimensions, without overlaps, by the proved library, over ctypes.

    >>> from rectangle_pack import Bin, Box, pack
    >>> packing = pack({"page": Bin(64, 64)}, {"hat": Box(10, 20), "cap": Box(5, 5)}, groups={"hats": ["hat", "cap"]})
    >>> packing["cap"].bin, packing["cap"].section
    ('page', Section(x=0, y=20, z=0, width=5, height=5, depth=1))

Where not all boxes fit, pack raises NotEnoughBinSpace. With partial=True it packs what fits, and packing.left has the rest.

A Session keeps its bins from packing to packing, and releases boxes again. It lists and joins what is free, plans the cuts that
part a bin, takes boxes at places of your choice, and has bins cleared, made larger and removed. It is saved to a file by save, and
Session.load makes it again.

With tries a packing is searched for that is better than that of any heuristic, and turn says how boxes may be turned.
packing.optimal says whether it is proved that no packer uses fewer bins; least_bins says how many are needed whatever packer is
taken. pack_told packs as it is told, step by step.

check judges a packing, whoever made it: it answers the first fault, or None. straight_cuts says how straight cuts part a bin into
boxes that stand in it.

Bins, boxes and groups have names: any values that a dict takes as keys. A list in place of a mapping means that the names are
the indices.

The library is the file that RECTANGLE_PACK names, librectangle_pack.so beside this module, or that in build/, which
tools/build_c.sh writes."""
from ._bounding import least_bins
from ._check import check
from ._cuts import Axis, Cut, CutNode, CutStep, CutTree, Leaf
from ._cutting import WrongBoxes, straight_cuts
from ._errors import (
    BinInUse, DuplicateBin, EqualGroups, NotASession, NotEnoughBinSpace, NotFree, NotFromCuts, NumbersUsedUp, OutOfMemory,
    PackError, TooLarge, TooMany, UnknownAxis, UnknownBin, UnknownBox, UnknownGroup, UnknownHeuristic, UnknownPlacement,
    UnknownTurn,
)
from ._faults import Fault, FaultKind
from ._pack import pack
from ._session import Session
from ._steps import Refusal, StepRefused
from ._telling import pack_told
from ._types import (
    AnyHeuristic, AnyStep, Asked, Bin, Box, Heuristic, Left, Outstanding, Packing, Placement, Progress, Section, Stats, Step,
    Turn, Turning,
)

__all__ = [
    "Bin", "Box", "pack", "Packing", "Left", "Placement", "Heuristic", "AnyHeuristic", "Progress", "Asked",
    "pack_told", "Step", "AnyStep", "StepRefused", "Refusal", "least_bins",
    "check", "Fault", "FaultKind", "Turn", "Turning",
    "straight_cuts", "WrongBoxes",
    "Session", "Outstanding", "Stats", "Section", "Axis", "Cut", "Leaf", "CutStep", "CutNode", "CutTree",
    "PackError", "NotEnoughBinSpace", "OutOfMemory", "TooMany", "UnknownHeuristic", "UnknownBox", "UnknownGroup", "EqualGroups",
    "UnknownAxis", "UnknownTurn", "DuplicateBin", "UnknownBin", "UnknownPlacement", "NumbersUsedUp", "BinInUse", "TooLarge", "NotFree",
    "NotFromCuts", "NotASession",
]
