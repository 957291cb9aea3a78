"""The structures of include/rectangle_pack.h, as ctypes sees them."""
from __future__ import annotations

import ctypes


def _uint32(*names: str) -> list[tuple[str, type[ctypes.c_uint32]]]:
    return [(name, ctypes.c_uint32) for name in names]


class RpBin(ctypes.Structure):
    _fields_ = _uint32("width", "height", "depth")


class RpBox(ctypes.Structure):
    _fields_ = _uint32("width", "height", "depth", "group")


class RpMember(ctypes.Structure):
    _fields_ = _uint32("index", "group")


class RpExclusion(ctypes.Structure):
    _fields_ = _uint32("one", "other")


class RpCollection(ctypes.Structure):
    _fields_ = [
        ("boxes", ctypes.POINTER(RpBox)), ("box_count", ctypes.c_size_t),
        ("members", ctypes.POINTER(RpMember)), ("member_count", ctypes.c_size_t),
        ("exclusions", ctypes.POINTER(RpExclusion)), ("exclusion_count", ctypes.c_size_t),
    ]


class RpPlacement(ctypes.Structure):
    _fields_ = _uint32("bin", "x", "y", "z")


class RpFitted(ctypes.Structure):
    _fields_ = [*_uint32("heuristic"), ("left", ctypes.c_size_t)]


class RpSession(ctypes.Structure):
    _fields_ = [("at", ctypes.c_void_p)]


class RpOutstanding(ctypes.Structure):
    _fields_ = [("number", ctypes.c_uint64), ("placement", RpPlacement)]


class RpVolume(ctypes.Structure):
    _fields_ = [("low", ctypes.c_uint64), ("high", ctypes.c_uint64)]

    def __int__(self) -> int:
        low: int = self.low
        high: int = self.high
        return low + (high << 64)


class RpStats(ctypes.Structure):
    _fields_ = [
        ("bin_volume", RpVolume), ("free_volume", RpVolume), ("placed_volume", RpVolume),
        ("free_sections", ctypes.c_size_t), ("placements", ctypes.c_size_t),
    ]


class RpSection(ctypes.Structure):
    _fields_ = _uint32("x", "y", "z", "width", "height", "depth")


class RpStanding(ctypes.Structure):
    _fields_ = [("number", ctypes.c_uint64), *_uint32("index", "bin"), ("section", RpSection)]


class RpCutStep(ctypes.Structure):
    _fields_ = _uint32("axis", "place")


class RpEntry(ctypes.Structure):
    _fields_ = [("rect", RpBox), *_uint32("turns")]


class RpClaim(ctypes.Structure):
    _fields_ = [*_uint32("entry", "bin"), ("section", RpSection)]


class RpFault(ctypes.Structure):
    _fields_ = _uint32("kind", "first", "second")


class RpSavedBin(ctypes.Structure):
    _fields_ = [*_uint32("id"), ("size", RpBin), *_uint32("coalesced", "section_count")]


class RpSaved(ctypes.Structure):
    _fields_ = [
        ("bins", ctypes.POINTER(RpSavedBin)), ("bin_count", ctypes.c_size_t),
        ("sections", ctypes.POINTER(RpSection)), ("section_count", ctypes.c_size_t),
        ("placements", ctypes.POINTER(RpStanding)), ("placement_count", ctypes.c_size_t), ("next_number", ctypes.c_uint64),
    ]


class RpWrong(ctypes.Structure):
    _fields_ = [*_uint32("kind"), ("bin", ctypes.c_size_t), ("first", ctypes.c_size_t), ("second", ctypes.c_size_t)]


class RpStep(ctypes.Structure):
    _fields_ = _uint32("index", "bin", "heuristic")


class RpRefused(ctypes.Structure):
    _fields_ = [("step", ctypes.c_size_t), *_uint32("fault")]


class RpTurns(ctypes.Structure):
    """An entry of the list that says how boxes may be turned."""
    _fields_ = _uint32("turns")


class RpCost(ctypes.Structure):
    _fields_ = [*_uint32("bin"), ("cost", ctypes.c_uint64)]


class RpSearchOptions(ctypes.Structure):
    _fields_ = [
        ("size", ctypes.c_size_t), ("tries", ctypes.c_uint64), ("seed", ctypes.c_uint64), *_uint32("may_leave"),
        ("turns", ctypes.POINTER(RpTurns)), ("turn_count", ctypes.c_size_t),
        ("costs", ctypes.POINTER(RpCost)), ("cost_count", ctypes.c_size_t),
    ]


class RpLocation(ctypes.Structure):
    _fields_ = [*_uint32("bin"), ("section", RpSection)]


class RpSearched(ctypes.Structure):
    _fields_ = [
        ("left", ctypes.c_size_t), ("used", ctypes.c_size_t), ("least", ctypes.c_size_t), *_uint32("is_optimal"),
        ("tries", ctypes.c_uint64),
    ]


class RpSearch(ctypes.Structure):
    _fields_ = [("at", ctypes.c_void_p)]


class RpProgress(ctypes.Structure):
    _fields_ = [
        ("tries", ctypes.c_uint64), ("left", RpVolume), ("cost", RpVolume), ("bins", ctypes.c_size_t), *_uint32("is_over")]


class BinId(ctypes.Structure):
    """An entry of the list of bins."""
    _fields_ = _uint32("bin")
