"""A judge of packings by a look at each pair of placements, written anew: what the tests expect.

A size is (width, height, depth), a corner (x, y, z). A box is placed once for each entry: its name, its group or None, its
size, and how it may be turned. A claim says where somebody put a box: its name, its group, its bin, its corner and its size."""
from itertools import permutations
from typing import NamedTuple

ALONE = ["unknown_bin", "unknown_box", "wrong_size", "outside"]
TOGETHER = ["placed_twice", "shares_cell", "group_in_two_bins", "excluded_together"]


class Entry(NamedTuple):
    name: object
    group: object
    size: tuple
    turn: str = "none"


class Claim(NamedTuple):
    name: object
    group: object
    bin: object
    corner: tuple
    size: tuple


class Case(NamedTuple):
    """Bins are sizes by name, entries a list. Excluded are pairs of groups."""
    bins: dict
    entries: list
    excluded: list = []


def sizes_of(entry):
    """The sizes in which a box may stand."""
    width, height, depth = entry.size
    return {
        "none": {(width, height, depth)},
        "flat": {(width, height, depth), (height, width, depth)},
        "upright": {(width, height, depth), (depth, height, width)},
        "any": set(permutations(entry.size)),
    }[entry.turn]


def entries_of(case, claim):
    """The entries that a claim may be of. Where a box has one entry, the claim need not say its group."""
    own = [entry for entry in case.entries if (entry.name, entry.group) == (claim.name, claim.group)]
    named = [entry for entry in case.entries if entry.name == claim.name]
    return named if claim.group is None and len(named) == 1 else own


def alone(case, kind, claim):
    """Whether this is wrong with a claim, of which nothing is wrong that comes before."""
    if kind == "unknown_bin":
        return claim.bin not in case.bins
    if kind == "unknown_box":
        return not entries_of(case, claim)
    if kind == "wrong_size":
        return claim.size not in sizes_of(entries_of(case, claim)[0])
    return any(at < 0 or at + side > most for at, side, most in zip(claim.corner, claim.size, case.bins[claim.bin]))


def do_share(one, other):
    """Whether two boxes have a cell in common."""
    axes = zip(one.corner, one.size, other.corner, other.size)
    return all(max(at, other_at) < min(at + side, other_at + other_side) for at, side, other_at, other_side in axes)


def together(case, kind, one, other):
    """Whether this is wrong with two claims, of which nothing is wrong alone. That a box is placed twice is left out."""
    group, other_group = entries_of(case, one)[0].group, entries_of(case, other)[0].group
    if kind == "shares_cell":
        return one.bin == other.bin and do_share(one, other)
    if kind == "group_in_two_bins":
        return group is not None and group == other_group and one.bin != other.bin
    are_excluded = (group, other_group) in case.excluded or (other_group, group) in case.excluded
    return None not in (group, other_group) and are_excluded and one.bin == other.bin


def of_one_box(case, one, other):
    """Whether two claims are of one box in one group."""
    return entries_of(case, one) == entries_of(case, other)


def fault_beside(case, claims, place):
    """What is wrong with a claim beside the earlier ones: the kind and the first earlier claim; or None."""
    claim, earlier = claims[place], range(place)
    equal = [i for i in earlier if of_one_box(case, claims[i], claim)]
    # There are as many entries as a group names the box times. One claim more is too many.
    if len(equal) >= len(entries_of(case, claim)):
        return "placed_twice", equal[0]
    for kind in TOGETHER[1:]:
        for i in earlier:
            if together(case, kind, claims[i], claim):
                return kind, i
    return None


def first_fault(case, claims):
    """The kind and the places of the claims, the earlier first; of a box that is not placed its name and group; or None."""
    for place, claim in enumerate(claims):
        for kind in ALONE:
            if alone(case, kind, claim):
                return kind, place
        found = fault_beside(case, claims, place)
        if found:
            return (*found, place)
    left = list(claims)
    for entry in case.entries:
        own = [claim for claim in left if entry in entries_of(case, claim)]
        if not own:
            return "not_placed", (entry.name, entry.group)
        left.remove(own[0])
    return None
