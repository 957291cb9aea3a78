"""Where a box fits best, by a look at all, and how a bin is cut anew: what the tests expect.

Sizes are (width, height, depth), sections (x, y, z, width, height, depth)."""
from math import prod

GREATEST = 2**32 - 1


def volume(section):
    return prod(section[3:])


def least(bin, sides):
    """The least of the sides, but for those along which the bin has one cell or none."""
    return min([side for cells, side in zip(bin, sides) if cells > 1], default=GREATEST)


def best_place(sizes, free, size):
    """The bin and the index of the section of which a box leaves the least on its tightest side: in the first such bin the
    newest. None where no section holds it."""
    places = [
        (least(sizes[bin], rests), order, -index, bin)
        for order, (bin, sections) in enumerate(free.items()) for index, section in enumerate(sections)
        if min(rests := [room - side for room, side in zip(section[3:], size)]) >= 0
    ]
    if not places:
        return None
    _, _, index, bin = min(places, key=lambda it: it[:3])
    return bin, -index


def are_from_cuts(boxes):
    """Whether straight cuts part boxes with cells, each across the whole of its part. Any plane that no box crosses will do."""
    if len(boxes) < 2:
        return True
    for axis in range(3):
        for plane in {it[axis] for it in boxes} - {min(it[axis] for it in boxes)}:
            lower = [it for it in boxes if it[axis] + it[3 + axis] <= plane]
            upper = [it for it in boxes if it[axis] >= plane]
            if len(lower) + len(upper) == len(boxes):
                return are_from_cuts(lower) and are_from_cuts(upper)
    return False


def cut_at(room, axis, place):
    """The parts of a room below a place on an axis and from there on."""
    below, above = list(room), list(room)
    below[3 + axis] = place - room[axis]
    above[axis], above[3 + axis] = place, room[axis] + room[3 + axis] - place
    return tuple(below), tuple(above)


def strips_round(bounds, room):
    """The strips of a room beyond bounds: the thickest, of equally thick ones the first on x, y and z, then those of the rest."""
    while room != bounds:
        sides = []
        for axis in range(3):
            start, end = bounds[axis], bounds[axis] + bounds[3 + axis]
            sides += [(start - room[axis], axis, start, 0), (room[axis] + room[3 + axis] - end, axis, end, 1)]
        _, axis, place, upper = max(sides, key=lambda it: it[0])
        parts = cut_at(room, axis, place)
        yield parts[upper]
        room = parts[1 - upper]


def free_anew(room, boxes):
    """The free sections of a room that is cut anew round boxes with cells, each with the volume of the room that it was cut from."""
    low = [min(it[axis] for it in boxes) for axis in range(3)]
    high = [max(it[axis] + it[3 + axis] for it in boxes) for axis in range(3)]
    bounds = (*low, *(end - start for start, end in zip(low, high)))
    free = [(strip, volume(room)) for strip in strips_round(bounds, room)]
    if len(boxes) == 1:
        return free
    for axis in range(3):
        starts = {it[axis] for it in boxes if it[axis] > low[axis]}
        places = sorted(it for it in starts if not any(b[axis] < it < b[axis] + b[3 + axis] for b in boxes))
        if places:
            rest = bounds
            for place, end in zip([low[axis], *places], [*places, high[axis]]):
                slab, rest = cut_at(rest, axis, end)
                free += free_anew(slab, [it for it in boxes if place <= it[axis] < end])
            return free
    raise ValueError("no straight cuts part the boxes")


def are_cut_anew(bin, boxes, sections):
    """Whether these are the free sections of a bin that is cut anew round boxes with cells, which straight cuts part: by falling
    least side, at ties by rising volume of the room that they were cut from, and then by rising volume."""
    sections = list(map(tuple, sections))
    whole = (0, 0, 0, *bin)
    if not boxes:
        return sections == [whole] * (volume(whole) > 0)
    ranks = {it: (-least(bin, it[3:]), room, volume(it)) for it, room in free_anew(whole, list(map(tuple, boxes)))}
    order = [ranks.get(it) for it in sections]
    return len(sections) == len(ranks) and None not in order and order == sorted(order)
