"""The rule of packing, written anew from docs/COMMANDS.md and docs/CALLS.md, slowly and without names: what the tests expect.

A section is (x, y, z, width, height, depth), a size (width, height, depth). A group is None for a box that is alone, or a
number."""
from itertools import product
from math import prod


def by_three(first, second, third):
    """By the first number, at a tie by the second, then by the third."""
    return first * 2**64 + second * 2**32 + third


def by_sides(order):
    """By the sides in rising order, as this puts them."""
    return lambda w, h, d: by_three(*order(sorted((w, h, d))))


# In the order in which the best is looked for.
RATES = {
    "volume": lambda w, h, d: w * h * d,
    "height": lambda w, h, d: by_three(h, w, d),
    "width": lambda w, h, d: by_three(w, h, d),
    "depth": lambda w, h, d: by_three(d, w, h),
    "side-sum": lambda w, h, d: w + h + d,
    "longest-side": by_sides(lambda sides: sides[::-1]),
    "shortest-side": by_sides(lambda sides: sides),
    "side-area": lambda w, h, d: h * d,
}


def pieces(section, size, order):
    """What is left of a section right of a box in its corner, above it and behind it, where cuts across x, y and z are made in
    this order: each piece is as large as the cuts before it leave it."""
    left, cut = list(section), {}
    for axis in order:
        piece = list(left)
        piece[axis] += size[axis]
        piece[3 + axis] -= size[axis]
        cut[axis] = tuple(piece)
        left[3 + axis] = size[axis]
    return [cut[axis] for axis in range(3)]


# The order of the six cuts decides at ties: of equal ones the last is taken.
ORDERS = [(0, 1, 2), (1, 0, 2), (0, 2, 1), (2, 0, 1), (1, 2, 0), (2, 1, 0)]


def best_pieces(section, size, rate):
    """The pieces of the cut with the smallest piece, at a tie with the smallest second one."""
    best = None
    for order in ORDERS:
        cut = pieces(section, size, order)
        key = sorted(rate(*piece[3:]) for piece in cut)[:2]
        if best is None or key <= best[0]:
            best = key, cut
    return best[1]


def place(free, size, rate):
    """Places a box into the newest section that holds it: where, and the free sections then; or None."""
    for index in reversed(range(len(free))):
        section = free[index]
        if all(side <= room for side, room in zip(size, section[3:])):
            # The first of equal pieces goes first.
            left = sorted(best_pieces(section, size, rate), key=lambda piece: -rate(*piece[3:]))
            return section[:3], free[:index] + free[index + 1:] + [piece for piece in left if 0 not in piece[3:]]
    return None


def place_all(free, sizes, rate):
    """Places the boxes of a group one after the other: where they stand, and the free sections then; or None."""
    corners = []
    for size in sizes:
        placed = place(free, size, rate)
        if placed is None:
            return None
        corner, free = placed
        corners.append(corner)
    return corners, free


def groups_of(entries, rate):
    """The groups in the order in which they go, each with the indices of its entries."""
    groups = {}
    for index, (_, group) in enumerate(entries):
        # Boxes that are alone go before groups, by their indices.
        groups.setdefault((0, index) if group is None else (1, group), []).append(index)
    return sorted(groups.items(), key=lambda it: (-sum(rate(*entries[i][0]) for i in it[1]), it[0]))


class Bins:
    """Bins by their sizes. In free each has its free sections, the newest last."""

    def __init__(self, sizes):
        self.sizes = list(sizes)
        self.free = [[(0, 0, 0, *size)] for size in self.sizes]

    def pack(self, entries, excluded=(), heuristic="volume", partial=False):
        """Packs entries, each a size and a group: for each the bin and the corner, in the order of packing by index; or None,
        and then all is as before. In part, a group that no bin takes is left, and its entries have no place in the answer."""
        rate, free, placed, homes = RATES[heuristic], list(self.free), {}, {}
        order = sorted(range(len(free)), key=lambda bin: (rate(*self.sizes[bin]), bin))
        for (kind, group), indices in groups_of(entries, rate):
            sizes = [entries[index][0] for index in indices]
            foes = {homes.get(other) for one, other in [*excluded, *((b, a) for a, b in excluded)] if kind and one == group}
            done = ((bin, place_all(free[bin], sizes, rate)) for bin in order if bin not in foes)
            bin, trial = next((it for it in done if it[1] is not None), (None, None))
            if trial is None:
                if partial:
                    continue
                return None
            corners, free[bin] = trial
            placed |= {index: (bin, *corner) for index, corner in zip(indices, corners)}
            if kind:
                homes[group] = bin
        self.free = free
        return placed

    def best(self, entries, excluded=(), partial=False):
        """Packs by each heuristic, and then by the first of those that leave the fewest cells and then use the bins best: which
        one, and what it places; or None."""
        before, uses = self.free, {}
        for heuristic in RATES:
            placed = self.pack(entries, excluded, heuristic, partial)
            self.free = before
            if placed is not None:
                uses[heuristic] = cells_left(entries, placed), *self.use_of(entries, placed)
        if not uses:
            return None
        heuristic = min(uses, key=uses.get)
        return heuristic, self.pack(entries, excluded, heuristic, partial)

    def use_of(self, entries, placed):
        """In how many bins cells are placed, and how many in the last of these."""
        cells = [0] * len(self.sizes)
        for index, (bin, *_) in placed.items():
            width, height, depth = entries[index][0]
            cells[bin] += width * height * depth
        used = [count for count in cells if count]
        return len(used), used[-1] if used else 0


def cells_left(entries, placed):
    """How many cells the entries have that are not placed."""
    return sum(prod(size) for index, (size, _) in enumerate(entries) if index not in placed)


def cells_of(section):
    """The cells of a section."""
    x, y, z, width, height, depth = section
    return set(product(range(x, x + width), range(y, y + height), range(z, z + depth)))
