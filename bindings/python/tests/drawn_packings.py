"""Packings that are drawn: without a fault as they are made, and with faults that are planted in them."""
from itertools import permutations

from .judge_model import Case, Claim, Entry, do_share

LARGEST = 2**32 - 1


def rows(r, size):
    """Parts of a bin: rows above each other, in each of which parts stand side by side."""
    (width, height, depth), parts, y = size, [], 0
    while y < height:
        row, x = r.randint(1, height - y), 0
        while x < width:
            side = r.randint(1, width - x)
            parts.append(((x, y, 0), (side, r.randint(1, row), r.randint(1, depth))))
            x += side
        y += row
    return parts


def split(r, corner, size, cuts):
    """Parts that straight cuts leave of a part."""
    axes = [axis for axis in range(3) if size[axis] > 1]
    if not cuts or not axes:
        return [(corner, size)]
    axis = r.choice(axes)
    below = r.randint(1, size[axis] - 1)
    upper, lower_size, upper_size = list(corner), list(size), list(size)
    upper[axis] += below
    lower_size[axis], upper_size[axis] = below, size[axis] - below
    lower = split(r, corner, tuple(lower_size), (cuts - 1) // 2)
    return lower + split(r, tuple(upper), tuple(upper_size), cuts - 1 - (cuts - 1) // 2)


def inside(r, corner, size):
    """A box somewhere in a part, which it may fill. Some have no cells."""
    own = tuple(side if r.random() < 0.7 else r.randint(0 if r.random() < 0.2 else 1, side) for side in size)
    return tuple(at + r.randint(0, most - side) for at, most, side in zip(corner, size, own)), own


def turned_back(r, size, turn):
    """A size of which this one may be a turn."""
    width, height, depth = size
    return r.choice({
        "none": [size], "flat": [size, (height, width, depth)], "upright": [size, (depth, height, width)],
        "any": list(permutations(size)),
    }[turn])


class Drawn:
    """Bins, boxes with their groups, pairs that are excluded, and claims. In each bin are groups of its own."""

    def __init__(self, r):
        self.r = r
        self.is_flat = r.random() < 0.5
        self.bins, self.sizes, self.turns, self.entries, self.claims, self.excluded = {}, {}, {}, [], [], []
        while len(self.bins) < r.randint(1, 3) or len(self.claims) < 2:
            self._fill(f"bin {len(self.bins)}")
        # Bins without boxes are packed too, and so are pairs of a group without boxes.
        self.bins["spare"] = (12, 12, 1 if self.is_flat else 12)
        self._exclude()
        self._give_groups()
        r.shuffle(self.claims)

    def _fill(self, bin):
        r = self.r
        size = (r.randint(1, 12), r.randint(1, 12), 1 if self.is_flat else r.randint(1, 12))
        self.bins[bin] = size
        parts = rows(r, size) if r.random() < 0.5 else split(r, (0, 0, 0), size, r.randint(1, 7))
        for part in r.sample(parts, min(len(parts), r.randint(2, 4))):
            self._stand(bin, *inside(r, *part))

    def _stand(self, bin, corner, size):
        """A box of a new name; or, where it has two halves, at times each of these as the box in a group."""
        r, name, group = self.r, ("box", len(self.sizes)), self._group(bin)
        self.turns[name] = turn = r.choice(["none", "none", "flat", "upright", "any"])
        if size[0] % 2 == 0 and r.random() < 0.2:
            half, other = (size[0] // 2, *size[1:]), self._group(bin) or group
            beside = (corner[0] + half[0], *corner[1:])
            group = group or other
            # Each stands in a group. Both may be one.
            if group is not None:
                self.sizes[name] = turned_back(r, half, turn)
                self.claims += [Claim(name, group, bin, corner, half), Claim(name, other, bin, beside, half)]
                return
        self.sizes[name] = turned_back(r, size, turn)
        self.claims.append(Claim(name, group, bin, corner, size))

    def _group(self, bin):
        return self.r.choice([None, None, f"a of {bin}", f"b of {bin}"])

    def _exclude(self):
        """Pairs of groups that stand in two bins, or of which one has no boxes."""
        groups = sorted({(claim.group, claim.bin) for claim in self.claims if claim.group} | {("nobody's", None)})
        for _ in range(self.r.choice([0, 1, 3])):
            (one, bin), (other, other_bin) = self.r.choice(groups), self.r.choice(groups)
            if bin != other_bin:
                self.excluded.append((one, other))

    def _give_groups(self):
        """What the call is given: the group of some boxes, for each group the names of others; and the entries, in order."""
        of_boxes, self.groups = {name: [] for name in self.sizes}, {"nobody's": []}
        for claim in self.claims:
            of_boxes[claim.name].append(claim.group)
        self.boxes, own, members = {}, [], []
        for name, groups in of_boxes.items():
            is_told = groups[0] is not None and self.r.random() < 0.5
            self.boxes[name] = (*self.sizes[name], groups[0] if is_told else None)
            for group in groups[1:] if is_told or groups[0] is None else groups:
                self.groups.setdefault(group, []).append(name)
        for name, (*_, group) in self.boxes.items():
            own.append([name, group])
        for group, names in self.groups.items():
            for name in names:
                entry = next(it for it in own if it[0] == name)
                if entry[1] is None:
                    entry[1] = group
                else:
                    members.append((name, group))
        self.entries = [Entry(name, group, self.sizes[name], self.turns[name]) for name, group in (*own, *members)]

    @property
    def case(self):
        return Case(self.bins, self.entries, self.excluded)

    def plant(self, kind):
        """Plants a fault of this kind in one of the claims, where it can be. Whether it is done."""
        places = self.r.sample(range(len(self.claims)), len(self.claims))
        return any(getattr(self, f"_plant_{kind}")(place) for place in places)

    def _change(self, place, **changes):
        self.claims[place] = self.claims[place]._replace(**changes)
        return True

    def _plant_unknown_bin(self, place):
        return self._change(place, bin=self.r.choice(["nowhere", None, 0]))

    def _plant_unknown_box(self, place):
        return self._change(place, **self.r.choice([{"name": "nobody"}, {"group": "nobody's"}]))

    def _plant_wrong_size(self, place):
        size, axis = list(self.claims[place].size), self.r.randrange(3)
        size[axis] += self.r.choice([1, -1]) if size[axis] else 1
        return self._change(place, size=tuple(size))

    def _plant_outside(self, place):
        claim, axis = self.claims[place], self.r.randrange(3)
        corner, room = list(claim.corner), self.bins.get(claim.bin, (1, 1, 1))[axis] - claim.size[axis]
        corner[axis] = self.r.choice([max(room + 1, 0), LARGEST])
        return self._change(place, corner=tuple(corner))

    def _plant_placed_twice(self, place):
        self.claims.insert(self.r.randint(0, len(self.claims)), self.claims[place])
        return True

    def _plant_shares_cell(self, place):
        """Moves a box over another one of its bin, or of another bin."""
        claim, other = self.claims[place], self.r.choice(self.claims)
        if other is claim or other.bin not in self.bins:
            return False
        corner = tuple(max(0, min(at, most - side)) for at, most, side in zip(other.corner, self.bins[other.bin], claim.size))
        moved = claim._replace(bin=other.bin, corner=corner)
        return do_share(moved, other) and self._change(place, bin=other.bin, corner=corner)

    def _plant_group_in_two_bins(self, place):
        group = self.claims[place].group
        mates = [it for it in self.claims if it.group == group]
        return group is not None and len(mates) > 1 and self._change(place, bin="spare", corner=(0, 0, 0))

    def _plant_excluded_together(self, place):
        claim = self.claims[place]
        others = [it.group for it in self.claims if it.bin == claim.bin and it.group not in (None, claim.group)]
        if claim.group is None or not others:
            return False
        pair = (claim.group, self.r.choice(others))
        self.excluded.append(pair if self.r.random() < 0.5 else pair[::-1])
        return True

    def _plant_not_placed(self, place):
        self.claims.pop(place)
        return True
