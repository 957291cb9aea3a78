#!/usr/bin/env python3
"""Searches of drawn boxes: before the judge, beside the best heuristic, and beside the call for C that searches in one piece."""
import ctypes
import random
import unittest
from collections import Counter
from itertools import permutations
from math import prod

from rectangle_pack import Bin, Box, FaultKind, NotEnoughBinSpace, Session, check, least_bins, pack
from rectangle_pack import _library
from rectangle_pack._collection import Collection
from rectangle_pack._searching import Wanted, as_options
from rectangle_pack._turning import turns_in_order

from .test_heuristics import Case, drawn_bins

TURNS = ["none", "none", "flat", "upright", "any"]


class Search(Case):
    """A case with bins that cost, and with boxes that may be turned."""

    def __init__(self, r):
        flat, side, sizes = drawn_bins(r)
        super().__init__(r, flat, side)
        self.bins = [Bin(*size, cost=r.choice([1, 1, 2, 5])) if r.random() < 0.4 else Bin(*size) for size in sizes]
        self.turn = {name: r.choice(TURNS) for name in self.boxes}
        self.more = {"groups": self.groups, "exclude": self.exclude}

    def searched(self, call, **more):
        """The packing, or None."""
        try:
            return call(self.boxes, turn=self.turn, **self.more, **more)
        except NotEnoughBinSpace:
            return None

    def worth(self, packing):
        """What packings are compared by: cells that are left, what the bins cost, and how many there are."""
        left = sum(prod(self.boxes[it.name][:3]) for it in packing.left)
        homes = {(it.bin, it.copy) for it in packing}
        return left, sum(self.bins[bin].cost for bin, _ in homes), len(homes)


def sizes_of(box, turn):
    width, height, depth = box[:3]
    return {
        "none": [(width, height, depth)], "flat": [(width, height, depth), (height, width, depth)],
        "upright": [(width, height, depth), (depth, height, width)], "any": [*permutations(box[:3])],
    }[turn]


def in_one_call(case, tries, seed, partial):
    """What rectangle_pack_searched answers: where each entry stands, or a status."""
    search = ctypes.CDLL(_library._path()).rectangle_pack_searched
    search.restype = ctypes.c_uint32
    collection = Collection(case.boxes, case.groups, case.exclude)
    options = as_options(
        Wanted(tries, seed, case.turn, partial, None), turns_in_order(collection.names, case.turn),
        [(index, bin.cost) for index, bin in enumerate(case.bins) if bin.cost != 1])
    bins = _library.listed(_library.RpBin, [bin[:3] for bin in case.bins])
    length, found = collection.entry_count(), _library.RpSearched()
    places = (_library.RpLocation * max(length, 1))()
    status = search(bins, ctypes.c_size_t(len(case.bins)), ctypes.byref(collection.as_c()), ctypes.byref(options), places,
                    ctypes.c_size_t(length), ctypes.byref(found))
    rows = [(it.bin, *(getattr(it.section, field) for field, _ in it.section._fields_)) for it in places[:length]]
    return status, rows, found


class Drawn(unittest.TestCase):
    def look_at(self, case, packing):
        """What is so of each packing that was found."""
        fault = check(case.bins, case.boxes, packing, turn=case.turn, **case.more)
        if packing.left:
            self.assertEqual((fault.kind, fault.box, fault.group), (FaultKind.not_placed, *packing.left[0]))
        else:
            self.assertIsNone(fault)
        for it in packing:
            stands, own = (it.width, it.height, it.depth), case.boxes[it.name][:3]
            self.assertIn(stands, sizes_of(own, case.turn[it.name]))
            self.assertEqual(it.turned, stands != own)
        needed = least_bins(case.bins, case.boxes, turn=case.turn, **case.more)
        self.assertEqual(packing.least, needed)
        self.assertEqual(packing.optimal, not packing.left and packing.used == needed)

    def test_packings(self):
        r, counts = random.Random(61), Counter()
        for _ in range(250):
            case, partial, seed = Search(r), r.random() < 0.5, r.randrange(2**64)
            packing = case.searched(lambda *it, **more: pack(case.bins, *it, **more), tries=300, seed=seed, partial=partial)
            status, rows, found = in_one_call(case, 300, seed, partial)
            if packing is None:
                self.assertEqual((status, partial), (1, False))
                for heuristic in ("best", "height"):
                    with self.assertRaises(NotEnoughBinSpace):
                        pack(case.bins, case.boxes, heuristic=heuristic, **case.more)
                counts["none"] += 1
                continue
            self.look_at(case, packing)
            self.assertEqual([(it.bin, *it.section) for it in packing], [row for row in rows if row[0] != 2**32 - 1])
            self.assertEqual((len(packing.left), packing.used, packing.optimal), (found.left, found.used, found.is_optimal == 1))
            for heuristic in ("best", "volume", "side-area"):
                other = pack(case.bins, case.boxes, heuristic=heuristic, partial=True, **case.more)
                if partial or not other.left:
                    self.assertLessEqual(case.worth(packing), case.worth(other))
                    counts["better"] += case.worth(packing) < case.worth(other)
            counts["left" if packing.left else "whole"] += 1
            counts["turned"] += any(it.turned for it in packing)
            counts["optimal"] += packing.optimal
        self.assertGreater(min(counts[it] for it in ("none", "left", "whole", "better", "turned", "optimal")), 20, counts)

    def test_as_many_bins_as_are_needed(self):
        # With a few bins of each kind the search is as good as the best heuristic is with very many.
        r, counts = random.Random(63), Counter()
        for _ in range(150):
            case, partial = Search(r), r.random() < 0.5
            case.bins = [bin._replace(count=r.choice([None, None, 1, 2]), cost=r.choice([1, 1, 0, 3])) for bin in case.bins]
            best = pack(case.bins, case.boxes, heuristic="best", partial=True, **case.more)
            packing = case.searched(lambda *it, **more: pack(case.bins, *it, **more), tries=200, partial=partial)
            if packing is None:
                self.assertTrue(best.left and not partial)
                continue
            self.look_at(case, packing)
            if partial or not best.left:
                self.assertLessEqual(case.worth(packing), case.worth(best))
                counts["better"] += case.worth(packing) < case.worth(best)
            counts["copies"] += any(it.copy > 0 for it in packing)
        self.assertGreater(min(counts["better"], counts["copies"]), 20, counts)

    def test_sessions_go_on(self):
        r, counts = random.Random(62), Counter()
        for _ in range(60):
            case = Search(r)
            with Session(case.bins) as session, Session(case.bins) as other:
                for _ in range(4):
                    before, partial, seed = session.outstanding(), r.random() < 0.7, r.randrange(100)
                    packings = [case.searched(it.pack, tries=200, seed=seed, partial=partial) for it in (session, other)]
                    self.assertEqual(*packings)
                    packing = packings[0]
                    self.assertEqual(session.outstanding(), [*before, *sorted(packing or (), key=lambda it: it.number)])
                    self.assertEqual([it for bin in session.bins() for it in session.outstanding_in(bin)],
                                     sorted(session.outstanding(), key=lambda it: it.bin))
                    if packing is not None:
                        self.look_at(case, packing)
                    self.all_is_there(session)
                    counts["refused" if packing is None else "left" if packing.left else "whole"] += 1
                    gone = [it.number for it in session.outstanding() if r.random() < 0.5]
                    session.release_all(gone)
                    other.release_all(gone)
        self.assertGreater(min(counts[it] for it in ("refused", "left", "whole")), 10, counts)

    def all_is_there(self, session):
        """No two boxes share a cell, and cells are free or placed."""
        for bin in session.bins():
            standing, stats = session.outstanding_in(bin), session.stats(bin)
            boxes = {it.number: Box(it.width, it.height, it.depth) for it in standing}
            bins = {bin: Bin(*session._sides[session._ids[bin]])}
            placed = [type(it)(it.number, None, it.bin, *it.section, it.number) for it in standing]
            self.assertIsNone(check(bins, boxes, placed))
            self.assertEqual(stats.free_volume + sum(prod(it.section[3:]) for it in standing), stats.bin_volume)


if __name__ == "__main__":
    unittest.main()
