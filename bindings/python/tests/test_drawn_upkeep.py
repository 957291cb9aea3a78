#!/usr/bin/env python3
"""Drawn sessions with all calls that change one, beside an account of what they did."""
import random
import unittest

from . import model
from .model import cells_of
from .placing_model import are_cut_anew, are_from_cuts, best_place, volume
from rectangle_pack import (
    BinInUse, Box, NotEnoughBinSpace, NotFree, NotFromCuts, Outstanding, Section, Session, Stats, UnknownPlacement,
)


class Drawn(unittest.TestCase):
    """Bins and boxes that come and go, with a look at all lists after each call."""

    def setUp(self):
        self.r, self.sizes, self.placed, self.coalesced, self.next = random.Random(11), {}, {}, set(), 0
        self.seen = dict.fromkeys((
            "packed", "placed", "not free", "fitted", "does not fit", "released", "unknown", "cut anew", "grown", "cleared",
            "removed", "in use", "added",
        ), 0)

    def act(self, session):
        bin = self.r.choice(list(self.sizes)) if self.sizes else None
        acts = [self.add] if bin is None else [self.pack, self.place, self.fit] * 3 + [self.release, self.join] * 2 + [
            self.release_all, self.recut, self.add, self.grow, self.clear, self.remove]
        self.r.choice(acts)(session, bin)

    def add(self, session, _):
        name = self.r.choice("abcd")
        if name not in self.sizes:
            self.sizes[name] = [self.r.randint(0 if self.r.random() < 0.1 else 1, 6) for _ in range(3)]
            session.add_bin(name, *self.sizes[name])
            self.seen["added"] += 1

    def pack(self, session, _):
        boxes = {self.r.random(): Box(*(self.r.randint(1, 3) for _ in range(3))) for _ in range(self.r.randint(1, 3))}
        try:
            packing = session.pack(boxes)
        except NotEnoughBinSpace:
            return
        self.keep(packing)
        self.seen["packed"] += 1

    def keep(self, placed):
        self.placed |= {it.number: it for it in placed}
        self.next += len(placed)

    def place(self, session, bin):
        sides = self.sizes[bin]
        corner = [self.r.randint(0, side) for side in sides]
        place = Section(*corner, *(self.r.randint(0, side - at + 1) for side, at in zip(sides, corner)))
        if any(has_all(it, place) for it in session.free_sections(bin)):
            self.keep([session.place_at(bin, ("own", self.next), place)])
            self.assertEqual(self.placed[self.next - 1], Outstanding(("own", self.next - 1), None, bin, *place, self.next - 1))
            self.seen["placed"] += 1
        else:
            self.assertRaises(NotFree, session.place_at, bin, "own", place)
            self.seen["not free"] += 1

    def fit(self, session, bin):
        """In one bin or in any, into the section that leaves the least, by a look at each."""
        size, heuristic = tuple(self.r.randint(0, 3) for _ in range(3)), self.r.choice(list(model.RATES))
        named = {"bin": bin} if self.r.random() < 0.5 else {}
        free = {name: session.free_sections(name) for name in ([bin] if named else self.sizes)}
        best = best_place(self.sizes, free, size)
        if best is None:
            self.assertRaises(NotEnoughBinSpace, session.place_best, "own", *size, **named, heuristic=heuristic)
            self.seen["does not fit"] += 1
            return
        home, index = best
        section = free[home].pop(index)
        placed = session.place_best("own", *size, **named, heuristic=heuristic)
        self.assertEqual(placed, Outstanding("own", None, home, *section[:3], *size, self.next))
        self.keep([placed])
        left = model.place([section], size, model.RATES[heuristic])[1]
        self.assertEqual(session.free_sections(home), [*free[home], *left])
        self.seen["fitted"] += 1

    def release_all(self, session, _):
        """Some of all, in any order; now and then one twice, or one that is not there."""
        numbers = self.r.sample(sorted(self.placed), self.r.randint(0, len(self.placed)))
        bad = [self.next, *numbers][self.r.randint(0, len(numbers))]
        free = {bin: session.free_sections(bin) for bin in self.sizes}
        if self.r.random() < 0.3:
            numbers.insert(self.r.randint(0, len(numbers)), bad)
            self.assertRaises(UnknownPlacement, session.release_all, numbers)
            self.seen["unknown"] += 1
        else:
            session.release_all(iter(numbers))
            for it in map(self.placed.pop, numbers):
                free[it.bin] += [it.section] if volume(it.section) else []
            self.seen["released"] += 1
        self.assertEqual(free, {bin: session.free_sections(bin) for bin in self.sizes})

    def recut(self, session, bin):
        boxes = [it.section for it in self.placed.values() if it.bin == bin and volume(it.section)]
        before = session.free_sections(bin)
        if are_from_cuts(boxes):
            session.recut(bin)
            self.assertTrue(are_cut_anew(self.sizes[bin], boxes, session.free_sections(bin)))
            self.assertIsNotNone(session.cut_plan(bin))
            self.seen["cut anew"] += 1
        else:
            self.assertRaises(NotFromCuts, session.recut, bin)
            self.assertEqual(session.free_sections(bin), before)

    def release(self, session, _):
        if self.placed:
            session.release(self.placed.pop(self.r.choice(sorted(self.placed))).number)

    def join(self, session, bin):
        session.coalesce(bin, *(self.r.randint(0, 12) for _ in range(3)))
        self.coalesced.add(bin)

    def grow(self, session, bin):
        axis, by = self.r.randrange(3), self.r.randint(0, 2)
        if self.sizes[bin][axis] + by < 9:
            session.grow_bin(bin, "xyz"[axis], by)
            self.sizes[bin][axis] += by
            self.seen["grown"] += 1

    def clear(self, session, bin):
        session.clear_bin(bin)
        self.placed = {number: it for number, it in self.placed.items() if it.bin != bin}
        self.coalesced.discard(bin)
        self.assertEqual(session.free_sections(bin), [Section(0, 0, 0, *self.sizes[bin])])
        self.seen["cleared"] += 1

    def remove(self, session, bin):
        if any(it.bin == bin for it in self.placed.values()):
            self.assertRaises(BinInUse, session.remove_bin, bin)
            self.seen["in use"] += 1
            return
        session.remove_bin(bin)
        del self.sizes[bin]
        self.coalesced.discard(bin)
        self.seen["removed"] += 1

    def check_lists(self, session):
        """The lists are those of what was done. Each cell of each bin is in one free section or in one box."""
        standing = session.outstanding()
        self.assertEqual(standing, [it for _, it in sorted(self.placed.items())])
        self.assertEqual((session.bins(), session.next_number()), (list(self.sizes), self.next))
        self.assertEqual(session._boxes.keys(), self.placed.keys())
        for bin, (width, height, depth) in self.sizes.items():
            sections, here = session.free_sections(bin), [it.section for it in standing if it.bin == bin]
            free, whole = sum(it.width * it.height * it.depth for it in sections), width * height * depth
            self.assertEqual(session.stats(bin), Stats(whole, free, whole - free, len(sections), len(here)))
            cells = [cell for it in [*sections, *here] for cell in cells_of(it)]
            self.assertCountEqual(cells, cells_of((0, 0, 0, width, height, depth)))
            self.assertEqual(session.was_coalesced(bin), bin in self.coalesced)
            self.assertTrue(session.cut_tree(bin) is not None or bin in self.coalesced)

    def test_bins_and_boxes_come_and_go_cell_by_cell(self):
        with Session() as session:
            for _ in range(1200):
                self.act(session)
                self.check_lists(session)
        self.assertGreater(min(self.seen.values()), 4, self.seen)


def has_all(section, place):
    """Whether a place is a part of a section, also where it has no cells."""
    ends = zip(section[:3], section[3:], place[:3], place[3:])
    return all(start <= at and at + length <= start + side for start, side, at, length in ends)


if __name__ == "__main__":
    unittest.main()
