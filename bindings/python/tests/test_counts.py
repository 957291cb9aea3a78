#!/usr/bin/env python3
"""Several bins of one name, or as many as are needed."""
import copy
import pickle
import random
import unittest
from collections import Counter
from unittest import mock

import rectangle_pack
from rectangle_pack import (
    Bin, Box, FaultKind, Left, NotEnoughBinSpace, OutOfMemory, Packing, Placement, Session, check, least_bins, pack,
)
from rectangle_pack._collection import HEURISTICS

from .test_heuristics import BEST, Case, drawn_bins

ALL = [*HEURISTICS, BEST]


def homes(packing):
    return [(it.bin, it.copy) for it in packing]


class ByHand(unittest.TestCase):
    def test_five_equal_bins(self):
        # No two of 6x6 are on one page of 10x10.
        packing = pack({"page": Bin(10, 10, count=5)}, [Box(6, 6)] * 5)
        self.assertEqual(homes(packing), [("page", number) for number in range(5)])
        self.assertEqual((packing.used, packing.least, packing.optimal), (5, 5, True))
        with self.assertRaises(NotEnoughBinSpace):
            pack({"page": Bin(10, 10, count=5)}, [Box(6, 6)] * 6)
        packing = pack({"page": Bin(10, 10, count=5)}, [Box(6, 6)] * 6, partial=True)
        self.assertEqual((packing.used, packing.least, packing.optimal, packing.left), (5, None, False, (Left(5, None),)))

    def test_as_many_as_are_needed(self):
        for count in (1, 2, 3, 7, 100):
            for more in ({}, {"heuristic": "best"}, {"partial": True}, {"tries": 100}, {"turn": "any"}):
                packing = pack([Bin(10, 10, count=None)], [Box(6, 6)] * count, **more)
                self.assertEqual(sorted(homes(packing)), [(0, number) for number in range(count)])
                self.assertEqual((packing.used, packing.least, packing.optimal), (count, count, True))

    def test_what_fits_no_bin(self):
        for more in ({}, {"heuristic": "best"}, {"tries": 100}, {"turn": "any"}):
            with self.assertRaises(NotEnoughBinSpace):
                pack([Bin(10, 10, count=None)], [Box(6, 6), Box(11, 11)], **more)
            packing = pack([Bin(10, 10, count=None)], [Box(6, 6), Box(11, 11)], partial=True, **more)
            self.assertEqual((homes(packing), packing.left), ([(0, 0)], (Left(1, None),)))
            self.assertEqual((packing.least, packing.optimal), (None, False))

    def test_what_fits_only_turned(self):
        # Six of 4x9 fit no bin as they stand. A bin takes one that lies.
        packing = pack({"strip": Bin(9, 5, count=None)}, [Box(4, 9)] * 6, tries=500, turn="flat")
        self.assertEqual(sorted(homes(packing)), [("strip", number) for number in range(6)])
        self.assertEqual((packing.least, packing.optimal), (6, True))

    def test_two_kinds(self):
        # The small ones come first, and there are always enough. Only the wall needs a large one.
        bins = {"small": Bin(4, 4, count=None), "large": Bin(9, 9, count=2)}
        boxes = {"wall": Box(8, 8), **{number: Box(3, 3) for number in range(9)}}
        packing = pack(bins, boxes)
        self.assertEqual(packing["wall"].bin, "large")
        self.assertEqual(homes(packing)[1:], [("small", number) for number in range(9)])
        # By cost a large one is better than two small ones.
        bins = {"small": Bin(4, 4, count=None, cost=2), "large": Bin(9, 9, count=None, cost=3)}
        packing = pack(bins, [Box(3, 3)] * 2, tries=2000)
        self.assertEqual({*homes(packing)}, {("large", 0)})
        self.assertEqual((packing.least, packing.optimal), (1, True))

    def test_excluded_groups(self):
        boxes = {name: Box(1, 1, group=name) for name in "abcd"}
        pairs = [("a", "b"), ("a", "c"), ("b", "c"), ("c", "d")]
        for more in ({}, {"heuristic": "best"}, {"tries": 300}):
            packing = pack({"page": Bin(9, 9, count=None)}, boxes, exclude=pairs, **more)
            self.assertIsNone(check({"page": Bin(9, 9, count=None)}, boxes, packing, exclude=pairs))
            self.assertEqual((packing.used, packing.least), (3, 3))

    def test_none_of_a_kind(self):
        self.assertEqual(homes(pack({"no": Bin(9, 9, count=0), "one": Bin(9, 9)}, [Box(1, 1)])), [("one", 0)])
        with self.assertRaises(NotEnoughBinSpace):
            pack({"no": Bin(9, 9, count=0)}, [Box(1, 1)])

    def test_a_great_number_costs_nothing(self):
        packing = pack({"page": Bin(10, 10, count=2**32 - 1)}, [Box(6, 6)] * 3, tries=10)
        self.assertEqual(packing.used, 3)
        self.assertEqual(least_bins({"page": Bin(10, 10, count=2**32 - 1)}, [Box(6, 6)] * 3), 3)

    def test_a_search_gets_no_more_than_the_best_heuristic_needs(self):
        call = rectangle_pack._library.call
        with mock.patch.object(rectangle_pack._library, "call", side_effect=call) as called:
            pack({"page": Bin(10, 10, count=None), "dear": Bin(10, 10, cost=3, count=None)}, [Box(6, 6)] * 7, tries=1)
        offered = [it.args[2] for it in called.call_args_list if it.args[0] == "search_begin"]
        # Seven of cost 1, or two of cost 3 in their place.
        self.assertEqual(offered, [9])


class Judged(unittest.TestCase):
    def test_copies(self):
        bins, boxes = {"page": Bin(4, 4, count=2)}, {"hat": Box(4, 3), "cap": Box(4, 2)}
        hat = Placement("hat", None, "page", 0, 0, 0, 4, 3, 1)

        def kind(number, bins=bins):
            fault = check(bins, boxes, [hat, Placement("cap", None, "page", 0, 0, 0, 4, 2, 1, number)])
            return fault and fault.kind

        self.assertEqual([kind(number) for number in range(3)], [FaultKind.shares_cell, None, FaultKind.unknown_bin])
        self.assertIsNone(kind(2**32 - 1, {"page": Bin(4, 4, count=None)}))
        fault = check(bins, {name: Box(*it[:3], group="all") for name, it in boxes.items()},
                      [hat, Placement("cap", None, "page", 0, 0, 0, 4, 2, 1, 1)])
        self.assertEqual(str(fault), "'hat' and 'cap' stand in two bins: 'page' and 'page' (copy 1)")

    def test_numbers_of_copies(self):
        for bad, error, text in ((-1, ValueError, "copy -1 is not a number from 0 to 4294967295"),
                                 ("1", TypeError, "copy '1' is not a whole number")):
            with self.assertRaises(error) as refused:
                check([Bin(1, 1)], [Box(1, 1)], [Placement(0, None, 0, 0, 0, 0, 1, 1, 1, bad)])
            self.assertEqual(str(refused.exception), f"placement of box 0: {text}")


class Refused(unittest.TestCase):
    def test_numbers(self):
        cases = [
            (Bin(1, 1, count=-1), ValueError, "bin 'page': count -1 is not a number from 0 to 4294967295"),
            (Bin(1, 1, count=1.5), TypeError, "bin 'page': count 1.5 is not a whole number"),
            (Bin(1, 1, cost=2**64), ValueError, "bin 'page': cost 18446744073709551616 is not a number from 0 to 18446744073709551615"),
            (Bin(1, 1, cost=None), TypeError, "bin 'page': cost None is not a whole number"),
            (Bin(1, -1, count=None), ValueError, "bin 'page': height -1 is not a number from 0 to 4294967295"),
        ]
        for bin, error, text in cases:
            for call in (pack, least_bins, lambda bins, boxes: check(bins, boxes, [])):
                with self.assertRaises(error) as refused:
                    call({"page": bin}, [])
                self.assertEqual(str(refused.exception), text)

    def test_a_session_has_one_of_each(self):
        for count in (0, 2, None):
            with self.assertRaises(ValueError) as refused:
                Session({"page": Bin(1, 1, count=count)})
            self.assertEqual(str(refused.exception), f"bin 'page': count {count}: a session has one bin of each name")
        with self.assertRaisesRegex(ValueError, "bin 'page': cost -1 is not"):
            Session({"page": Bin(1, 1, cost=-1)})


class Packings(unittest.TestCase):
    def test_it_is_kept_in_copies(self):
        packing = pack({"page": Bin(10, 10, count=None)}, [Box(6, 6), Box(4, 10)])
        with Session({"page": Bin(10, 10)}) as session:
            others = [session.pack([Box(6, 6)]), session.pack([Box(1, 1), Box(1, 1)])]
        for it in (packing, *others):
            for again in (copy.copy(it), copy.deepcopy(it), pickle.loads(pickle.dumps(it))):
                self.assertEqual((again, again.least, again.optimal), (it, 1, True))

    def test_least_is_found_when_it_is_asked_for(self):
        call = rectangle_pack._library.call
        with mock.patch.object(rectangle_pack._library, "call", side_effect=call) as called:
            packing = pack([Bin(1, 1)], [Box(1, 1)])
            self.assertEqual(called.call_count, 1)
            self.assertEqual((packing.least, packing.optimal, packing.least), (1, True, 1))
            self.assertEqual([it.args[0] for it in called.call_args_list], ["collection", "least_bins"])
        packing = pack([Bin(1, 1)], [Box(1, 1)])
        with mock.patch.object(rectangle_pack._library, "call", return_value=2), self.assertRaises(OutOfMemory):
            packing.least
        self.assertEqual(packing.least, 1)

    def test_a_packing_of_someone_else(self):
        packing = Packing("volume", (Placement(0, None, 0, 0, 0, 0, 1, 1, 1), Placement(1, None, 0, 0, 0, 0, 1, 1, 1, 1)))
        self.assertEqual(packing.used, 2)
        with self.assertRaisesRegex(ValueError, "of which boxes and bins"):
            packing.least

    def test_sizes_count_as_they_were(self):
        with Session({"page": Bin(4, 4), "next": Bin(4, 4)}) as session:
            packings = [session.pack([Box(4, 3)]), session.pack([Box(1, 1)] * 2)]
            session.grow_bin("page", "x", 9)
            session.remove_bin("next")
            session.add_bin("more", 20, 20)
            self.assertEqual([(it.used, it.least) for it in packings], [(1, 1), (1, 1)])
            self.assertEqual([it.bin for it in session.pack([Box(20, 20)])], ["more"])


class Drawn(unittest.TestCase):
    def test_as_with_very_many(self):
        r, counts = random.Random(31), Counter()
        for _ in range(160):
            flat, side, sizes = drawn_bins(r)
            case, given = Case(r, flat, side), [r.choice([None, None, 1, 3]) for _ in sizes]
            bins = [Bin(*size)._replace(count=count) for size, count in zip(sizes, given)]
            many = [(kind, number) for kind, count in enumerate(given) for number in range(count or len(case.entries) + 3)]
            for heuristic in ALL:
                partial = r.random() < 0.5
                packing = case.by_module(lambda *it, **more: pack(bins, *it, **more), heuristic, partial=partial)
                spread = [Bin(*sizes[kind]) for kind, _ in many]
                whole = case.by_module(lambda *it, **more: pack(spread, *it, **more), heuristic, partial=partial)
                self.assertEqual(packing is None, whole is None)
                if packing is not None:
                    self.assertEqual((packing.heuristic, packing.left), (whole.heuristic, whole.left))
                    self.assertEqual(homes(packing), [many[it.bin] for it in whole])
                    self.assertEqual([it.section for it in packing], [it.section for it in whole])
                    counts[partial, max([it.copy for it in packing], default=0) > 2] += 1
        self.assertGreater(min(counts.values()), 20, counts)


if __name__ == "__main__":
    unittest.main()
