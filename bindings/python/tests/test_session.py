#!/usr/bin/env python3
"""Sessions: what stands in them, what is read of them, what they refuse, and how they end."""
import random
import threading
import unittest
from unittest import mock

import rectangle_pack
from .model import cells_of
from rectangle_pack import (
    Bin, BinInUse, Box, DuplicateBin, EqualGroups, Leaf, NotEnoughBinSpace, NotFree, NotFromCuts, NumbersUsedUp, OutOfMemory,
    Outstanding, Section, Session, Stats, TooLarge, TooMany, UnknownAxis, UnknownBin, UnknownBox, UnknownHeuristic,
    UnknownPlacement,
)
from .test_rectangle_pack import NAMES

GREATEST = 2**32 - 1


class Packings(unittest.TestCase):
    def test_a_bin_is_free_at_first(self):
        with Session({"deep": Bin(10, 20, 3), "empty": Bin(0, 5)}) as session:
            self.assertEqual(session.stats("deep"), Stats(600, 600, 0, 1, 0))
            self.assertEqual(session.stats("empty")[:3], (0, 0, 0))

    def test_bins_are_those_of_a_mapping_or_of_a_list_or_come_later(self):
        bins = [Bin(1, 1), Bin(2, 2)]
        for session, names in (
            (Session({"a": bins[0], "b": bins[1]}), ["a", "b"]), (Session(bins), [0, 1]), (Session(), []), (Session({}), []),
        ):
            with session:
                self.assertEqual(session.bins(), names)
                session.add_bin("c", 3, 4, 5)
                self.assertEqual((session.bins(), session.stats("c").bin_volume), ([*names, "c"], 60))

    def test_released_cells_are_one_section_again_after_coalescing(self):
        with Session({"sheet": Bin(10, 10)}) as session:
            # 4x10 in the corner leaves 6x10.
            packing = session.pack({"hat": Box(4, 10)})
            self.assertEqual(packing.placements, (Outstanding("hat", None, "sheet", 0, 0, 0, 4, 10, 1, 0),))
            self.assertEqual(packing.heuristic, "volume")
            self.assertEqual(session.stats("sheet"), Stats(100, 60, 40, 1, 1))
            session.release(0)
            self.assertEqual(session.stats("sheet"), Stats(100, 100, 0, 2, 0))
            with self.assertRaises(NotEnoughBinSpace):
                session.pack([Box(10, 10)])
            session.coalesce_all("sheet")
            self.assertEqual(session.stats("sheet"), Stats(100, 100, 0, 1, 0))
            # What was refused took no number.
            self.assertEqual(session.pack([Box(10, 10)])[0].number, 1)

    def test_what_is_released_last_is_filled_first(self):
        with Session([Bin(10, 10)]) as session:
            session.pack([Box(4, 10)])
            self.assertEqual(session.pack([Box(4, 10)])[0].x, 4)
            session.release(0)
            self.assertEqual(session.pack([Box(4, 10)])[0].x, 0)

    def test_numbers_go_by_falling_volume(self):
        with Session([Bin(10, 10)]) as session:
            self.assertEqual([it.number for it in session.pack([Box(1, 1), Box(4, 10), Box(2, 1)])], [2, 0, 1])
            self.assertEqual(session.pack([]).placements, ())
            self.assertEqual([it.number for it in session.pack([Box(1, 1)])], [3])

    def test_numbers_at_equal_volumes(self):
        # Boxes that are alone go in their order, and then groups as they were named.
        boxes = {"a": Box(1, 1, group="z"), "b": Box(1, 1, group="y"), "d": Box(1, 1), "c": Box(1, 1)}
        with Session([Bin(10, 10)]) as session:
            packing = session.pack(boxes, groups={"x": ["d"]})
            self.assertEqual({it.name: it.number for it in packing}, {"c": 0, "a": 1, "b": 2, "d": 3})

    def test_further_groups_have_numbers_of_their_own(self):
        with Session({"a": Bin(5, 5), "b": Bin(5, 5)}) as session:
            boxes, groups = {"hat": Box(2, 2), "cap": Box(3, 3)}, {"x": ["hat"], "y": ["cap", "hat"]}
            packing = session.pack(boxes, groups=groups, exclude=[("x", "y")])
            # Group y goes first: its own box, and then the one for which it is a further group. Group x may not follow.
            self.assertEqual([(it.name, it.group, it.bin, it.number) for it in packing], [
                ("hat", "x", "b", 2), ("cap", "y", "a", 0), ("hat", "y", "a", 1),
            ])
            self.assertRaises(LookupError, lambda: packing["hat"])
            session.release(1)
            self.assertEqual(session.outstanding(), [packing["cap"], packing.placements[0]])

    def test_the_smallest_bin_comes_first_and_then_the_first_that_was_added(self):
        with Session({"z": Bin(4, 4), "a": Bin(4, 4), 1: Bin(2, 2)}) as session:
            bins = [session.pack([box])[0].bin for box in (Box(4, 4), Box(1, 1), Box(4, 4))]
            self.assertEqual(bins, ["z", 1, "a"])

    def test_groups_and_exclusions_are_those_of_one_packing(self):
        with Session({"small": Bin(2, 2), "large": Bin(5, 5)}) as session:
            # Alone, the 2x2 box would go into the small bin.
            together = session.pack([Box(2, 2, group=1), Box(1, 1, group=1)])
            self.assertEqual([it.bin for it in together], ["large", "large"])
            self.assertEqual(session.pack([Box(2, 2, group=1)])[0].bin, "small")
            # The small bin is full. In the large one a box stands of what was group 1 then.
            self.assertEqual(session.pack([Box(1, 1, group=2)], groups={1: []}, exclude=[(1, 2)])[0].bin, "large")
            with self.assertRaises(NotEnoughBinSpace):
                session.pack([Box(1, 1, group=2), Box(1, 1, group=1)], exclude=[(1, 2)])

    def test_the_best_heuristic_by_the_example_of_the_docs(self):
        with Session({"sheet": Bin(4, 4)}) as session:
            boxes = {1: Box(1, 3), 2: Box(3, 2), 3: Box(3, 1)}
            with self.assertRaises(NotEnoughBinSpace):
                session.pack(boxes)
            packing = session.pack(boxes, heuristic="best")
            self.assertEqual((packing.heuristic, len(packing)), ("height", 3))
            self.assertEqual(session.next_number(), 3)

    def test_volumes_of_more_than_64_bits(self):
        with Session([Bin(GREATEST, GREATEST, GREATEST)]) as session:
            self.assertEqual(session.stats(0), Stats(GREATEST**3, GREATEST**3, 0, 1, 0))
            self.assertEqual(session.pack([Box(GREATEST, GREATEST, 2)])[0].section, (0, 0, 0, GREATEST, GREATEST, 2))
            self.assertEqual(session.stats(0), Stats(GREATEST**3, GREATEST**2 * (GREATEST - 2), GREATEST**2 * 2, 1, 1))

    def test_plain_tuples_and_other_iterables_will_do(self):
        with Session([(10, 10, 1)]) as session:
            self.assertEqual([it.x for it in session.pack((4, 10) for _ in range(2))], [0, 4])


class Drawn(unittest.TestCase):
    """Boxes that come and go, with a look at all lists after each call."""

    SIZES = {("shelf", 1): (5, 8, 3), None: (6, 6, 6), 0: (9, 9, 1)}

    def setUp(self):
        self.r, self.placed, self.coalesced = random.Random(3), {}, set()

    def drawn_boxes(self):
        names = [(name, self.r.random()) for name in range(self.r.randint(1, 4))]
        boxes = {name: Box(*(self.r.randint(1, 3) for _ in range(3))) for name in names}
        return boxes, {group: self.r.choices(list(boxes), k=self.r.randint(0, 3)) for group in ("a", "b")}

    def act(self, session):
        """Packs, releases or joins."""
        kind, bin = self.r.random(), self.r.choice(list(self.SIZES))
        if kind < 0.4:
            boxes, groups = self.drawn_boxes()
            exclude, heuristic = self.r.choice([[("b", "a")], []]), self.r.choice(["volume", "height", "best"])
            try:
                packing = session.pack(boxes, groups=groups, exclude=exclude, heuristic=heuristic)
                self.check_packing(boxes, groups, exclude, packing)
                self.placed |= {it.number: it for it in packing}
            except NotEnoughBinSpace:
                pass
        elif kind < 0.75 and self.placed:
            session.release(self.placed.pop(self.r.choice(sorted(self.placed))).number)
        else:
            self.coalesced.add(bin)
            if kind < 0.95:
                session.coalesce(bin, *(self.r.randint(0, 12) for _ in range(3)))
            else:
                session.coalesce_all(bin)

    def check_packing(self, boxes, groups, exclude, packing):
        """Each box stands in its size, once for each of its groups, each group in one bin, and excluded ones in two."""
        entries = [(name, group) for group, names in groups.items() for name in names]
        alone = set(boxes) - {name for name, _ in entries}
        self.assertCountEqual([(it.name, it.group) for it in packing], [*entries, *((name, None) for name in alone)])
        self.assertEqual([it.name for it in packing][:len(boxes)], list(boxes))
        for it in packing:
            self.assertEqual(it.section[3:], boxes[it.name][:3])
        homes = {group: {it.bin for it in packing if it.group == group} for group in groups}
        self.assertTrue(all(len(home) < 2 for home in homes.values()))
        for one, other in exclude:
            self.assertFalse(homes[one] & homes[other])

    def check_lists(self, session):
        """The lists are those of what is placed. Each cell of each bin is in one free section or in one box."""
        standing = session.outstanding()
        self.assertEqual(standing, [it for _, it in sorted(self.placed.items())])
        self.assertEqual(session.bins(), list(self.SIZES))
        for bin, (width, height, depth) in self.SIZES.items():
            sections, here = session.free_sections(bin), [it.section for it in standing if it.bin == bin]
            free, whole = sum(it.width * it.height * it.depth for it in sections), width * height * depth
            self.assertEqual(session.stats(bin), Stats(whole, free, whole - free, len(sections), len(here)))
            cells = [cell for it in [*sections, *here] for cell in cells_of(it)]
            self.assertCountEqual(cells, cells_of((0, 0, 0, width, height, depth)))
            self.assertEqual(session.was_coalesced(bin), bin in self.coalesced)

    def test_boxes_come_and_go_cell_by_cell(self):
        with Session({name: Bin(*size) for name, size in self.SIZES.items()}) as session:
            for _ in range(300):
                self.act(session)
                self.check_lists(session)
        self.assertGreater(len(self.placed), 1)


class Names(unittest.TestCase):
    def test_of_bins(self):
        with Session() as session:
            for name in NAMES:
                session.add_bin(name, 1, 1)
            self.assertEqual(session.bins(), NAMES)
            for name in NAMES:
                # All are equal, so they go in their order.
                self.assertIs(session.pack([Box(1, 1)])[0].bin, name)
                self.assertEqual(session.stats(name).free_volume, 0)
                self.assertEqual(session.free_sections(name), [])
                self.assertIs(session.was_coalesced(name), False)
                session.coalesce_all(name)
                self.assertIs(session.was_coalesced(name), True)
                self.assertEqual(session.cut_plan(name), [Leaf()])
                self.assertEqual(session.cut_tree(name), Section(0, 0, 0, 1, 1, 1))
            self.assertEqual([it.bin for it in session.outstanding()], NAMES)

    def test_of_boxes_and_groups(self):
        with Session([Bin(100, 1)]) as session:
            packing = session.pack({name: Box(1, 1, group=name) for name in NAMES}, groups={"shelf": [None], "more": [None]})
            entries = [(name, "shelf" if name is None else name) for name in NAMES] + [(None, "more")]
            self.assertEqual([(it.name, it.group) for it in packing], entries)
            self.assertEqual(session.outstanding(), sorted(packing, key=lambda it: it.number))

    def test_names_may_be_used_anew(self):
        with Session([Bin(10, 10)]) as session:
            packings = [session.pack({"hat": Box(1, 1)}) for _ in range(3)]
            self.assertEqual([it["hat"].number for it in packings], [0, 1, 2])
            self.assertEqual([it.name for it in session.outstanding()], ["hat"] * 3)

    def test_they_are_forgotten_when_a_box_goes(self):
        with Session([Bin(10, 10)]) as session:
            packing = session.pack({"hat": Box(1, 1), "cap": Box(2, 2)}, groups={"hats": ["hat", "cap"]})
            self.assertEqual(session._boxes, {0: ("hat", "hats", 0, False), 1: ("cap", "hats", 0, False)})
            session.release(packing["hat"].number)
            self.assertEqual(session._boxes, {1: ("cap", "hats", 0, False)})
            with self.assertRaises(NotEnoughBinSpace):
                session.pack({"house": Box(20, 20)})
            self.assertEqual(session._boxes, {1: ("cap", "hats", 0, False)})


class Reading(unittest.TestCase):
    def test_bins_stand_in_the_order_in_which_they_came(self):
        with Session() as session:
            self.assertEqual(session.bins(), [])
            for bin in (7, 0, "a", 12):
                session.add_bin(bin, 1, 1)
            self.assertEqual(session.bins(), [7, 0, "a", 12])

    def test_free_sections_by_hand(self):
        with Session({7: Bin(100, 100), 8: Bin(0, 5, 2)}) as session:
            self.assertEqual(session.free_sections(7), [Section(0, 0, 0, 100, 100, 1)])
            self.assertEqual(session.free_sections(8), [Section(0, 0, 0, 0, 5, 2)])
            # 50x90 leaves 50x100 beside it and 50x10 above it, or 50x90 and 100x10: the smallest of these is 50x10.
            session.pack([Box(50, 90)])
            self.assertEqual(session.free_sections(7), [Section(50, 0, 0, 50, 100, 1), Section(0, 90, 0, 50, 10, 1)])
            # What is released is the newest. A box without cells leaves nothing.
            session.release(0)
            self.assertEqual(session.free_sections(7)[2:], [Section(0, 0, 0, 50, 90, 1)])
            session.pack([Box(0, 5)])
            before = session.free_sections(8), session.free_sections(7)
            session.release(1)
            self.assertEqual((session.free_sections(8), session.free_sections(7)), before)

    def test_outstanding_goes_by_number(self):
        with Session({7: Bin(10, 10), 3: Bin(2, 2, 2)}) as session:
            self.assertEqual(session.outstanding(), [])
            session.pack({"a": Box(1, 1, 2), "b": Box(4, 10), "c": Box(5, 10)})
            session.pack([Box(1, 10)])
            first, second = Outstanding("c", None, 7, 0, 0, 0, 5, 10, 1, 0), Outstanding("b", None, 7, 5, 0, 0, 4, 10, 1, 1)
            third, fourth = Outstanding("a", None, 3, 0, 0, 0, 1, 1, 2, 2), Outstanding(0, None, 7, 9, 0, 0, 1, 10, 1, 3)
            self.assertEqual(session.outstanding(), [first, second, third, fourth])
            self.assertEqual([session.outstanding_in(bin) for bin in (7, 3)], [[first, second, fourth], [third]])
            session.release(1)
            self.assertEqual(session.outstanding(), [first, third, fourth])
            self.assertEqual([session.outstanding_in(bin) for bin in (7, 3)], [[first, fourth], [third]])
            session.clear_bin(7)
            self.assertEqual([session.outstanding_in(bin) for bin in (7, 3)], [[], [third]])

    def test_the_next_number(self):
        with Session([Bin(10, 10)]) as session:
            self.assertEqual(session.next_number(), 0)
            session.pack([Box(1, 1), Box(2, 2)])
            self.assertEqual(session.next_number(), 2)
            session.release(1)
            self.assertEqual(session.next_number(), 2)

    def test_one_section_is_joined_with_those_of_the_range(self):
        with Session({7: Bin(10, 10)}) as session:
            # Three columns, and 4x10 that are free beside them.
            session.pack([Box(2, 10)] * 3)
            for number in range(3):
                session.release(number)
            free = [Section(x, 0, 0, width, 10, 1) for x, width in ((6, 4), (0, 2), (2, 2), (4, 2))]
            self.assertEqual(session.free_sections(7), free)
            self.assertFalse(session.was_coalesced(7))
            # An empty range, and an index and a range past the end: nothing is joined, but the call is known.
            for join in ((3, 2, 2), (3, 2, 1), (4, 0, 4), (2**64 - 1, 0, 2**64 - 1), (3, 4, 2**64 - 1)):
                session.coalesce(7, *join)
                self.assertEqual(session.free_sections(7), free)
            self.assertIs(session.was_coalesced(7), True)
            # The column between is taken up, and then the one behind it, which shares a face with the join.
            session.coalesce(7, 3, 1, 2**64 - 1)
            self.assertEqual(session.free_sections(7), [free[0], Section(0, 0, 0, 6, 10, 1)])
            session.coalesce(7, 0, 0, 2)
            self.assertEqual(session.free_sections(7), [Section(0, 0, 0, 10, 10, 1)])

    def test_coalesce_all_is_known(self):
        with Session({7: Bin(10, 10), 8: Bin(10, 10)}) as session:
            session.coalesce_all(7)
            self.assertEqual([session.was_coalesced(bin) for bin in (7, 8)], [True, False])

    def test_lists_grow_and_shrink(self):
        # Each list is asked for with the length of the last one of its kind, also where that was one of another bin.
        with Session({7: Bin(100, 1), 8: Bin(1, 1)}) as session:
            for count in (0, 100, 1, 50, 49, 101):
                for it in session.outstanding()[count:]:
                    session.release(it.number)
                session.pack([Box(1, 1)] * (count - len(session.outstanding())))
                self.assertEqual(len(session.outstanding()), count)
                for bin in (8, 7):
                    stats = session.stats(bin)
                    self.assertEqual(len(session.free_sections(bin)), stats.free_sections)
                    self.assertEqual(len(session.outstanding_in(bin)), stats.placements)
                    self.assertEqual(session.cut_plan(bin).count(Leaf()), max(1, stats.free_sections + stats.placements))


class Refusals(unittest.TestCase):
    def test_what_is_refused_changes_nothing(self):
        with Session({7: Bin(10, 10)}) as session:
            session.pack({"hat": Box(4, 10)})
            refused = [
                (DuplicateBin, "7", lambda: session.add_bin(7, 20, 20)),
                *((UnknownBin, "8", call) for call in self.calls_of(session, 8)),
                *((UnknownBin, "None", call) for call in self.calls_of(session, None)),
                (UnknownPlacement, "1", lambda: session.release(1)),
                (UnknownPlacement, str(2**64 - 1), lambda: session.release(2**64 - 1)),
                (NotEnoughBinSpace, None, lambda: session.pack([Box(1, 1), Box(7, 1)])),
                (UnknownHeuristic, "'weight'", lambda: session.pack([Box(1, 1)], heuristic="weight")),
                (UnknownBox, "1, of group 'a'", lambda: session.pack([Box(1, 1)], groups={"a": [0, 1]})),
                (EqualGroups, "'a'", lambda: session.pack([Box(1, 1)], exclude=[("a", "a")])),
            ]
            for error, about, call in refused:
                with self.assertRaises(error) as raised:
                    call()
                self.assertEqual(str(raised.exception), error.text + (f": {about}" if about else "."))
                self.assertEqual(session.stats(7), Stats(100, 60, 40, 1, 1))
                self.assertEqual(session.free_sections(7), [Section(4, 0, 0, 6, 10, 1)])
                self.assertEqual(session.outstanding(), [Outstanding("hat", None, 7, 0, 0, 0, 4, 10, 1, 0)])
                self.assertEqual((session.bins(), session.next_number(), session.was_coalesced(7)), ([7], 1, False))
            session.release(0)
            self.assertRaises(UnknownPlacement, session.release, 0)

    def calls_of(self, session, bin):
        """All that is asked of a bin that is there."""
        return [
            lambda: session.coalesce_all(bin), lambda: session.coalesce(bin, 0, 0, 1), lambda: session.was_coalesced(bin),
            lambda: session.free_sections(bin), lambda: session.outstanding_in(bin),
            lambda: session.cut_plan(bin), lambda: session.cut_tree(bin),
            lambda: session.stats(bin), lambda: session.clear_bin(bin), lambda: session.remove_bin(bin),
            lambda: session.grow_bin(bin, "x", 1), lambda: session.place_at(bin, "cap", Section(0, 0, 0, 1, 1, 1)),
            lambda: session.place_best("cap", 1, 1, bin=bin), lambda: session.recut(bin),
        ]

    def test_a_bin_that_was_refused_may_come_later(self):
        with Session({7: Bin(10, 10)}) as session:
            self.assertRaises(UnknownBin, session.stats, 8)
            self.assertRaises(ValueError, session.add_bin, 8, -1, 1)
            session.add_bin(8, 2, 3)
            session.add_bin(9, 4, 5)
            self.assertEqual([session.stats(bin).bin_volume for bin in (7, 8, 9)], [100, 6, 20])

    def test_without_bins_there_is_no_space(self):
        with Session() as session:
            self.assertEqual(session.pack([]).placements, ())
            self.assertRaises(NotEnoughBinSpace, session.pack, [Box(0, 0, 0)])

    def test_numbers_are_not_cut(self):
        with Session({"bin": Bin(1, 1)}) as session:
            session.pack([Box(1, 1)])
            for bad, error in ((-1, ValueError), (2**32, ValueError), (0.0, TypeError), (False, TypeError), (None, TypeError)):
                calls = [
                    lambda: session.add_bin("a", bad, 1), lambda: session.add_bin("b", 1, bad),
                    lambda: session.add_bin("c", 1, 1, bad), lambda: session.pack([Box(bad, 1)]),
                    lambda: session.pack([Box(1, bad)]), lambda: session.pack([Box(1, 1, bad)]),
                ]
                for call in calls:
                    self.assertRaises(error, call)
            for bad, error in ((-1, ValueError), (2**64, ValueError), (0.0, TypeError), (False, TypeError)):
                self.assertRaises(error, session.release, bad)
                for join in ((bad, 0, 0), (0, bad, 0), (0, 0, bad)):
                    self.assertRaises(error, session.coalesce, "bin", *join)
            self.assertFalse(session.was_coalesced("bin"))
            self.assertEqual((session.bins(), session.stats("bin")), (["bin"], Stats(1, 0, 1, 0, 1)))

    def test_each_status_has_its_error(self):
        statuses = {
            1: NotEnoughBinSpace, 2: OutOfMemory, 3: TooMany, 4: DuplicateBin, 5: UnknownBin, 6: UnknownPlacement,
            7: NumbersUsedUp, 10: UnknownHeuristic, 11: UnknownBox, 12: EqualGroups, 13: BinInUse, 14: TooLarge, 15: NotFree,
            16: UnknownAxis, 17: NotFromCuts,
        }
        with Session([Bin(1, 1)]) as session:
            for status, error in statuses.items():
                with mock.patch.object(rectangle_pack._library, "call", return_value=status):
                    for call in (lambda: session.pack([Box(1, 1)]), lambda: session.release(0), lambda: session.cut_plan(0),
                                 lambda: session.add_bin(1, 1, 1), session.bins, session.outstanding):
                        self.assertRaises(error, call)
            self.assertEqual((session.bins(), session.outstanding()), ([0], []))


class Closing(unittest.TestCase):
    def check_closed(self, session):
        calls = [
            lambda: session.add_bin(1, 1, 1), lambda: session.pack([]), lambda: session.release(0), session.__enter__,
            lambda: session.pack([], tries=1), lambda: session.pack([], turn="flat"), lambda: session.pack_told([], []),
            session.bins, session.outstanding, session.next_number, lambda: session.release_all([]),
            lambda: session.place_best("cap", 1, 1), *Refusals.calls_of(self, session, 7),
        ]
        for call in calls:
            with self.assertRaises(ValueError) as refused:
                call()
            self.assertEqual(str(refused.exception), "the session is closed")
        session.close()

    def test_a_closed_session_is_not_used(self):
        session = Session({7: Bin(10, 10)})
        session.close()
        self.check_closed(session)

    def test_a_block_closes_its_session_also_at_an_error(self):
        with self.assertRaises(UnknownBin), Session({7: Bin(10, 10)}) as session:
            session.stats(8)
        self.check_closed(session)

    def test_a_session_that_is_forgotten_is_freed(self):
        session = Session({7: Bin(10, 10)})
        free = session._free
        self.assertTrue(free.alive)
        del session
        self.assertFalse(free.alive)

    def test_a_session_whose_bins_are_refused_is_freed(self):
        with mock.patch.object(rectangle_pack._library, "call", wraps=rectangle_pack._library.call) as call:
            self.assertRaises(ValueError, Session, [Bin(1, 1), Bin(-1, 1)])
        self.assertEqual([it.args[0] for it in call.mock_calls], ["session_new", "session_add_bin", "session_free"])


class Threads(unittest.TestCase):
    def run_all(self, work):
        threads = [threading.Thread(target=work, args=(i,)) for i in range(4)]
        for it in threads:
            it.start()
        for it in threads:
            it.join()

    def test_sessions_are_independent(self):
        stats = {}

        def work(i):
            with Session({i: Bin(50, 50)}) as session:
                for _ in range(200):
                    session.release(session.pack([Box(i + 1, 1)])[0].number)
                session.pack([Box(i + 1, 1)])
                session.coalesce_all(i)
                stats[i] = session.stats(i)

        self.run_all(work)
        for i in range(4):
            self.assertEqual((stats[i].free_volume, stats[i].placed_volume), (2500 - (i + 1), i + 1))

    def test_threads_share_a_session(self):
        # Each packs and releases by turns, and keeps the last of its boxes.
        kept = {}

        def work(i):
            for _ in range(200):
                session.release(session.pack({i: Box(i + 1, 1)})[i].number)
                session.coalesce_all(7)
            kept[i] = session.pack({i: Box(i + 1, 1)})[i]

        with Session({7: Bin(50, 50)}) as session:
            self.run_all(work)
            self.assertEqual(session.next_number(), 4 * 201)
            self.assertEqual(session.outstanding(), sorted(kept.values(), key=lambda it: it.number))
            self.assertEqual((session.stats(7).placed_volume, session.stats(7).free_volume), (1 + 2 + 3 + 4, 2500 - 10))

    def test_another_thread_closes_a_session(self):
        session = Session({7: Bin(10, 10)})
        closing = threading.Thread(target=session.close)
        closing.start()
        closing.join()
        self.assertRaises(ValueError, session.bins)


if __name__ == "__main__":
    unittest.main()
