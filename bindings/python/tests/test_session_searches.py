#!/usr/bin/env python3
"""Searches in sessions: what they place and keep, how they are interrupted, and other threads."""
import _thread
import tempfile
import threading
import time
import unittest
from collections import Counter
from pathlib import Path
from unittest import mock

import rectangle_pack
from rectangle_pack import (
    Bin, Box, Left, NotASession, NotEnoughBinSpace, NumbersUsedUp, Outstanding, Section, Session, UnknownTurn, check, pack,
)

from .test_partial_refusals import state
from .test_searches import BOXES, PAGES, PANELS, SHEET

# As of PAGES: a search goes on.
BINS = {**{number: Bin(10, 10) for number in range(30)}, "dear": Bin(10, 10, cost=2)}


class Packed(unittest.TestCase):
    def test_panels_are_turned(self):
        with Session(SHEET) as session:
            before = state(session)
            for turn in (None, {"shelf": "flat"}):
                with self.assertRaises(NotEnoughBinSpace):
                    session.pack(PANELS, tries=300, turn=turn)
            self.assertEqual(state(session), before)
            packing = session.pack(PANELS, tries=1000, turn={"door": "flat"})
            self.assertIsNone(check(SHEET, PANELS, packing, turn="flat"))
            self.assertEqual([(it.name, it.turned) for it in packing], [("door", True), ("shelf", False)])
            self.assertEqual(packing["door"].section[3:], (9, 4, 1))
            self.assertEqual((packing.heuristic, packing.used, packing.least, packing.optimal), (None, 1, 1, True))
            # Numbers are given once, and what is read is what was answered.
            self.assertEqual(sorted(it.number for it in packing), [0, 1])
            self.assertEqual(session.outstanding(), sorted(packing, key=lambda it: it.number))
            self.assertEqual(session.outstanding_in("sheet"), session.outstanding())
            self.assertEqual(session.stats("sheet").free_volume, 0)
            session.release_all(it.number for it in packing)
            self.assertEqual(session.stats("sheet").placements, 0)

    def test_it_goes_where_boxes_stood_before(self):
        with Session({"sheet": Bin(9, 12)}) as session:
            rail = session.place_at("sheet", "rail", Section(0, 10, 0, 9, 2, 1))
            packing = session.pack({**PANELS, "wall": Box(9, 9)}, tries=1000, turn="flat", partial=True)
            # The door and the shelf have more cells than the wall, and leave no room for it.
            self.assertEqual((packing.left, sorted(it.name for it in packing)), ((Left("wall", None),), ["door", "shelf"]))
            places = [Section(*it.section) for it in packing]
            self.assertTrue(all(place.y + place.height <= 10 for place in places))
            self.assertEqual(session.outstanding()[0], rail)
            self.assertEqual([it.number for it in session.outstanding()], [0, 1, 2])
            # What stood there does not count: the sheet would hold all but the wall, and needs more than one for all.
            self.assertEqual((packing.used, packing.optimal), (1, False))

    def test_cheaper_bins_are_taken(self):
        with Session({"tray": Bin(5, 10, cost=5), "crate": Bin(10, 10)}) as session:
            session.add_bin("dish", 5, 10, cost=5)
            self.assertEqual({it.bin for it in session.pack([Box(5, 10)] * 2, tries=1000)}, {"crate"})
            session.clear_bin("crate")
            # Costs go to searches only.
            self.assertEqual({it.bin for it in session.pack([Box(5, 10)] * 2)}, {"tray", "dish"})

    def test_a_bin_whose_cost_is_saved(self):
        with tempfile.TemporaryDirectory() as room:
            path = Path(room, "saved.json")
            with Session({"tray": Bin(9, 10, cost=5), "crate": Bin(10, 10)}) as session:
                session.pack(PANELS, tries=1000, turn="flat")
                session.save(path)
                text, standing = path.read_text(), session.outstanding()
            with Session.load(path) as again:
                self.assertEqual(again.outstanding(), standing)
                # In the crate too the two stand one above the other or side by side, with one of them turned.
                self.assertEqual(sorted(it.turned for it in standing), [False, True])
                again.save(path)
                self.assertEqual(path.read_text(), text)
                again.release_all(it.number for it in standing)
                for name in again.bins():
                    again.clear_bin(name)
                self.assertEqual({it.bin for it in again.pack([Box(5, 10)] * 2, tries=1000)}, {"crate"})
            for wrong, what in (('"cost":-1', "bins[0].cost -1"), ('"cost":"5"', "bins[0].cost '5'")):
                path.write_text(text.replace('"cost":5', wrong))
                with self.assertRaisesRegex(NotASession, what.replace("[", r"\[").replace("]", r"\]")):
                    Session.load(path)

    def test_equal_calls_get_equal_answers(self):
        packings = []
        for _ in range(2):
            with Session(BINS) as session:
                packings.append(session.pack(BOXES, tries=2500, seed=7, turn="flat"))
        self.assertEqual(*packings)
        self.assertIsInstance(packings[0][0], Outstanding)
        self.assertIsNone(check(BINS, BOXES, packings[0], turn="flat"))

    def test_what_is_refused_leaves_it_as_it_was(self):
        with Session(SHEET) as session:
            session.pack([Box(1, 1)])
            before, names = state(session), dict(session._boxes)
            refused = [
                (UnknownTurn, {"turn": "about"}), (ValueError, {"tries": -1}), (TypeError, {"seed": "a", "tries": 1}),
                (ValueError, {"tries": 1, "heuristic": "height"}), (NotEnoughBinSpace, {"tries": 70})]
            for error, more in refused:
                with self.assertRaises(error):
                    session.pack({"wall": Box(9, 10)}, **more)
            with mock.patch.object(rectangle_pack._library, "call", return_value=7), self.assertRaises(NumbersUsedUp):
                session.pack({"wall": Box(1, 1)}, tries=1)
            self.assertEqual((state(session), session._boxes), (before, names))


class Stopped(unittest.TestCase):
    def counting(self):
        """Counts the calls of the library."""
        counts, call = Counter(), rectangle_pack._library.call

        def counted(name, *arguments):
            counts[name] += 1
            return call(name, *arguments)

        return counts, mock.patch.object(rectangle_pack._library, "call", side_effect=counted)

    def test_an_interrupt(self):
        # As by Ctrl-C: it comes while the library searches, and is raised between two pieces.
        for session in (None, Session(BINS)):
            before = session and state(session)
            counts, patch = self.counting()
            with patch, self.assertRaises(KeyboardInterrupt):
                timer = threading.Timer(0.3, _thread.interrupt_main)
                timer.start()
                if session is None:
                    pack(PAGES, BOXES, tries=10**15)
                else:
                    session.pack(BOXES, tries=10**15, turn="flat", progress=lambda _: None)
            timer.join()
            self.assertEqual(counts["search_free"], 1)
            self.assertEqual(counts["found"] + counts["session_pack_found"], 0)
            if session is not None:
                self.assertEqual(state(session), before)
                self.assertEqual(len(session.pack(BOXES[:3])), 3)
                session.close()

    def test_an_interrupt_while_the_library_packs(self):
        # It is raised when the library has placed the boxes, which are there then, by their names.
        call = rectangle_pack._library.call

        def interrupted(name, *arguments):
            status = call(name, *arguments)
            if name == "session_pack_found":
                raise KeyboardInterrupt
            return status

        with Session(SHEET) as session:
            with mock.patch.object(rectangle_pack._library, "call", side_effect=interrupted), self.assertRaises(KeyboardInterrupt):
                session.pack(PANELS, tries=1000, turn="flat")
            standing = session.outstanding()
            self.assertEqual({it.name: it.turned for it in standing}, {"door": True, "shelf": False})
            with mock.patch.object(rectangle_pack._library, "call", side_effect=interrupted), self.assertRaises(KeyboardInterrupt):
                session.pack(PANELS, tries=10, turn="flat")
            self.assertEqual((session.outstanding(), session.next_number()), (standing, 2))

    def test_the_session_is_closed_in_between(self):
        session = Session(BINS)
        counts, patch = self.counting()
        with patch, self.assertRaisesRegex(ValueError, "the session is closed"):
            session.pack(BOXES, tries=10**12, progress=lambda it: session.close() or False)
        self.assertEqual((counts["search_free"], counts["session_pack_found"]), (1, 0))

    def test_the_session_is_packed_in_between(self):
        # What was found may be of no use then, and what stands is a packing nevertheless.
        with Session(BINS) as session:
            pinned = []

            def pin(_):
                pinned.extend(session.pack([Box(10, 10)]))
                return len(pinned) < 3

            packing = session.pack(BOXES, tries=10**12, progress=pin)
            placements = [*pinned, *packing]
            self.assertEqual(len(session.outstanding()), 3 + len(BOXES))
            self.assertEqual(sorted(placements, key=lambda it: it.number), session.outstanding())
            cells = Counter((it.bin, x, y) for it in placements
                            for x in range(it.x, it.x + it.width) for y in range(it.y, it.y + it.height))
            self.assertEqual(set(cells.values()), {1})


class Threads(unittest.TestCase):
    def run_all(self, work, count=4):
        """What each of so many threads answers."""
        answers = [None] * count

        def run(number):
            answers[number] = work(number)

        threads = [threading.Thread(target=run, args=(number,)) for number in range(count)]
        for it in threads:
            it.start()
        for it in threads:
            it.join()
        return answers

    def test_each_searches(self):
        expected = pack(PAGES, BOXES, tries=2000)
        self.assertEqual(self.run_all(lambda _: pack(PAGES, BOXES, tries=2000)), [expected] * 4)

    def test_in_one_session(self):
        with Session({number: Bin(10, 10) for number in range(120)}) as session:
            packings = self.run_all(lambda _: session.pack(BOXES, tries=1000, turn="flat"))
            standing = session.outstanding()
            self.assertEqual(len(standing), 4 * len(BOXES))
            self.assertEqual(sorted((it for packing in packings for it in packing), key=lambda it: it.number), standing)

    def test_another_thread_waits_and_others_go_on(self):
        with Session(BINS) as session:
            begun, ended = threading.Event(), []

            def progress(it):
                begun.set()
                return time.monotonic() < end

            end = time.monotonic() + 0.5
            searching = threading.Thread(target=lambda: ended.append(session.pack(BOXES, tries=10**12, progress=progress)))
            searching.start()
            begun.wait()
            # A packing of no session does not wait.
            pack([Bin(1, 1)], [Box(1, 1)])
            self.assertEqual(ended, [])
            self.assertEqual(len(session.outstanding()), len(BOXES))
            searching.join()


if __name__ == "__main__":
    unittest.main()
