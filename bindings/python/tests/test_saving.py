#!/usr/bin/env python3
"""Sessions that are saved to a file: they go on as before, and what is no session is refused."""
import json
import os
import random
import tempfile
import unittest
from pathlib import Path
from unittest import mock

from rectangle_pack import Bin, Box, NotASession, NotEnoughBinSpace, NotFromCuts, Section, Session

# Four boxes round a free middle, which no straight cuts part.
PINWHEEL = [(0, 0, 2, 1), (2, 0, 1, 2), (1, 2, 2, 1), (0, 1, 1, 2)]


def state(session):
    """All that can be read of a session."""
    bins = [
        (name, session.stats(name), session.free_sections(name), session.was_coalesced(name), session.cut_plan(name))
        for name in session.bins()]
    return bins, session.outstanding(), session.next_number()


def go_on(session, dice):
    """Some calls as the dice have them, and what they answer."""
    answers = []
    for _ in range(8):
        name, numbers = dice.choice(session.bins()), [it.number for it in session.outstanding()]
        call = dice.randrange(5)
        if call < 2:
            boxes = [Box(dice.randint(0, 5), dice.randint(1, 5), dice.randint(1, 2)) for _ in range(dice.randint(1, 3))]
            try:
                answers.append(session.pack(boxes, groups={"all": range(len(boxes))}))
            except NotEnoughBinSpace:
                answers.append(None)
        elif call == 2 and numbers:
            session.release(dice.choice(numbers))
        elif call == 3:
            session.coalesce_all(name)
        elif call == 4:
            try:
                session.recut(name)
            except NotFromCuts:
                answers.append("no cuts")
    return answers


class InFiles(unittest.TestCase):
    def setUp(self):
        folder = tempfile.TemporaryDirectory()
        self.addCleanup(folder.cleanup)
        self.path = Path(folder.name, "atlas.json")


class Saved(InFiles):
    def test_a_session_is_read_as_it_was_and_goes_on_alike(self):
        for seed in range(60):
            dice = random.Random(seed)
            with Session({"a": Bin(10, 9, 2), ("b", 2): Bin(7, 7), 3: Bin(0, 4)}) as session:
                go_on(session, dice)
                session.save(self.path)
                with Session.load(self.path) as again:
                    self.assertEqual(state(again), state(session))
                    self.assertEqual(go_on(again, random.Random(seed)), go_on(session, random.Random(seed)))
                    self.assertEqual(state(again), state(session))
                    again.add_bin("later", 3, 3)
                    self.assertEqual(again.bins()[-1], "later")

    def test_names_of_boxes_and_groups_are_kept(self):
        with Session([Bin(9, 9)]) as session:
            session.pack({"hat": Box(1, 1, group=("head", None)), 7: Box(2, 2), (1, (True, "ü")): Box(1, 2)})
            session.save(self.path)
            with Session.load(str(self.path)) as again:
                self.assertEqual(again.outstanding(), session.outstanding())
                self.assertEqual({it.group for it in again.outstanding()}, {("head", None), None})

    def test_bins_that_were_removed_leave_no_gap(self):
        with Session({"a": Bin(1, 1), "b": Bin(2, 2), "c": Bin(3, 3)}) as session:
            session.remove_bin("b")
            session.place_at("c", "knot", Section(1, 1, 0, 1, 1, 1))
            session.save(self.path)
            with Session.load(self.path) as again:
                self.assertEqual(state(again), state(session))

    def test_an_empty_session_is_one(self):
        with Session() as session:
            session.save(self.path)
        with Session.load(self.path) as again:
            self.assertEqual(state(again), ([], [], 0))

    def test_a_name_that_no_file_has_is_refused_before_one_is_written(self):
        with Session([Bin(2, 2)]) as session:
            session.pack({1.5: Box(1, 1)})
            with self.assertRaisesRegex(TypeError, r"a name that cannot be saved: 1\.5"):
                session.save(self.path)
        self.assertEqual(os.listdir(self.path.parent), [])

    def test_a_file_that_cannot_be_written_stays_as_it_was(self):
        self.path.write_text("old")
        with Session([Bin(2, 2)]) as session, mock.patch("os.replace", side_effect=OSError("full")):
            with self.assertRaisesRegex(OSError, "full"):
                session.save(self.path)
        self.assertEqual(os.listdir(self.path.parent), ["atlas.json"])
        self.assertEqual(self.path.read_text(), "old")


class Refused(InFiles):
    def setUp(self):
        super().setUp()
        with Session({"sheet": Bin(10, 10), "other": Bin(3, 3)}) as session:
            session.pack({"hat": Box(4, 10), "cap": Box(2, 2)}, groups={"all": ["hat", "cap"]})
            session.save(self.path)
        self.whole = json.loads(self.path.read_text())

    def refusal(self):
        """Why the file is refused."""
        with self.assertRaises(NotASession) as caught:
            Session.load(self.path)
        return str(caught.exception)

    def with_changed(self, change):
        """Why the file is refused with a change."""
        whole = json.loads(json.dumps(self.whole))
        change(whole)
        self.path.write_text(json.dumps(whole))
        return self.refusal().removeprefix("This is no saved session: ")

    def test_the_file_is_what_the_changes_below_take_it_for(self):
        sheet, placements = self.whole["bins"][0], self.whole["placements"]
        self.assertEqual(sheet["name"], "sheet")
        # The cap leaves 4x2 beside it, so that the smallest piece is as small as can be.
        self.assertEqual(sheet["free"], [[4, 2, 0, 6, 8, 1], [6, 0, 0, 4, 2, 1]])
        self.assertEqual([it["at"] for it in placements], [[0, 0, 0, 4, 10, 1], [4, 0, 0, 2, 2, 1]])
        self.assertEqual(self.whole["next_number"], 2)
        Session.load(self.path).close()

    def test_numbers(self):
        cases = [
            (lambda it: it["placements"][1].update(number=0), "placements[1].number is not above that of an earlier one"),
            (lambda it: it["placements"].reverse(), "placements[1].number is not above that of an earlier one"),
            (lambda it: it.update(next_number=1), "placements[1].number is not below next_number"),
            (lambda it: it["placements"][0].update(bin=2), "placements[0].bin is that of no bin"),
        ]
        for change, why in cases:
            self.assertEqual(self.with_changed(change), why)

    def test_boxes_of_a_bin(self):
        def pinwheel(it):
            free = [[x, y, 0, width, height, 1] for x, y, width, height in [*PINWHEEL, (1, 1, 1, 1)]]
            it["bins"][1].update(free=free)

        cases = [
            (lambda it: it["bins"][0]["free"][0].__setitem__(0, 7), "bins[0].free[0] is not inside bins[0]"),
            (lambda it: it["placements"][0]["at"].__setitem__(4, 11), "placements[0] is not inside bins[0]"),
            (lambda it: it["bins"][0]["free"][1].__setitem__(4, 3), "bins[0].free[0] and bins[0].free[1] share a cell"),
            (lambda it: it["placements"][1]["at"].__setitem__(1, 1), "bins[0].free[0] and placements[1] share a cell"),
            (lambda it: it["bins"][1]["free"].clear(), "some cell of bins[1] is in none of its free sections and placements"),
            (lambda it: it["placements"].pop(), "some cell of bins[0] is in none of its free sections and placements"),
            (pinwheel, "bins[1] does not count as coalesced, and no straight cuts part it"),
        ]
        for change, why in cases:
            self.assertEqual(self.with_changed(change), why)

    def test_what_no_file_of_a_session_has(self):
        def deep(it):
            it["bins"][1]["name"] = "sheet"

        cases = [
            (deep, "bins[1].name is that of bins[0]"),
            (lambda it: it.update(version=2), "version 2, and only 1 is known"),
            (lambda it: it.update(rectangle_pack="plan"), 'rectangle_pack is not "session"'),
            (lambda it: it.pop("bins"), "has no bins"),
            (lambda it: it["bins"][1].pop("free"), "bins[1] has no free"),
            (lambda it: it["bins"][1].update(free=5), "bins[1].free is no list"),
            (lambda it: it["bins"][1]["free"][0].pop(), "bins[1].free[0] has not six numbers: a corner and a size"),
            (lambda it: it["bins"][1].update(width=1.5), "bins[1].width 1.5 is not a whole number"),
            (lambda it: it["bins"][1].update(width=2**32), "bins[1].width 4294967296 is not a number from 0 to 4294967295"),
            (lambda it: it["bins"][1].update(coalesced=0), "bins[1].coalesced is neither true nor false"),
            (lambda it: it["bins"][1].update(name={}), "bins[1].name is no name"),
            (lambda it: it["placements"][0].update(name=[1, 0.5]), "placements[0].name[1] is no name"),
        ]
        for change, why in cases:
            self.assertEqual(self.with_changed(change), why)

    def test_what_is_no_json(self):
        for data, why in ((b"{", "no JSON: "), (b"\xff", "no UTF-8"), (b"[" * 100_000, "")):
            self.path.write_bytes(data)
            self.assertTrue(self.refusal().startswith(f"This is no saved session: {why}"))
        with self.assertRaises(OSError):
            Session.load(self.path.parent / "none.json")


if __name__ == "__main__":
    unittest.main()
