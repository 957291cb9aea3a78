#!/usr/bin/env python3
"""What is refused where only what fits is asked for, and that a session is as it was then."""
import unittest
from unittest import mock

import rectangle_pack
from rectangle_pack import (
    Bin, Box, EqualGroups, NumbersUsedUp, OutOfMemory, Session, TooMany, UnknownBox, UnknownGroup, UnknownHeuristic, pack,
)

BINS = {"page": Bin(4, 4), "next": Bin(4, 4)}

# The cap is left in any case.
BOXES = {"hat": Box(4, 3, group="hats"), "cap": Box(5, 1), "pin": Box(1, 1)}

WRONG = [
    (UnknownHeuristic, {"heuristic": "weight"}),
    (UnknownHeuristic, {"heuristic": []}),
    (UnknownBox, {"groups": {"hats": ["scarf"]}}),
    (UnknownGroup, {"exclude": [("hats", "shoes")]}),
    (EqualGroups, {"exclude": [("hats", "hats")]}),
    (TypeError, {"groups": {"hats": "cap"}}),
    (TypeError, {"exclude": ["hats"]}),
    (ValueError, {"groups": {None: ["cap"]}}),
]

WRONG_BOXES = [(ValueError, Box(-1, 2)), (ValueError, Box(1, 2**32)), (TypeError, Box(1.5, 2)), (TypeError, 3)]


def state(session):
    """All that is read of a session."""
    return [(bin, session.free_sections(bin)) for bin in session.bins()], session.outstanding(), session.next_number()


class Refused(unittest.TestCase):
    def test_before_the_library_is_called(self):
        for error, arguments in WRONG:
            with mock.patch.object(rectangle_pack._library, "call") as call, self.assertRaises(error) as refused:
                pack(BINS, BOXES, partial=True, **arguments)
            call.assert_not_called()
            self.assertIs(type(refused.exception), error)
        for error, box in WRONG_BOXES:
            with mock.patch.object(rectangle_pack._library, "call") as call, self.assertRaises(error):
                pack(BINS, {**BOXES, "wrong": box}, partial=True)
            call.assert_not_called()

    def test_a_session_is_as_it_was(self):
        with Session(BINS) as session:
            session.pack({"first": Box(2, 2)})
            before, names = state(session), dict(session._boxes)
            for error, arguments in WRONG:
                with self.assertRaises(error):
                    session.pack(BOXES, partial=True, **arguments)
            for error, box in WRONG_BOXES:
                with self.assertRaises(error):
                    session.pack({**BOXES, "wrong": box}, partial=True)
            for status, error in ((2, OutOfMemory), (3, TooMany), (7, NumbersUsedUp)):
                with mock.patch.object(rectangle_pack._library, "call", return_value=status), self.assertRaises(error):
                    session.pack(BOXES, partial=True)
            self.assertEqual((state(session), session._boxes), (before, names))
            # The hat finds three rows only on the next page, and the pin goes beside the first box.
            packing = session.pack(BOXES, partial=True)
            self.assertEqual([(it.name, it.bin, it.number) for it in packing], [("hat", "next", 1), ("pin", "page", 2)])

    def test_what_the_library_answers_is_raised(self):
        for status, error in ((2, OutOfMemory), (3, TooMany)):
            with mock.patch.object(rectangle_pack._library, "call", return_value=status), self.assertRaises(error):
                pack(BINS, BOXES, partial=True)

    def test_a_session_that_is_closed(self):
        session = Session(BINS)
        session.close()
        for boxes in (BOXES, {"hat": Box(1, 1)}, {}):
            with self.assertRaisesRegex(ValueError, "the session is closed"):
                session.pack(boxes, partial=True)

    def test_it_is_named(self):
        with self.assertRaises(TypeError):
            pack(BINS, BOXES, True)
        with Session(BINS) as session, self.assertRaises(TypeError):
            session.pack(BOXES, True)


class Called(unittest.TestCase):
    def test_which_call_is_made(self):
        call = rectangle_pack._library.call
        with Session(BINS) as session, mock.patch.object(rectangle_pack._library, "call", side_effect=call) as called:
            pack(BINS, [Box(1, 1)])
            pack(BINS, [Box(1, 1)], partial=True)
            session.pack([Box(1, 1)])
            session.pack([Box(1, 1)] * 2)
            session.pack([Box(1, 1)], partial=True)
            session.pack([Box(1, 1)] * 2, partial=True)
            names = [it.args[0] for it in called.call_args_list]
        one, other = "session_pack_collection", "session_pack_fitting"
        self.assertEqual(names, ["collection", "fitting", one, one, other, other])


if __name__ == "__main__":
    unittest.main()
