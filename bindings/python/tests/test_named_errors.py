#!/usr/bin/env python3
"""Errors that name the box, the bin or the group, and what is wrong with it."""
import unittest
from unittest import mock

import rectangle_pack
from rectangle_pack import Bin, Box, Section, Session, UnknownGroup, check, pack


class Numbers(unittest.TestCase):
    def test_what_is_packed(self):
        boxes = {("sprite", number): Box(2, 2) for number in range(2000)}
        cases = [
            (ValueError, {}, {**boxes, "hat": Box(-1, 2)}, "box 'hat': width -1 is not a number from 0 to 4294967295"),
            (ValueError, {}, {"hat": Box(2, 2**32)}, "box 'hat': height 4294967296 is not a number from 0 to 4294967295"),
            (TypeError, {}, [Box(1, 1), (1, 1, 0.5)], "box 1: depth 0.5 is not a whole number"),
            (TypeError, {}, {"hat": Box(True, 1)}, "box 'hat': width True is not a whole number"),
            (ValueError, {"page": Bin(1, 1), "next": Bin(1, -3)}, [], "bin 'next': height -3 is not a number from 0 to 4294967295"),
            (TypeError, [Bin("64", 64)], [], "bin 0: width '64' is not a whole number"),
            # Of several the first box is told, and of it the first field.
            (ValueError, {}, {"a": Box(1, -1), "b": Box(-1, -1)}, "box 'a': height -1 is not a number from 0 to 4294967295"),
        ]
        for error, bins, boxes, text in cases:
            with self.assertRaises(error) as refused:
                pack(bins, boxes)
            self.assertEqual(str(refused.exception), text)
            with self.assertRaises(error) as refused, Session(bins) as session:
                session.pack(boxes)
            self.assertEqual(str(refused.exception), text)

    def test_what_is_no_bin_or_box_is_named(self):
        cases = [
            ({"page": 64}, [], "bin 'page': 64 is no bin: write Bin(width, height)"),
            ([Bin(1, 1), (1,)], [], "bin 1: (1,) is no bin: write Bin(width, height)"),
            ([], {"hat": (1,)}, "box 'hat': (1,) is no box: write Box(width, height)"),
            ([], {"hat": None, "cap": Box(1, 1)}, "box 'hat': None is no box: write Box(width, height)"),
        ]
        for bins, boxes, text in cases:
            for call in (lambda: pack(bins, boxes), lambda: Session(bins).pack(boxes)):
                with self.assertRaises(TypeError) as refused:
                    call()
                self.assertEqual(str(refused.exception), text)

    def test_calls_of_a_session(self):
        section = Section(0, 0, 0, 1, 1, 1)
        with Session({"bin": Bin(1, 1)}) as session:
            cases = [
                (lambda: session.add_bin("new", 1, -1), "bin 'new': height -1 is not a number from 0 to 4294967295"),
                (lambda: session.grow_bin("bin", "x", -2), "bin 'bin': by -2 is not a number from 0 to 4294967295"),
                (lambda: session.place_at("bin", "hat", section._replace(y=-3)), "box 'hat': y -3 is not a number from 0 to 4294967295"),
                (lambda: session.place_best("hat", 1, 1, 2**32), "box 'hat': depth 4294967296 is not a number from 0 to 4294967295"),
                (lambda: session.release(-4), "placement -4 is not a number from 0 to 18446744073709551615"),
                (lambda: session.release_all([0, 2**64]), "placement 18446744073709551616 is not a number from 0 to 18446744073709551615"),
                (lambda: session.coalesce("bin", 0, -5, 0), "bin 'bin': start -5 is not a number from 0 to 18446744073709551615"),
                (lambda: session.coalesce("bin", 0, 0, 0.5), "bin 'bin': end 0.5 is not a whole number"),
                (lambda: session.release("hat"), "placement 'hat' is not a whole number"),
            ]
            for call, text in cases:
                with self.assertRaises((ValueError, TypeError)) as refused:
                    call()
                self.assertEqual(str(refused.exception), text)


class Groups(unittest.TestCase):
    def test_a_text_is_no_list_of_names(self):
        # Each letter would be a box, and so would each number of the bytes.
        cases = [
            ({"groups": {"g": "ab"}}, "group 'g': 'ab' is no list of boxes: write ['ab']"),
            ({"groups": {"h": ["a"], "g": ""}}, "group 'g': '' is no list of boxes: write ['']"),
            ({"groups": {"g": b"ab"}}, "group 'g': b'ab' is no list of boxes: write [b'ab']"),
            ({"groups": {"g": 97}}, "group 'g': 97 is no list of boxes: write [97]"),
            ({"groups": ["ab"]}, "group 0: 'ab' is no list of boxes: write ['ab']"),
            ({"groups": "ab"}, "'ab' has no groups: write groups={'hats': ['hat', 'cap']}"),
            ({"exclude": ["ab"]}, "'ab' is no pair of groups: write exclude=[('food', 'paint')]"),
            ({"exclude": ("food", "paint")}, "'food' is no pair of groups: write exclude=[('food', 'paint')]"),
            ({"exclude": "ab"}, "'a' is no pair of groups: write exclude=[('food', 'paint')]"),
            ({"exclude": [("a", "b", "c")]}, "('a', 'b', 'c') is no pair of groups: write exclude=[('food', 'paint')]"),
            ({"exclude": [7]}, "7 is no pair of groups: write exclude=[('food', 'paint')]"),
        ]
        boxes = {"a": Box(1, 1, group="a"), "b": Box(1, 1, group="b"), 97: Box(1, 1), 98: Box(1, 1)}
        for arguments, text in cases:
            for call in (pack, lambda bins, boxes, **more: Session(bins).pack(boxes, **more),
                         lambda bins, boxes, **more: check(bins, boxes, [], **more)):
                with self.assertRaises(TypeError) as refused:
                    call([Bin(9, 9)], boxes, **arguments)
                self.assertEqual(str(refused.exception), text)

    def test_what_no_dict_takes_is_no_name(self):
        with self.assertRaises(TypeError) as refused:
            pack([Bin(1, 1)], {"hat": Box(1, 1), "cap": Box(1, 1, group=["hats"])})
        self.assertEqual(str(refused.exception), "box 'cap': group ['hats'] cannot be a name: unhashable type: 'list'")

    def test_a_group_that_nothing_names_is_not_excluded(self):
        bins = {"first": Bin(10, 10), "second": Bin(10, 10)}
        boxes = {"milk": Box(2, 2, group="food"), "paint": Box(1, 1)}
        for pair in (("food", "pioson"), ("pioson", "food")):
            with mock.patch.object(rectangle_pack._library, "call") as call, self.assertRaises(UnknownGroup) as refused:
                pack(bins, boxes, groups={"poison": ["paint"]}, exclude=[("food", "poison"), pair])
            call.assert_not_called()
            self.assertIsInstance(refused.exception, ValueError)
            self.assertEqual(str(refused.exception), "There is no such group: 'pioson'")
        with Session(bins) as session, self.assertRaises(UnknownGroup):
            session.pack(boxes, exclude=[("food", "paint")])


if __name__ == "__main__":
    unittest.main()
