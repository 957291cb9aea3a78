#!/usr/bin/env python3
"""Numbers that go to the library and come back in rows, and the shorter way of a box that is packed alone."""
import ctypes
import enum
import random
import unittest
from unittest import mock

import rectangle_pack
from rectangle_pack import Bin, Box, NotEnoughBinSpace, Section, Session, _library, pack


class Rows(unittest.TestCase):
    def test_a_row_is_as_long_as_its_structure(self):
        kinds = [it for it in vars(_library).values() if isinstance(it, type) and issubclass(it, ctypes.Structure)]
        self.assertGreater(len(kinds), 10)
        for kind in kinds:
            self.assertEqual(_library.row_of(kind).size, ctypes.sizeof(kind), kind)

    def test_numbers_stand_in_their_fields(self):
        rows = [(2**64 - 1, 1, 2, 3, 4, 5, 6, 7, 8), (9, 10, 11, 12, 13, 14, 15, 16, 17)]
        first = _library.listed(_library.RpStanding, rows)
        second = first[1]
        self.assertEqual((first.contents.number, first.contents.index, first.contents.section.depth), (2**64 - 1, 1, 8))
        self.assertEqual((second.number, second.bin, second.section.x, second.section.depth), (9, 11, 12, 17))
        # An empty list has an entry too.
        self.assertEqual(_library.listed(_library.RpBin, []).contents.width, 0)

    def test_what_a_call_writes_is_read(self):
        room, first = _library.room_of(_library.RpOutstanding, 2)
        second = ctypes.cast(ctypes.pointer(first), ctypes.POINTER(_library.RpOutstanding))[1]
        first.number, second.number, second.placement.z = 7, 2**64 - 1, 5
        self.assertEqual([*_library.row_of(_library.RpOutstanding).iter_unpack(room)], [(7, 0, 0, 0, 0), (2**64 - 1, 0, 0, 0, 5)])


class OneBox(unittest.TestCase):
    def test_a_box_that_is_packed_alone_stands_as_it_does_with_others(self):
        # The second call takes the way of many boxes, as it names a group.
        one, other = Session([Bin(40, 40, 9)]), Session([Bin(40, 40, 9)])
        with one, other:
            r = random.Random(9)
            for name in range(60):
                box, heuristic = Box(*(r.randint(1, 6) for _ in range(3))), r.choice(["volume", "height", "best"])
                placed = one.pack({name: box}, heuristic=heuristic)
                beside = other.pack({name: box}, groups={"none": []}, heuristic=heuristic)
                self.assertEqual(placed, beside)
                self.assertEqual(placed[name], beside.placements[0])
                self.assertRaises(KeyError, lambda: placed["other"])
                if r.random() < 0.4:
                    one.release(placed[name].number)
                    other.release(placed[name].number)
            self.assertEqual(one.outstanding(), other.outstanding())
            self.assertEqual(one.free_sections(0), other.free_sections(0))
            self.assertEqual(one._boxes, other._boxes)
            for session in (one, other):
                self.assertRaises(NotEnoughBinSpace, session.pack, {"large": Box(41, 1)})

    def test_a_call_may_come_in_the_midst_of_another_one_of_its_thread(self):
        # As that of a finalizer, which runs where it likes: here it comes before the library is called.
        call, waiting = rectangle_pack._library.call, [Box(3, 1)]

        def interrupted(name, *arguments):
            if waiting and name == "session_pack_collection":
                inner.append(session.pack({"inner": waiting.pop()})["inner"])
            return call(name, *arguments)

        inner = []
        with Session([Bin(9, 1)]) as session, mock.patch.object(rectangle_pack._library, "call", interrupted):
            session.pack({"first": Box(1, 1)})
            self.assertEqual([(it.name, it.x, it.width, it.number) for it in inner], [("inner", 0, 3, 0)])
            self.assertEqual([(it.name, it.x, it.width) for it in session.outstanding()], [("inner", 0, 3), ("first", 3, 1)])
            waiting.append(Box(2, 1))
            self.assertEqual(session.pack([Box(1, 1)])[0].section, Section(6, 0, 0, 1, 1, 1))
            self.assertEqual((inner[1].x, inner[1].width), (4, 2))

    def test_numbers_of_other_kinds_of_int(self):
        class Side(enum.IntEnum):
            SMALL = 2

        self.assertEqual([it.x for it in pack([Bin(4, 1)], [Box(Side.SMALL, 1), Box(2, 1)])], [0, 2])
        with Session([Bin(4, 1)]) as session:
            self.assertEqual([session.pack([Box(Side.SMALL, 1)])[0].x for _ in range(2)], [0, 2])


if __name__ == "__main__":
    unittest.main()
