#!/usr/bin/env python3
"""Packings as they are told: what is placed, what is left, and each refusal."""
import pickle
import random
import unittest
from collections import Counter
from unittest import mock

import rectangle_pack
from rectangle_pack import (
    Bin, Box, EqualGroups, FaultKind, Left, NumbersUsedUp, OutOfMemory, Session, Step, StepRefused, TooMany, UnknownBox,
    UnknownGroup, UnknownHeuristic, check, pack, pack_told,
)

from . import model
from .test_heuristics import Case, drawn_bins
from .test_partial_refusals import state

PAGES = {"page": Bin(4, 4), "next": Bin(4, 4)}

# The hat and the cap are a group, the boot and the pin are alone.
BOXES = {"hat": Box(4, 2, group="hats"), "cap": Box(2, 1), "boot": Box(4, 3), "pin": Box(1, 1)}
GROUPS = {"hats": ["cap"], "lost": []}

# What can be told to either call: (steps, which step is refused, why).
REFUSED = [
    ([("hats", "attic")], 0, "unknown bin"),
    ([("pin", "next"), ("hats", 0), ("boot", "attic")], 1, "unknown bin"),
    ([("pin", "next"), Step("hats", "page", copy=1)], 1, "unknown bin"),
    ([("hats", "page"), ("pin", "page"), ("hats", "next")], 2, "named twice"),
    ([("hats", "page"), ("hat", "page")], 1, "named twice"),
    ([("pin", "page"), ("pin", "page")], 1, "named twice"),
    # Of what is wrong with a step the first is told.
    ([("pin", "page"), ("pin", "attic")], 1, "unknown bin"),
    ([("hats", "page"), ("boot", "page")], 1, "no room"),
    ([("boot", "next"), ("hats", "next"), ("pin", "attic")], 1, "no room"),
]


def told(steps, **more):
    return pack_told(PAGES, BOXES, steps, groups=GROUPS, **more)


def places(packing):
    return {it.name: (it.bin, it.x, it.y) for it in packing}


class ByHand(unittest.TestCase):
    def test_each_goes_where_it_is_told(self):
        # The hat leaves 4x2 above it, and the cap stands in the corner of that.
        packing = told([("pin", "next"), ("hats", "page")])
        self.assertEqual(places(packing), {"hat": ("page", 0, 0), "cap": ("page", 0, 2), "pin": ("next", 0, 0)})
        self.assertEqual((packing.left, packing.heuristic), ((Left("boot", None),), None))
        self.assertEqual([it.group for it in packing], ["hats", "hats", None])
        self.assertEqual((packing.used, packing.least, packing.optimal), (2, 2, False))

    def test_the_order_is_that_of_the_steps(self):
        # By volume the boot would go first. The pin is told first, and takes the corner of it.
        self.assertEqual(places(told([("pin", "page"), ("boot", "next")]))["pin"], ("page", 0, 0))
        packing = told([("boot", "page"), ("pin", "page"), ("hats", "next")])
        self.assertEqual(places(packing), {
            "boot": ("page", 0, 0), "pin": ("page", 0, 3), "hat": ("next", 0, 0), "cap": ("next", 0, 2)})
        # 8 + 2 + 12 + 1 cells need two pages of 16.
        self.assertEqual((packing.left, packing.used, packing.least, packing.optimal), ((), 2, 2, True))

    def test_names(self):
        # A group is named by itself, or by a box that is in no other one.
        for name in ("hats", "hat", "cap"):
            self.assertEqual({it.name for it in told([(name, "page")])}, {"hat", "cap"})
        packing = pack_told([Bin(4, 4)], [Box(1, 1), Box(2, 2)], [(1, 0), [0, 0]])
        self.assertEqual([(it.name, it.x, it.y) for it in packing], [(0, 2, 0), (1, 0, 0)])

    def test_a_box_of_several_groups(self):
        groups = {"food": ["rope"], "paint": ["rope", "rope"]}
        packing = pack_told(PAGES, {"rope": Box(1, 1)}, [("paint", "next")], groups=groups)
        self.assertEqual([(it.group, it.bin) for it in packing], [("paint", "next")] * 2)
        self.assertEqual(packing.left, (Left("rope", "food"),))
        with self.assertRaises(ValueError) as refused:
            pack_told(PAGES, {"rope": Box(1, 1)}, [("food", "page"), ("rope", "next")], groups=groups)
        self.assertEqual(str(refused.exception), "steps[1]: 'rope' may mean several groups: take a name that only one of them has")

    def test_heuristics(self):
        # 2x4 leaves 8x10 beside it and 2x6 above it, or 8x4 and 10x6. By volume 2x6 is the smallest, by height 8x4.
        boxes, groups = {"post": Box(2, 4), "beam": Box(10, 6)}, {"all": ["post", "beam"]}
        packing = pack_told([Bin(10, 10)], boxes, [("all", 0, "height")], groups=groups)
        self.assertEqual(places(packing), {"post": (0, 0, 0), "beam": (0, 0, 4)})
        with self.assertRaises(StepRefused):
            pack_told([Bin(10, 10)], boxes, [("all", 0)], groups=groups)

    def test_several_bins_of_one_name(self):
        for count in (2, None):
            steps = [Step("boot", "page", copy=1), Step("hats", "page", "volume", 0), ("pin", "page")]
            packing = pack_told({"page": Bin(4, 4, count=count)}, BOXES, steps, groups=GROUPS)
            self.assertEqual({it.name: it.copy for it in packing}, {"hat": 0, "cap": 0, "boot": 1, "pin": 0})
            self.assertIsNone(check({"page": Bin(4, 4, count=count)}, BOXES, packing, groups=GROUPS))
            self.assertTrue(packing.optimal)

    def test_nothing_is_told(self):
        packing = told([])
        self.assertEqual((len(packing), [it.name for it in packing.left]), (0, list(BOXES)))
        self.assertEqual(pack_told({}, {}, []).placements, ())


class Refused(unittest.TestCase):
    def judge(self, error, steps, index, reason):
        self.assertEqual((error.index, error.step, error.reason), (index, Step(*steps[index]), reason))
        again = pickle.loads(pickle.dumps(error))
        self.assertEqual((str(again), again.args), (str(error), error.args))

    def test_steps(self):
        for steps, index, reason in REFUSED:
            with self.assertRaises(StepRefused) as refused:
                told(steps)
            self.judge(refused.exception, steps, index, reason)

    def test_excluded_groups(self):
        steps, more = [("food", "page"), ("paint", "next"), ("rope", "next")], {"exclude": [("paint", "food")]}
        boxes = {"milk": Box(1, 1, group="food"), "tin": Box(1, 1, group="paint"), "rope": Box(1, 1)}
        self.assertEqual(len(pack_told(PAGES, boxes, steps, **more)), 3)
        steps[1] = ("paint", "page")
        with self.assertRaises(StepRefused) as refused:
            pack_told(PAGES, boxes, steps, **more)
        self.judge(refused.exception, steps, 1, "excluded")

    def test_texts(self):
        texts = {
            "unknown bin": "there is no such bin", "named twice": "an earlier step names the group",
            "excluded": "a group that is excluded with it went into the bin",
            "no room": "the bin does not take all of its boxes, as the steps before left it",
        }
        for reason, text in texts.items():
            error = StepRefused(3, Step("hats", "page"), reason)
            self.assertEqual(str(error), f"A step cannot be done: steps[3], 'hats' into bin 'page': {text}")
        error = StepRefused(0, Step(1, 2, copy=4), "no room")
        self.assertTrue(str(error).startswith("A step cannot be done: steps[0], 1 into bin 2 (copy 4): "))

    def test_before_the_library_is_called(self):
        wrong = [
            ([("wig", "page")], {}, UnknownGroup, "There is no such group: 'wig'"),
            ([("pin", "page"), ("lost", "page")], {}, ValueError, "steps[1]: group 'lost' has no boxes"),
            ([("pin", "page", "best")], {}, UnknownHeuristic, "There is no such heuristic: 'best'"),
            ([("pin", "page", "weight")], {}, UnknownHeuristic, "There is no such heuristic: 'weight'"),
            (["pin"], {}, TypeError, "steps[0]: 'pin' is no step: write ('hats', 'page')"),
            ([("pin",)], {}, TypeError, "steps[0]: ('pin',) is no step: write ('hats', 'page')"),
            ([("pin", "page", "height", 0, 0)], {}, TypeError,
             "steps[0]: ('pin', 'page', 'height', 0, 0) is no step: write ('hats', 'page')"),
            ([7], {}, TypeError, "steps[0]: 7 is no step: write ('hats', 'page')"),
            ("pin", {}, TypeError, "'pin' has no steps: write [('hats', 'page')]"),
            ([([], "page")], {}, TypeError, "steps[0]: [] cannot be a name"),
            ([Step("pin", "page", copy=-1)], {}, ValueError, "steps[0]: copy -1 is not a number from 0 to 4294967295"),
            ([], {"exclude": [("hats", "hats")]}, EqualGroups, "A group is excluded with itself: 'hats'"),
        ]
        for steps, more, error, text in wrong:
            with mock.patch.object(rectangle_pack._library, "call") as call, self.assertRaises(error) as refused:
                told(steps, **more)
            call.assert_not_called()
            self.assertEqual((type(refused.exception), str(refused.exception)), (error, text))
        with self.assertRaises(UnknownBox):
            pack_told(PAGES, BOXES, [], groups={"hats": ["wig"]})

    def test_statuses(self):
        for status, error in ((2, OutOfMemory), (3, TooMany)):
            with mock.patch.object(rectangle_pack._library, "call", return_value=status), self.assertRaises(error):
                told([])


class Sessions(unittest.TestCase):
    def test_what_is_told_is_outstanding(self):
        with Session(PAGES) as session:
            session.pack([Box(4, 1)])
            packing = session.pack_told(BOXES, [("pin", "next"), ("boot", "page")], groups=GROUPS)
            self.assertEqual([(it.name, it.bin, it.x, it.y, it.number) for it in packing],
                             [("boot", "page", 0, 1, 2), ("pin", "next", 0, 0, 1)])
            self.assertEqual(packing.left, (Left("hat", "hats"), Left("cap", "hats")))
            self.assertEqual(session.outstanding()[1:], [packing["pin"], packing["boot"]])
            self.assertEqual([it.name for it in session.outstanding_in("next")], ["pin"])
            self.assertEqual((packing.used, packing.least), (2, 2))

    def test_what_is_refused_leaves_it_as_it_was(self):
        with Session(PAGES) as session:
            before = state(session)
            for steps, index, reason in REFUSED:
                with self.assertRaises(StepRefused) as refused:
                    session.pack_told(BOXES, steps, groups=GROUPS)
                Refused.judge(self, refused.exception, steps, index, reason)
            for error, steps in ((UnknownGroup, [("wig", "page")]), (TypeError, ["pin"])):
                with self.assertRaises(error):
                    session.pack_told(BOXES, steps)
            with mock.patch.object(rectangle_pack._library, "call", return_value=7), self.assertRaises(NumbersUsedUp):
                session.pack_told(BOXES, [])
            self.assertEqual((state(session), session._boxes), (before, {}))
        with self.assertRaisesRegex(ValueError, "the session is closed"):
            session.pack_told(BOXES, [])


class Drawn(unittest.TestCase):
    def test_beside_the_rule(self):
        r, counts = random.Random(41), Counter()
        for _ in range(600):
            flat, side, sizes = drawn_bins(r)
            # In few bins that are larger less is refused for want of room, and more for pairs that are excluded.
            case, sizes = Case(r, flat, side), [(2 * width, 3 * height, depth) for width, height, depth in sizes[:2]]
            # As they are named: groups, and boxes that are alone.
            names = list(dict.fromkeys(name if group is None else group for name, group in case.labels))
            steps = [Step(name, r.randrange(len(sizes)), r.choice(list(model.RATES))) for name in names if r.random() < 0.7]
            r.shuffle(steps)
            expected = told_by_model(case, model.Bins(sizes), steps)
            try:
                packing = pack_told([Bin(*size) for size in sizes], case.boxes, steps, groups=case.groups, exclude=case.exclude)
            except StepRefused as error:
                self.assertEqual((error.index, error.reason), expected)
                counts[error.reason] += 1
            else:
                found = {(it.name, it.group, it.bin, *it.section[:3]) for it in packing}
                self.assertEqual(found, expected)
                with Session([Bin(*size) for size in sizes]) as session:
                    told = session.pack_told(case.boxes, steps, groups=case.groups, exclude=case.exclude)
                    self.assertEqual({(it.name, it.group, it.bin, *it.section[:3]) for it in session.outstanding()}, expected)
                    self.assertEqual((told.left, told.used, told.least), (packing.left, packing.used, packing.least))
                fault = check([Bin(*size) for size in sizes], case.boxes, packing, groups=case.groups, exclude=case.exclude)
                self.assertEqual(fault and (fault.kind, fault.box, fault.group),
                                 (FaultKind.not_placed, *packing.left[0]) if packing.left else None)
                counts["done"] += 1
        self.assertGreater(min(counts[it] for it in ("done", "no room", "excluded")), 20, counts)


def told_by_model(case, bins, steps):
    """Where the boxes stand, or which step is refused and why."""
    stands, homes, pairs = set(), {}, {*case.exclude, *((other, one) for one, other in case.exclude)}
    for index, step in enumerate(steps):
        own = [at for at, (name, group) in enumerate(case.labels) if step.group == (name if group is None else group)]
        group = case.labels[own[0]][1]
        if any(home == step.bin and (group, other) in pairs for other, home in homes.items() if group is not None):
            return index, "excluded"
        done = model.place_all(bins.free[step.bin], [case.entries[at][0] for at in own], model.RATES[step.heuristic])
        if done is None:
            return index, "no room"
        corners, bins.free[step.bin] = done
        stands |= {(*case.labels[at], step.bin, *corner) for at, corner in zip(own, corners)}
        if group is not None:
            homes[group] = step.bin
    return stands


if __name__ == "__main__":
    unittest.main()
