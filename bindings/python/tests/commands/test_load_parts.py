"""The order of loading, on crates that were placed by hand; and the stacks that crates are made into."""
import random
import unittest
from itertools import combinations, permutations, product

# This comes first: it skips these tests where the library is not there.
from .test_load_base import LoadCase

from rectangle_pack.commands._common import NoRoom
from rectangle_pack.commands._load.job import FACES, Container, Job, Kind, Room, Standing, Turn, turns_of
from rectangle_pack.commands._load.order import NoOrder, in_order
from rectangle_pack.commands._load.stacks import stacks_of
from rectangle_pack.commands._load.ways import ORDERS, TURNINGS, WAYS, Way


def standing(name, low, high):
    """A crate from one corner to the other, each as x, y and z."""
    wide, tall, long = (end - start for start, end in zip(low, high))
    kind = Kind(0, name, "", 1, (long, wide, tall), (), 2)
    return Standing(kind, *low, Turn(wide, tall, long, "bottom"))


def names(crates):
    return [crate.kind.name for crate in crates]


def is_in_the_way(first, then):
    """Whether the second crate cannot be loaded once the first is in."""
    shares_x = first.x < then.right and then.x < first.right
    shares_y = first.y < then.top and then.y < first.top
    shares_z = first.z < then.front and then.z < first.front
    return shares_x and (shares_y and first.front > then.z or shares_z and first.y >= then.top)


def parted(draw, low, high, cuts):
    """Boxes that straight cuts leave of a room."""
    axes = [axis for axis in range(3) if high[axis] - low[axis] > 1]
    if not cuts or not axes:
        return [(low, high)]
    axis = draw.choice(axes)
    place = draw.randint(low[axis] + 1, high[axis] - 1)
    lower, upper = list(high), list(low)
    lower[axis] = upper[axis] = place
    return parted(draw, low, tuple(lower), cuts - 1) + parted(draw, tuple(upper), high, cuts - 1)


# A lies at the door, B on it reaches to the end wall, C stands there on B and beside it, and D before C and behind A.
RING = {"A": ((0, 0, 10), (2, 1, 11)), "B": ((0, 1, 0), (1, 2, 11)), "C": ((0, 2, 0), (2, 3, 1)), "D": ((1, 0, 1), (2, 3, 2))}


class Order(LoadCase):
    def test_what_can_be_next_goes_by_z_then_y_then_x(self):
        crates = [standing(f"{x}{y}{z}", (x, y, z), (x + 1, y + 1, z + 1)) for x, y, z in product(range(2), repeat=3)]
        for seed in range(5):
            random.Random(seed).shuffle(crates)
            self.assertEqual(names(in_order(crates)), ["000", "100", "010", "110", "001", "101", "011", "111"])

    def test_what_bears_goes_first_also_where_it_is_nearer_to_the_door(self):
        crates = [standing("long", (0, 1, 0), (1, 2, 9)), standing("door", (0, 0, 8), (1, 1, 9)),
                  standing("wall", (0, 0, 0), (1, 1, 1)), standing("beside", (1, 0, 4), (2, 1, 5))]
        self.assertEqual(names(in_order(crates)), ["wall", "beside", "door", "long"])

    def test_nothing_to_load(self):
        self.assertEqual(in_order([]), [])

    def test_a_ring_is_named(self):
        crates = [standing(name, *corners) for name, corners in RING.items()]
        # They share no cell, and yet each of them has to be loaded before another.
        for one, other in combinations(crates, 2):
            shares = [one.x < other.right and other.x < one.right, one.y < other.top and other.y < one.top,
                      one.z < other.front and other.z < one.front]
            self.assertFalse(all(shares))
        for first, then in zip("ABCD", "BCDA"):
            one, other = (standing(name, *RING[name]) for name in (first, then))
            self.assertTrue(is_in_the_way(other, one))
        with self.assertRaises(NoOrder) as refused:
            in_order([*crates, standing("free", (5, 0, 0), (6, 1, 1))])
        self.assertIsInstance(refused.exception, NoRoom)
        text = str(refused.exception)
        self.assertRegex(text, r"^there is no order in which these crates can be loaded: [^\n]*$")
        for name, (low, _) in RING.items():
            self.assertIn(f"{name!r} at {' '.join(map(str, low))}", text)
        self.assertNotIn("free", text)

    def test_without_one_of_the_ring_there_is_an_order(self):
        for gone in RING:
            crates = [standing(name, *corners) for name, corners in RING.items() if name != gone]
            ordered = in_order(crates)
            self.assertFalse(any(is_in_the_way(first, then) for first, then in combinations(ordered, 2)))

    def test_what_straight_cuts_part_always_has_an_order(self):
        for seed in range(200):
            draw = random.Random(seed)
            boxes = parted(draw, (0, 0, 0), (9, 9, 9), draw.randint(1, 6))
            crates = [standing(str(number), *box) for number, box in enumerate(boxes) if draw.random() < 0.9]
            ordered = in_order(crates)
            self.assertEqual(sorted(names(ordered)), sorted(names(crates)))
            self.assertFalse(any(is_in_the_way(first, then) for first, then in combinations(ordered, 2)))


class Turns(unittest.TestCase):
    def test_any_face_down_are_all_six_turns(self):
        turns = turns_of(3, 2, 1, FACES)
        self.assertEqual({turn[:3] for turn in turns}, set(permutations((1, 2, 3))))
        self.assertEqual(len(turns), 6)
        # What is upright is the height, the width and the length of the list.
        self.assertEqual({(turn.down, turn.high) for turn in turns}, {("bottom", 1), ("side", 2), ("end", 3)})

    def test_equal_turns_are_there_once(self):
        self.assertEqual(turns_of(2, 2, 2, FACES), (Turn(2, 2, 2, "bottom"),))
        self.assertEqual(len(turns_of(3, 2, 2, FACES)), 3)
        self.assertEqual([turn.down for turn in turns_of(2, 2, 2, ("end", "side"))], ["side"])

    def test_a_turn_fits_where_each_side_does(self):
        turn = Turn(1, 2, 3, "bottom")
        self.assertTrue(turn.fits(Room(1, 2, 3)))
        for room in (Room(0, 2, 3), Room(1, 1, 3), Room(1, 2, 2)):
            self.assertFalse(turn.fits(room))


def kind_of(index, sizes, count=1, *, customer="", faces=("bottom",), is_stackable=True, weight=0):
    return Kind(index, f"kind {index}", customer, count, sizes, turns_of(*sizes, faces), index + 2, is_stackable, weight)


def drawn_kinds(draw):
    for index in range(draw.randint(1, 12)):
        sizes = tuple(draw.randint(2, 9) for _ in range(3))
        yield kind_of(
            index, sizes, draw.randint(0, 6), customer=draw.choice("ABC") if draw.random() < 0.7 else "",
            faces=draw.choice((FACES, FACES[:1], FACES[1:])), is_stackable=draw.random() < 0.8, weight=draw.randint(0, 9))


def drawn_way(draw):
    names = draw.choice(list(TURNINGS)), draw.choice(list(ORDERS)), draw.choice(list(ORDERS))
    return Way(*names, *(draw.random() < 0.5 for _ in range(2)), draw.choice((0.0, 0.5)), draw.randint(0, 99))


class Stacks(unittest.TestCase):
    ROOM = Room(20, 22, 60)

    def stacks(self, kinds, way=WAYS[0], *, apart={}, together=False, payload=None):
        container = Container(0, "van", 9, self.ROOM, payload=payload)
        job = Job(tuple(kinds), (container,), apart, together)
        return stacks_of(job, [kind.count for kind in kinds], way, [container], self.ROOM.high)

    def test_each_crate_is_in_one_stack_and_stands_on_its_whole_bottom(self):
        for seed in range(200):
            draw = random.Random(seed)
            kinds = list(drawn_kinds(draw))
            stacks = self.stacks(kinds, drawn_way(draw))
            counts = [sum(it.kind is kind for stack in stacks for it in stack.crates) for kind in kinds]
            self.assertEqual(counts, [kind.count for kind in kinds])
            for stack in stacks:
                for it in stack.crates:
                    self.assertTrue(0 <= it.x and it.right <= stack.wide and it.front <= stack.long and it.top <= self.ROOM.high)
                    self.assertIn(it.turn, it.kind.turns)
                    below = [on for on in stack.crates if on.top == it.y and on.x < it.right and it.x < on.right
                             and on.z < it.front and it.z < on.front]
                    area = sum(
                        (min(on.right, it.right) - max(on.x, it.x)) * (min(on.front, it.front) - max(on.z, it.z)) for on in below)
                    self.assertTrue(not it.y or area == it.turn.wide * it.turn.long)
                    self.assertTrue(all(on.kind.is_stackable for on in below))

    def test_customers_that_are_apart_share_no_stack(self):
        apart = {"A": frozenset("B"), "B": frozenset("A")}
        mixed = 0
        for seed in range(100):
            draw = random.Random(seed)
            for stack in self.stacks(list(drawn_kinds(draw)), drawn_way(draw), apart=apart):
                self.assertFalse({"A", "B"} <= stack.customers)
                mixed += len(stack.customers) > 1
        self.assertGreater(mixed, 0)

    def test_customers_that_are_together_have_stacks_of_their_own(self):
        for seed in range(50):
            draw = random.Random(seed)
            for stack in self.stacks(list(drawn_kinds(draw)), drawn_way(draw), together=True):
                self.assertEqual(len({it.kind.customer for it in stack.crates}), 1)

    def test_no_stack_is_heavier_than_a_container_may_carry(self):
        for seed in range(100):
            draw = random.Random(seed)
            for stack in self.stacks(list(drawn_kinds(draw)), drawn_way(draw), payload=11):
                self.assertLessEqual(sum(it.kind.weight for it in stack.crates), 11)

    def test_a_stack_that_is_turned_about(self):
        stack, = self.stacks([kind_of(0, (8, 6, 5)), kind_of(1, (4, 3, 9))])
        turned = list(stack.at(10, 20, True))
        self.assertEqual({(it.x, it.y, it.z) for it in turned}, {(10, 0, 20), (10, 5, 20)})
        self.assertEqual(max(it.right for it in turned) - 10, stack.long)
        self.assertEqual(max(it.front for it in turned) - 20, stack.wide)
        self.assertTrue(all(it.turn in it.kind.turns for it in turned))


if __name__ == "__main__":
    unittest.main()
