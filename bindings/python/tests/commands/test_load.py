"""Loads whose answer is known: what fits, what it costs, who is with whom, and how crates are turned."""
import unittest
from math import prod

from .test_load_base import LoadCase, example
from .test_load_judge import faults_of, read

NAMES = "name,count,length,width,height"
BOX_20 = "20 ft,9,589.8,235.2,239.3"


def steps_of(answer):
    return [step for it in answer["containers"] for step in it["steps"]]


class Judged(LoadCase):
    def check(self, crates, containers, *words, apart=(), together=False):
        """A load without faults."""
        tables = self.crates(*crates), self.containers(*containers)
        answer = self.loaded(*tables, *words, *(word for pair in apart for word in ("--apart", ",".join(pair))),
                             *["--together"] * together)
        self.assertEqual(faults_of(*tables, answer, apart, together), [])
        return answer

    def kinds(self, answer):
        return [it["kind"] for it in answer["containers"]]


class Known(Judged):
    def test_eight_cubes_fill_a_cube(self):
        answer = self.check([NAMES, "cube,8,1,1,1"], [NAMES, "box,9,2,2,2"])
        self.assertEqual((self.kinds(answer), answer["filled"], answer["crates"]), (["box"], 100, 8))
        # From the end wall to the door, and at each place from below, from the left.
        corners = [(step["z"], step["y"], step["x"]) for step in steps_of(answer)]
        self.assertEqual(corners, sorted((z, y, x) for z in (0, 1) for y in (0, 1) for x in (0, 1)))

    def test_as_many_pallets_as_forwarders_count_with(self):
        # On the floor 11 stand in a container of 20 feet, 24 in one of 40 feet, 33 in a lorry of 13.6 m. Here two high.
        for room, pallets in ((BOX_20, 22), ("40 ft,9,1203.2,235.2,239.3", 48), ("lorry,9,1360,245,270", 66)):
            answer = self.check([NAMES, f"pallet,{pallets},120,80,110"], [NAMES, room])
            self.assertEqual(len(answer["containers"]), 1)

    def test_the_least_cost_is_taken(self):
        cubes = [NAMES, "cube,4,1,1,1"]
        head = f"{NAMES},cost"
        small = "small,9,2,1,1"
        self.assertEqual(self.kinds(self.check(cubes, [head, "large,1,4,1,1,100", f"{small},40"])), ["small", "small"])
        self.assertEqual(self.kinds(self.check(cubes, [head, "large,1,4,1,1,79.99", f"{small},40"])), ["large"])
        # At equal cost there are fewer; and of as many the smaller ones.
        self.assertEqual(self.kinds(self.check(cubes, [head, f"{small},40", "large,1,4,1,1,80"])), ["large"])
        self.assertEqual(self.kinds(self.check(cubes, [head, "huge,1,8,1,1,80", "large,1,4,1,1,80"])), ["large"])
        self.assertEqual(self.kinds(self.check(cubes, [head, f"{small},0", "large,1,4,1,1,0.01"])), ["small", "small"])

    def test_the_cost_of_several_kinds_is_the_least_together(self):
        # 11 cells: 8 and 3 cost 90, 8 and 8 cost 120, 3 four times 120.
        answer = self.check([NAMES, "cube,11,1,1,1"], [f"{NAMES},cost", "three,9,3,1,1,30", "eight,9,8,1,1,60"])
        self.assertEqual((sorted(self.kinds(answer)), answer["cost"]), (["eight", "three"], 90))

    def test_no_more_containers_are_taken_than_there_are(self):
        answer = self.check([NAMES, "cube,8,1,1,1"], [f"{NAMES},cost", "small,1,4,1,1,1", "large,1,8,1,1,10"])
        self.assertEqual(self.kinds(answer), ["large"])

    def test_crates_are_as_near_to_the_end_wall_as_they_can_be(self):
        self.assertEqual(self.check([NAMES, "cube,4,1,1,1"], [NAMES, "van,1,10,2,2"])["containers"][0]["length_in_use"], 1)
        answer = self.check([NAMES, "cube,5,1,1,1", "post,3,4,1,1"], [NAMES, "van,1,40,3,2"])
        self.assertLessEqual(answer["containers"][0]["length_in_use"], 5)

    def test_without_costs_the_fewest_are_taken_and_then_the_smallest(self):
        rooms = [NAMES, "small,9,2,1,1", "large,9,6,1,1", "middle,9,4,1,1"]
        self.assertEqual(self.kinds(self.check([NAMES, "cube,4,1,1,1"], rooms)), ["middle"])
        answer = self.check([NAMES, "cube,9,1,1,1"], rooms)
        self.assertEqual((sorted(self.kinds(answer)), answer["cost"]), (["large", "middle"], None))

    def test_a_crate_is_turned_as_far_as_it_may_be(self):
        # The only free place is 1 wide, 3 high and 2 long.
        for down, wanted in (("end", "end"), ("any", "end"), ("side end", "end"), ("END / side", "end")):
            with self.subTest(down):
                answer = self.check([f"{NAMES},down", f"post,1,3,2,1,{down.lower().replace('/', '')}"], [NAMES, "box,1,2,1,3"])
                self.assertEqual([step["down"] for step in steps_of(answer)], [wanted])
        for down in ("", "upright", "bottom", "side", "bottom side"):
            with self.subTest(down):
                tables = self.crates(f"{NAMES},down", f"post,1,3,2,1,{down}"), self.containers(NAMES, "box,1,2,1,3")
                status, _, error = self.run_load(*tables)
                self.assertEqual(status, 1)
                self.assertRegex(error, r"^no container is large enough, [^\n]+ for 1 x 'post' of line 2 \(3 x 2 x 1\)\n$")

    def test_faces_may_be_written_in_several_ways(self):
        for down in ("END/side", "side + end", '"side, end"', "side & end"):
            answer = self.loaded(self.crates(f"{NAMES},down", f"post,1,3,2,1,{down}"), self.containers(NAMES, "box,1,2,1,3"))
            self.assertEqual(steps_of(answer)[0]["down"], "end")

    def test_tables_give_sizes_to_the_last_digit(self):
        # As binary fractions three times 0.1 is more than 0.3.
        answer = self.check([NAMES, "thin,3,0.1,0.7,0.2"], [NAMES, "box,1,0.3,0.7,0.2"])
        self.assertEqual(sorted(step["z"] for step in steps_of(answer)), [0, 0.1, 0.2])
        # One more in the last place is too much.
        tables = self.crates(NAMES, "thin,3,0.100000001,0.7,0.2"), self.containers(NAMES, "box,1,0.3,0.7,0.2")
        self.assertEqual(self.run_load(*tables)[0], 1)

    def test_sizes_may_be_as_large_as_the_library_takes(self):
        most = 2**32 - 1
        answer = self.check([NAMES, f"half,2,{most},{most},2147483647"], [NAMES, f"box,1,{most},{most},{most}"])
        self.assertEqual(len(steps_of(answer)), 2)

    def test_spreadsheets_with_decimal_commas(self):
        answer = self.loaded(
            self.crates("Name;Length;Width;Height;Count", "Kiste Müller;1,5;1,25;1;2", ";;;;"),
            self.containers("name;length;width;height;cost", "Lkw;3;1,25;1;10,50"))
        self.assertEqual((answer["cost"], answer["filled"]), (10.5, 100))
        self.assertEqual([step["crate"] for step in steps_of(answer)], ["Kiste Müller"] * 2)

    def test_what_is_not_stackable_bears_nothing(self):
        crates = [f"{NAMES},stackable", "flat,2,2,2,1,no"]
        self.assertEqual(len(self.check(crates, [NAMES, "box,9,2,2,3"])["containers"]), 2)
        crates[1] = "flat,2,2,2,1,yes"
        self.assertEqual(len(self.check(crates, [NAMES, "box,9,2,2,3"])["containers"]), 1)
        # What may bear others goes first, so that one try is enough.
        flats = [f"{NAMES},stackable", *(f"flat,1,2,2,{high},no" for high in (1, 1.5, 2)), "base,3,2,2,0.5,"]
        self.assertEqual(len(self.check(flats, [NAMES, "box,1,6,2,2.5"], "--tries", "1")["containers"]), 1)
        # On top it may stand.
        answer = self.check([f"{NAMES},stackable", "flat,1,2,2,1,No", "base,1,2,2,0.5,"], [NAMES, "box,1,2,2,2"])
        self.assertEqual([step["crate"] for step in steps_of(answer)], ["base", "flat"])

    def test_a_long_crate_stands_on_a_row_of_equal_ones(self):
        # Two high they fill the floor, so that it can only stand on top; and on one alone not with its whole bottom.
        answer = self.check([NAMES, "pallet,12,100,117.6,110", "pole,1,280,15,15"], [NAMES, "van,1,300,235.2,239.3"])
        pole = next(step for step in steps_of(answer) if step["crate"] == "pole")
        self.assertEqual((pole["y"], len(pole["on"])), (220, 3))

    def test_equal_names_are_kinds_of_their_own(self):
        answer = self.check([NAMES, "box,1,1,1,1", "box,1,2,1,1"], [NAMES, "van,1,3,1,1"])
        self.assertEqual(sorted((step["line"], step["piece"]) for step in steps_of(answer)), [(2, 1), (3, 1)])

    def test_names_are_on_one_line(self):
        answer = self.loaded(
            self.crates(f"{NAMES},customer", '"big\nbox",1,1,1,1,"Miller  &\nSons"', "crate,1,1,1,1,Smith"),
            self.containers(NAMES, '"long\nvan",2,3,1,1'), "--apart", "Miller & Sons, Smith")
        self.assertEqual([it["name"] for it in answer["containers"]], ["long van 1", "long van 2"])
        self.assertEqual([(step["crate"], step["customer"]) for step in steps_of(answer)],
                         [("big box", "Miller & Sons"), ("crate", "Smith")])

    def test_lines_without_crates_are_passed_over(self):
        answer = self.check([NAMES, "none,0,900,900,900", "one,,1,1,1"], [NAMES, "none,0,9,9,9", "van,,1,1,1"])
        self.assertEqual((answer["crates"], self.kinds(answer)), (1, ["van"]))

    def test_containers_of_one_kind_are_numbered(self):
        answer = self.check([NAMES, "cube,3,1,1,1"], [NAMES, "van,5,1,1,1"])
        self.assertEqual([it["name"] for it in answer["containers"]], ["van 1", "van 2", "van 3"])


class Customers(Judged):
    def test_customers_apart_are_in_two_containers(self):
        crates = [f"{NAMES},customer", "milk,2,1,1,1,Dairy", "paint,2,1,1,1,Paint", "straps,4,1,1,1,"]
        self.assertEqual(len(self.check(crates, [NAMES, "van,9,8,1,1"])["containers"]), 1)
        answer = self.check(crates, [NAMES, "van,9,8,1,1"], apart=[("Dairy", "Paint")])
        self.assertEqual(len(answer["containers"]), 2)
        self.assertEqual(answer["apart"], [["Dairy", "Paint"]])

    def test_one_that_is_apart_may_be_in_several_containers(self):
        crates = [f"{NAMES},customer", "milk,3,1,1,1,Dairy", "paint,1,1,1,1,Paint"]
        self.assertEqual(len(self.check(crates, [NAMES, "van,9,2,1,1"], apart=[("Paint", "Dairy")])["containers"]), 3)

    def test_two_containers_are_enough_wherever_they_can_be(self):
        # A and D have most, and may be together: but then B and C, which may not, need two containers more.
        crates = [f"{NAMES},customer", "a,4,1,1,1,A", "d,4,1,1,1,D", "b,1,1,1,1,B", "c,1,1,1,1,C"]
        answer = self.check(crates, [NAMES, "van,4,8,1,1"], apart=[("A", "B"), ("B", "C"), ("C", "D")])
        self.assertEqual(len(answer["containers"]), 2)
        # A ring of six, of which two have most that are not beside each other.
        ring = "ABCDEF"
        crates = [f"{NAMES},customer", *(f"crate,{5 if it in 'AD' else 1},1,1,1,{it}" for it in "ADBECF")]
        answer = self.check(crates, [NAMES, "van,6,20,1,1"], apart=list(zip(ring, ring[1:] + "A")))
        self.assertEqual(len(answer["containers"]), 2)

    def test_a_customer_is_kept_together(self):
        # One by one these six would fill two containers.
        crates = [f"{NAMES},customer", "a,2,1,1,1,A", "b,2,1,1,1,B", "c,2,1,1,1,C"]
        self.assertEqual(len(self.check(crates, [NAMES, "van,9,3,1,1"])["containers"]), 2)
        answer = self.check(crates, [NAMES, "van,9,3,1,1"], together=True)
        self.assertEqual(len(answer["containers"]), 3)
        self.assertIs(answer["together"], True)

    def test_a_customer_who_does_not_fit_takes_no_room_from_others(self):
        # A goes into the first van, where B has no room then, and C has.
        crates = [f"{NAMES},customer", "a,4,1,1,1,A", "b,4,1,1,1,B", "c,2,1,1,1,C", "d,2,1,1,1,D"]
        answer = self.check(crates, [NAMES, "van,2,6,1,1"], together=True)
        self.assertEqual([it["filled"] for it in answer["containers"]], [100, 100])

    def test_together_and_apart(self):
        crates = [f"{NAMES},customer", "a,2,1,1,1,A", "b,2,1,1,1,B", "c,2,1,1,1,C", "more,2,1,1,1,"]
        answer = self.check(crates, [NAMES, "van,2,4,1,1"], apart=[("A", "B")], together=True)
        self.assertEqual(len(answer["containers"]), 2)

    def test_pairs_in_a_table(self):
        crates = self.crates(f"{NAMES},customer", "milk,1,1,1,1,Dairy", "paint,1,1,1,1,Paint")
        rooms = self.containers(NAMES, "van,9,8,1,1")
        pairs = self.table("apart.csv", "customer,other", "Dairy,Paint", "Paint,Food")
        status, out, error = self.run_load(crates, rooms, "--apart-list", pairs, "--json")
        self.assertEqual((status, error), (0, f"note: {pairs}:3: no crate is for 'Food'\n"))
        self.assertIn('"van 2"', out)


class Example(LoadCase):
    def test_the_example_is_sound(self):
        example().write(self.folder)
        tables = [self.folder / name for name in ("crates.csv", "containers.csv", "apart.csv")]
        answer = self.loaded(*tables[:2], "--apart-list", tables[2])
        self.assertEqual(faults_of(*tables[:2], answer, [("Dairy", "Paintworks")]), [])
        # The crates have more than one container holds.
        sizes = ((float(row[side]) for side in ("length", "width", "height", "count")) for row in read(tables[0]))
        self.assertGreater(sum(map(prod, sizes)), 589.8 * 235.2 * 239.3)
        self.assertEqual([it["name"] for it in answer["containers"]], ["20 ft 1", "20 ft 2"])


if __name__ == "__main__":
    unittest.main()
