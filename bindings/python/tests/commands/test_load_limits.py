"""What bounds a load: weights, tries, seconds, and Ctrl-C; and what is proved of it."""
import json
import time
import unittest
from unittest import mock

# This comes first: it skips these tests where the library is not there.
from .test_load_base import LoadCase
from .test_load_judge import faults_of

from rectangle_pack.commands._load import packing

HEAD = "name,count,length,width,height"
HEAVY, LIMITED = f"{HEAD},weight", f"{HEAD},payload"
PROVED = "no plan needs fewer containers: proved"

# Of these nothing is proved: 8 and 3 cells cost 90, and no search sees that this is the least.
ELEVEN = (HEAD, "cube,11,1,1,1"), (f"{HEAD},cost", "three,9,3,1,1,30", "eight,9,8,1,1,60")


class Weights(LoadCase):
    def check(self, crates, containers, *words, **asked):
        tables = self.crates(*crates), self.containers(*containers)
        answer = self.loaded(*tables, *words)
        self.assertEqual(faults_of(*tables, answer, **asked), [])
        return answer

    def test_no_container_carries_more_than_its_payload(self):
        # Eight cubes fill the box, which carries four of them; or two, where they are a little heavier.
        for weight, count, least in ((10, 2, 2), (10.01, 3, 3), (13.3, 3, 3), (20, 4, 4), (20.001, 8, 5), (40, 8, 8)):
            answer = self.check([HEAVY, f"cube,8,1,1,1,{weight}"], [LIMITED, "box,9,2,2,2,40"])
            self.assertEqual((len(answer["containers"]), answer["least"], answer["proved"]), (count, least, count == least))

    def test_heavy_crates_go_where_they_are_carried(self):
        answer = self.check([HEAVY, "safe,1,2,2,1,900", "box,12,2,2,1,10"], [LIMITED, "van,5,4,2,2,100", "lorry,1,4,2,2,1000"])
        self.assertEqual(sorted(it["kind"] for it in answer["containers"]), ["lorry", "van", "van", "van"])

    def test_where_there_is_no_payload_there_is_no_limit(self):
        answer = self.check([HEAVY, "cube,8,1,1,1,1000000"], [LIMITED, "small,1,1,1,1,1", "box,9,2,2,2,"])
        self.assertEqual([(it["kind"], it["weight"], it["payload"]) for it in answer["containers"]], [("box", 8000000, None)])
        answer = self.check([HEAVY, "cube,8,1,1,1,"], [HEAD, "box,9,2,2,2"])
        self.assertIsNone(answer["containers"][0]["weight"])

    def test_a_customer_that_is_kept_together_is_light_enough(self):
        crates = [f"{HEAVY},customer", "a,2,1,1,1,30,A", "b,2,1,1,1,20,B", "c,2,1,1,1,20,C"]
        answer = self.check(crates, [LIMITED, "van,9,9,1,1,80"], "--together", together=True)
        self.assertEqual(sorted(it["weight"] for it in answer["containers"]), [60, 80])

    def test_weights_are_told_with_their_unit(self):
        tables = self.crates(HEAVY, "cube,2,1,1,1,1.25"), self.containers(LIMITED, "van,1,2,1,1,24.5")
        _, out, _ = self.run_load(*tables, "--weight-unit", "kg", "--plans", self.folder / "plans")
        self.assertIn("; 2 crates, 100 % filled, 2 of the length in use, 2.5 of 24.5 kg\n", out)
        self.assertIn("\n1 container, 2 crates, 100 % filled, 2.5 kg\n", out)
        self.assertIn("in use, 2.5 of 24.5 kg\n", (self.folder / "plans" / "container-1.txt").read_text())
        out = self.run_load(*tables)[1]
        self.assertIn(", 2.5 of 24.5 in weight\n", out)
        self.assertIn(", 100 % filled, 2.5 in weight\n", out)

    def refused(self, crates, containers, error, status=1, words=()):
        tables = self.crates(*crates), self.containers(*containers)
        self.assertEqual(self.run_load(*tables, *words), (status, "", error.format(*tables) + "\n"))

    def test_what_is_too_heavy(self):
        kg = ("--weight-unit", "kg")
        self.refused(
            [HEAVY, "cube,1,1,1,1,5", "safe,2,1,1,1,40.5"], [LIMITED, "van,9,9,1,1,40"],
            "no container that is large enough has the payload for 2 x 'safe' of line 3 (1 x 1 x 1, 40.5 kg)", words=kg)
        # The lorry carries it, and is too low.
        self.refused(
            [HEAVY, "safe,1,1,1,2,50"], [LIMITED, "van,9,9,1,2,40", "lorry,1,9,9,1,900"],
            "no container that is large enough has the payload for 1 x 'safe' of line 2 (1 x 1 x 2, 50)")
        self.refused(
            [HEAVY, "cube,9,1,1,1,10"], [LIMITED, "van,2,9,1,1,40"],
            "the containers are full: they have a payload of 80 kg, and the crates weigh 90 kg", words=kg)
        # Three of 30 need a van each, and there are two.
        self.refused(
            [HEAVY, "cube,3,1,1,1,30"], [LIMITED, "van,2,9,1,1,50"],
            "the containers are full: 1 of 3 crates are left over: 1 x 'cube' of line 2 (1 x 1 x 1, 30)")
        self.refused(
            [f"{HEAVY},customer", "cube,3,1,1,1,30,Miller"], [LIMITED, "van,3,9,1,1,50"],
            "no container has the payload for crates that are to be kept together: those of customer 'Miller' 90 kg",
            words=("--together", *kg))

    def test_weights_that_are_wrong(self):
        self.refused([HEAVY, "a,1,1,1,1,5", "b,1,1,1,1,"], [LIMITED, "van,1,9,1,1,", "van 2,1,9,1,1,7"],
                     "{}:3: weight is missing, and {}:3 has a payload", 2)
        self.refused([HEAVY, "a,1,1,1,1,-5"], [HEAD, "van,1,9,1,1"], "{}:2: weight is -5, and must be at least 0", 2)
        self.refused([HEAVY, "a,1,1,1,1,5"], [LIMITED, "van,1,9,1,1,many"], "{1}:2: payload is 'many', and must be a number", 2)


class Proved(LoadCase):
    def last_line(self, crates, containers, *words):
        return self.run_load(self.crates(*crates), self.containers(*containers), *words)[1].splitlines()[-1]

    def test_that_no_plan_needs_fewer(self):
        # No two cubes of 6 go side by side in 10, though their volume is less than half.
        self.assertEqual(self.last_line([HEAD, "cube,3,6,6,6"], [HEAD, "box,9,10,10,10"]), PROVED)
        # Two that are apart need two.
        crates = [f"{HEAD},customer", "milk,1,1,1,1,Dairy", "paint,1,1,1,1,Paint"]
        self.assertEqual(self.last_line(crates, [HEAD, "van,9,9,9,9"], "--apart", "Dairy,Paint"), PROVED)
        # So do four of 20 where 40 are carried.
        self.assertEqual(self.last_line([HEAVY, "cube,4,1,1,1,20"], [LIMITED, "van,9,9,9,9,40"]), PROVED)

    def test_how_many_are_needed_at_least(self):
        # One customer's crates of 3 fit into a van of 5, and so three vans are needed for three; 9 cells need two at least.
        crates = [f"{HEAD},customer", "a,3,1,1,1,A", "b,3,1,1,1,B", "c,3,1,1,1,C"]
        answer = self.last_line(crates, [HEAD, "van,9,5,1,1"], "--together")
        self.assertEqual(answer, "all crates need at least 2 containers: proved")

    def test_a_customer_apart_from_another_takes_no_container_too_many(self):
        # AAAA, AANN and BBNN: two N are one crate, larger than the others, that may not fill the first van.
        crates = [f"{HEAD},customer", "n,2,2,1,1,", "a,6,1,1,1,A", "b,2,1,1,1,B"]
        self.assertEqual(self.last_line(crates, [HEAD, "van,3,4,1,1"], "--apart", "A,B"), PROVED)
        pallets = [f"{HEAD},customer", "a,30,120,80,100,A", "b,14,120,80,100,B", "n,16,120,100,110,"]
        answer = self.loaded(
            self.crates(*pallets), self.containers(HEAD, "20 ft,3,589.8,235.2,239.3"), "--apart", "A,B")
        self.assertEqual(len(answer["containers"]), 3)

    def test_a_container_stands_in_for_two_that_cost_more(self):
        # A cell of the large one costs 15 / 6, one of the small one 10 / 3: so large ones that are full are cheapest.
        rooms = [f"{HEAD},cost", "small,8,3,1,1,10", "large,8,6,1,1,15"]
        crates = [f"{HEAD},customer", "a,12,1,1,1,A", "b,12,1,1,1,B"]
        for more, cost in (([], 60), (["c,6,1,1,1,C"], 75)):
            with self.subTest(cost=cost):
                answer = self.loaded(self.crates(*crates, *more), self.containers(*rooms), "--apart", "A,B")
                self.assertEqual(answer["cost"], cost)


class Ends(LoadCase):
    def test_seconds(self):
        tables = self.crates(*ELEVEN[0]), self.containers(*ELEVEN[1])
        begin = time.monotonic()
        answer = self.loaded(*tables, "--tries", "999999999", "--seconds", "0.5")
        self.assertLess(time.monotonic() - begin, 20)
        self.assertEqual(faults_of(*tables, answer), [])

    def test_one_try_is_enough_for_a_load(self):
        tables = self.crates(*ELEVEN[0]), self.containers(*ELEVEN[1])
        self.assertEqual(faults_of(*tables, self.loaded(*tables, "--tries", "1")), [])

    def interrupted(self, calls, *words):
        """The command, where Ctrl-C is pressed in a call of the library's search."""
        pack, made = packing.pack, []

        def pack_until(*given, **asked):
            made.append(given)
            if len(made) == calls:
                raise KeyboardInterrupt
            return pack(*given, **asked)

        with mock.patch.object(packing, "pack", pack_until):
            return self.run_load(self.crates(*ELEVEN[0]), self.containers(*ELEVEN[1]), *words)

    def test_ctrl_c_writes_the_best_load_so_far(self):
        status, out, error = self.interrupted(3, "--json", "--csv", self.folder / "out.csv")
        self.assertEqual((status, error), (130, "stopped: the plan is the best so far\n"))
        self.assertEqual(faults_of(self.folder / "crates.csv", self.folder / "containers.csv", json.loads(out)), [])
        self.assertEqual(len((self.folder / "out.csv").read_text().splitlines()), 12)

    def test_ctrl_c_before_there_is_a_load(self):
        self.assertEqual(self.interrupted(1, "--csv", self.folder / "out.csv"), (130, "", ""))
        self.assertFalse((self.folder / "out.csv").exists())

    def test_words(self):
        tables = self.crates(HEAD, "a,1,1,1,1"), self.containers(HEAD, "box,1,9,9,9")
        for text in ("0", "-1", "nan", "inf", "soon", "1e9"):
            status, out, error = self.run_load(*tables, f"--seconds={text}")
            self.assertEqual((status, out), (2, ""))
            self.assertEqual(
                error.splitlines()[-1].split("error: ")[1],
                f"argument --seconds: {text!r} is no number above 0 and below a billion")


if __name__ == "__main__":
    unittest.main()
