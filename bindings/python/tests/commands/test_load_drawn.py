"""Drawn lists: each load is judged by the tables and the answer alone."""
import json
import random
import unittest
from itertools import combinations

from .test_load_base import LoadCase
from .test_load_judge import faults_of

SEEDS = 200


def size(draw, decimals, least, most):
    number = draw.randint(least * 10**decimals, most * 10**decimals)
    whole, part = divmod(number, 10**decimals)
    return f"{whole}.{part:0{decimals}}" if decimals else str(whole)


def crate_lines(draw):
    """A packing list of up to eight kinds, some names twice, for up to four customers; with weights up to 40 where it has any."""
    weights = draw.choice(("", ",{}", ",{}.5"))
    decimals = draw.choice((0, 0, 1, 2))
    customers = ["", *("Customer A", "Customer B", "Customer C", "Customer D")[:draw.randint(0, 4)]]
    yield "name,count,length,width,height,customer,down,stackable" + ",weight" * bool(weights)
    yield "first,1,20,20,20,,," + ",1" * bool(weights)
    for _ in range(draw.randint(1, 7)):
        sides = ",".join(size(draw, decimals, 10, 60) for _ in range(3))
        down = draw.choice(("", "any", "upright", "bottom side", "side end", "end", "side"))
        yield (f"crate {draw.randint(1, 5)},{draw.choice(('', *range(9)))},{sides},{draw.choice(customers)},{down},"
               f"{draw.choice(('', 'yes', 'yes', 'no'))}{weights.format(draw.randint(0, 39))}")


def container_lines(draw, has_weights):
    """Up to three kinds of containers that hold each crate, however it is turned, and enough of them. Some have a payload."""
    has_costs = draw.random() < 0.5
    yield "name,count,length,width,height" + ",cost" * has_costs + ",payload" * has_weights
    for kind in range(draw.randint(1, 3)):
        sides = f"{draw.randint(60, 200)},{draw.randint(60, 120)},{draw.randint(60, 120)}"
        payload = f",{draw.choice(('', draw.randint(40, 60), draw.randint(40, 400)))}" * has_weights
        yield f"kind {kind},70,{sides}" + f",{draw.randint(1, 100)}" * has_costs + payload


class Drawn(LoadCase):
    def draw(self, seed):
        """Tables, and what is asked: the words, which customers are apart, and whether each is kept together."""
        draw = random.Random(seed)
        crates = list(crate_lines(draw))
        tables = [self.crates(*crates), self.containers(*container_lines(draw, crates[0].endswith("weight")))]
        customers = sorted({line.split(",")[5] for line in crates[1:]} - {""})
        apart = [pair for pair in combinations(customers, 2) if draw.random() < 0.3]
        together = draw.random() < 0.3
        words = [*tables, "--tries", draw.choice((1, 5, 10, 30)), *["--together"] * together]
        for one, other in apart:
            words += ["--apart", f"{one},{other}"]
        return tables, words, apart, together

    def test_each_load_is_sound_and_can_be_loaded(self):
        refused = 0
        for seed in range(SEEDS):
            with self.subTest(seed=seed):
                tables, words, apart, together = self.draw(seed)
                status, out, error = self.run_load(*words, "--json")
                if status == 1 and together:
                    # A customer may have more than one container holds.
                    self.assertRegex(error, r"^[^\n]*customer [^\n]*\n$")
                    refused += 1
                    continue
                self.assertEqual((status, error), (0, ""))
                self.assertEqual(faults_of(*tables, json.loads(out), apart, together), [])
        self.assertLess(refused, SEEDS // 8)

    def test_the_same_again_is_answered_the_same(self):
        for seed in range(0, SEEDS, 20):
            _, words, _, _ = self.draw(seed)
            self.assertEqual(self.run_load(*words, "--json"), self.run_load(*words, "--json"))


if __name__ == "__main__":
    unittest.main()
