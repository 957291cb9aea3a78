"""Which sheets are used: the cheapest, where that can be reckoned by hand; offcuts of an earlier run; and when there is no
room."""
from __future__ import annotations

import unittest
from collections import Counter
from fractions import Fraction
from itertools import product
from random import Random

from .test_cut_runs import Case, Run, check_panels, rows_of, saw_all

HEAD, SHEETS = "name,count,width,height,grain\n", "name,count,width,height,cost\n"


def names(run: Run) -> Counter[str]:
    return Counter(sheet["name"] for sheet in run.json["sheets"])


class Costs(Case):
    def cost(self, panels: str, stock: str, *words: object) -> tuple[Fraction, Counter[str]]:
        run = self.cut_tables(HEAD + panels, SHEETS + stock, "--kerf", 0, "--json", "--replace", *words)
        return run.json["sums"]["cost"], names(run)

    def test_by_hand(self) -> None:
        # Squares of 1000 fill a small sheet by one, a large one by two, a huge one by four.
        stock = "small,,1000,1000,6.20\nlarge,,2000,1000,10\nhuge,1,2000,2000,19\n"
        # 3: small and large 16.20, huge 19, two large 20, three small 18.60.
        self.assertEqual(self.cost("a,3,1000,1000,keep\n", stock), (Fraction("16.2"), {"small": 1, "large": 1}))
        # 4: huge 19, two large 20.
        self.assertEqual(self.cost("a,4,1000,1000,keep\n", stock), (19, {"huge": 1}))
        # 5: huge and small 25.20, two large and small 26.20, huge and large 29.
        self.assertEqual(self.cost("a,5,1000,1000,keep\n", stock), (Fraction("25.2"), {"huge": 1, "small": 1}))
        # 8: there is one huge sheet: with two large ones 39, and four large ones would be 40.
        self.assertEqual(self.cost("a,8,1000,1000,keep\n", stock), (39, {"huge": 1, "large": 2}))

    def test_at_equal_cost_the_fewest_sheets(self) -> None:
        stock = "small,,1000,1000,5\nlarge,,2000,1000,10\n"
        self.assertEqual(self.cost("a,4,1000,1000,keep\n", stock), (20, {"large": 2}))
        # Also where sheets cost nothing.
        self.assertEqual(self.cost("a,4,1000,1000,keep\n", "small,,1000,1000,0\nlarge,,2000,1000,0\n"), (0, {"large": 2}))

    def test_at_equal_cost_and_number_the_least_waste(self) -> None:
        stock = "long,,3000,1000,10\nshort,,2000,1000,10\n"
        self.assertEqual(self.cost("a,2,1000,1000,keep\n", stock, "--keep", "5000x5000"), (10, {"short": 1}))

    def test_a_panel_is_turned_however_few_the_tries_are(self) -> None:
        self.assertEqual(self.cost("a,1,500,1000,free\n", "lying,1,1000,500,1\n", "--tries", 1), (1, {"lying": 1}))

    def test_drawn_costs(self) -> None:
        """Beside all sets of sheets, by how many squares each takes."""
        chance, takes = Random(3), {"small": 1, "large": 2, "huge": 4}
        sizes = {"small": "1000,1000", "large": "2000,1000", "huge": "2000,2000"}
        for _ in range(25):
            squares = chance.randint(1, 9)
            costs = {name: Fraction(chance.randint(3, 40), 4) * takes[name] for name in takes}
            counts = {name: chance.randint(0, 4) for name in takes}
            counts[chance.choice(list(takes))] = 9
            stock = "".join(f"{name},{counts[name]},{sizes[name]},{float(costs[name])}\n" for name in takes)
            sets = [dict(zip(takes, it)) for it in product(*(range(counts[name] + 1) for name in takes))]
            enough = [it for it in sets if sum(takes[name] * count for name, count in it.items()) >= squares]
            least = min((sum(costs[name] * count for name, count in it.items()), sum(it.values())) for it in enough)
            with self.subTest(stock=stock, squares=squares):
                cost, used = self.cost(f"a,{squares},1000,1000,keep\n", stock)
                self.assertEqual((cost, sum(used.values())), least)

    def test_panels_are_turned_to_fit(self) -> None:
        # Three of 400x1000 stand side by side. As they lie, there is room for two on a sheet.
        self.assertEqual(self.cost("a,3,1000,400,free\n", "s,,1200,1000,1\n"), (1, {"s": 1}))
        self.assertEqual(self.cost("a,3,1000,400,keep\n", "s,,1200,1000,1\n"), (2, {"s": 2}))

    def test_panels_of_one_size_are_turned_one_by_one(self) -> None:
        # Two that lie on each other, 50 wide and 60 high, and one beside them that stands, 30 wide. If all lie, or all stand,
        # there is room for two.
        self.assertEqual(self.cost("a,3,50,30,free\n", "s,,80,60,1\n"), (1, {"s": 1}))
        self.assertEqual(self.cost("a,3,50,30,free\n", "s,1,80,60,1\n"), (1, {"s": 1}))

    def test_a_panel_that_keeps_its_direction_is_turned_for_no_cost(self) -> None:
        # Turned, both would fit the sheet that costs 1.
        panels = f"{HEAD}a,1,600,1000,keep\nb,1,1000,600,keep\n"
        run = self.cut_tables(panels, f"{SHEETS}lying,,1000,600,1\nstanding,,600,1000,10\n", "--kerf", 0, "--json")
        self.assertEqual((run.json["sums"]["cost"], names(run)), (11, {"lying": 1, "standing": 1}))
        check_panels(self, rows_of(panels), saw_all(run, 0))


class Offcuts(Case):
    def test_those_of_a_run_are_the_stock_of_the_next(self) -> None:
        first = self.cut_tables(
            f"{HEAD}top,1,1500,700,keep\n", f"{SHEETS}ply,,2500,1250,60\n", "--kerf", "3.2", "--trim", 10, "--keep", "200x100",
            "--json")
        rest = rows_of((first.folder / "offcuts.csv").read_text(encoding="utf-8"))
        # 2480x1230 without 1500x700 leaves, with the kerf, 976.8 along x and 526.8 along y.
        self.assertIn({row["width"] for row in rest}, ({"976.8", "2480"}, {"976.8", "1500"}))
        self.assertEqual({row["cost"] for row in rest}, {"0"})
        self.assertTrue(all(row["name"].startswith("panels ply 1-") and row["count"] == "1" for row in rest))
        # A panel as large as one of them takes all of it, without a cut. The others are left.
        used, *others = rest
        panels = f"{HEAD}door,1,{used['width']},{used['height']},keep\n"
        words = ["--stock", self.folder / "sheets.csv", "--offcuts", first.folder / "offcuts.csv", "--kerf", "3.2", "--json"]
        second = self.cut(self.write("next.csv", panels), *words, out="next")
        self.assertEqual((second.status, second.err), (0, ""))
        self.assertEqual((names(second), second.json["sums"]["cost"]), ({used["name"]: 1}, 0))
        self.assertEqual(rows_of((second.folder / "offcuts.csv").read_text(encoding="utf-8")), others)
        check_panels(self, rows_of(panels), saw_all(second, "3.2"))

    def test_they_save_a_sheet(self) -> None:
        panels, stock = f"{HEAD}a,3,1000,500,keep\n", f"{SHEETS}s,,1000,1000,9\n"
        without = self.cut_tables(panels, stock, "--kerf", 0, "--json")
        self.assertEqual(without.json["sums"]["cost"], 18)
        run = self.cut_tables(panels, stock, "--kerf", 0, "--json", offcuts="name,width,height\nold,1000,600\n", out="other")
        self.assertEqual((run.json["sums"]["cost"], names(run)), (9, {"s": 1, "old": 1}))
        self.assertEqual(run.json["offcuts_left"], [])

    def test_one_that_saves_nothing_is_left(self) -> None:
        run = self.cut_tables(f"{HEAD}a,2,1000,500,keep\n", f"{SHEETS}s,,1000,1000,9\n", "--kerf", 0, "--json",
                              offcuts="name,count,width,height,cost\nold,2,1000,500.5,\nsmall,3,10,10,4\n")
        # Both are taken off the rack, as that costs nothing.
        self.assertEqual((run.json["sums"]["cost"], names(run)), (0, {"old": 2}))
        run = self.cut_tables(f"{HEAD}a,2,1000,500,keep\n", f"{SHEETS}s,,1000,1000,9\n", "--kerf", 0, "--json",
                              offcuts="name,count,width,height,cost\nold,1,1000,500.5,\nsmall,3,10,10,4\n", out="other")
        self.assertEqual((run.json["sums"]["cost"], names(run)), (9, {"s": 1}))
        self.assertEqual(rows_of((run.folder / "offcuts.csv").read_text(encoding="utf-8")), [
            {"name": "old", "count": "1", "width": "1000", "height": "500.5", "cost": "0"},
            {"name": "small", "count": "3", "width": "10", "height": "10", "cost": "4"}])

    def test_one_may_cost_more_than_a_sheet(self) -> None:
        run = self.cut_tables(f"{HEAD}a,1,1000,500,keep\n", f"{SHEETS}s,,1000,1000,9\n", "--kerf", 0, "--json",
                              offcuts="name,width,height,cost\nold,1000,500,9.5\n")
        self.assertEqual(names(run), {"s": 1})

    def test_they_are_trimmed_where_it_is_said(self) -> None:
        panels, stock = f"{HEAD}a,1,500,300,keep\n", f"{SHEETS}s,,900,900,9\n"
        for word, used in (("--json", "old"), ("--trim-offcuts", "s")):
            run = self.cut_tables(panels, stock, "--kerf", 3, "--trim", 5, "--json", "--replace", word,
                                  offcuts="name,width,height\nold,500,305\n")
            self.assertEqual(names(run), {used: 1})

    def test_without_stock(self) -> None:
        offcuts = self.write("rack.csv", "name,width,height\nold,500,305\n")
        run = self.cut(self.write("list.csv", f"{HEAD}a,2,200,300,free\n"), "--offcuts", offcuts, "--kerf", 3, "--json")
        self.assertEqual((run.status, names(run)), (0, {"old": 1}))

    def test_the_smallest_worth_keeping(self) -> None:
        # 300x200 is left, upright.
        for keep, count in (("300x200", 1), ("200x300", 1), ("300.1x200", 0), ("300x200.1", 0), ("0x0", 1)):
            run = self.cut_tables(f"{HEAD}a,1,800,300,keep\n", f"{SHEETS}s,,1000,300,9\n", "--kerf", 0, "--keep", keep,
                                  "--replace", "--json")
            self.assertEqual(len(run.json["sheets"][0]["offcuts"]), count, keep)


class Waste(Case):
    """What is left of a sheet is left in pieces that are worth keeping, as far as that can be."""

    def offcuts(self, panels: str, stock: str, keep: str) -> list[list[Fraction]]:
        run = self.cut_tables(HEAD + panels, SHEETS + stock, "--kerf", 0, "--json", "--keep", keep)
        [sheet] = run.json["sheets"]
        return [sorted((it["width"], it["height"])) for it in sheet["offcuts"]]

    def test_in_a_corner(self) -> None:
        # In a row they would leave 200 x 50, which is too small.
        self.assertEqual(self.offcuts("a,4,50,50,keep\n", "s,,200,100,1\n", "100x100"), [[100, 100]])

    def test_round_a_rest(self) -> None:
        # No strip across the sheet can be left. Beside the two long panels there are 80 x 80, and the small ones stand in a
        # strip of 10.
        panels = "a,1,100,20,keep\nb,1,20,80,keep\nc,2,10,10,keep\n"
        self.assertEqual(self.offcuts(panels, "s,,100,100,1\n", "80x70"), [[70, 80]])


class NoRoom(Case):
    def refused(self, panels: str, stock: str, *words: object) -> str:
        run = self.cut(self.write("p.csv", HEAD + panels), "--stock", self.write("s.csv", SHEETS + stock), "--kerf", 3, *words)
        self.assertEqual((run.status, run.out, run.folder.exists()), (1, "", False))
        self.assertEqual(run.err.count("\n"), 1)
        return run.err

    def test_a_panel_that_is_too_large(self) -> None:
        stock = "s,,1000,600,1\n"
        why = "the panel 'b' of line 3, 1000.5 x 300, fits no sheet\n"
        self.assertEqual(self.refused("a,1,10,10,free\nb,1,1000.5,300,free\n", stock), why)
        why = "the panel 'b' of line 3, 600 x 1000, fits a sheet only when it is turned, and it keeps its direction\n"
        self.assertEqual(self.refused("a,1,10,10,free\nb,1,600,1000,keep\n", stock), why)
        why = "the panel 'a' of line 2, 1000 x 600, fits no sheet once --trim is off its edges\n"
        self.assertEqual(self.refused("a,1,1000,600,free\n", stock, "--trim", "0.5"), why)
        self.assertIn("fits no sheet", self.refused("a,1,1000,600,free\n", "s,0,1000,600,1\n"))
        # More is trimmed off than there is.
        self.assertIn("fits no sheet", self.refused("a,1,10,10,free\n", stock, "--trim", "300"))

    def test_a_page_over_a_table(self) -> None:
        panels, stock = self.write("p.csv", HEAD + "a,1,10,10,free\n"), self.write("s.csv", SHEETS + "s,,1000,600,1\n")
        for path in (panels, stock):
            before = path.read_bytes()
            run = self.cut(panels, "--stock", stock, "--kerf", 3, "--page", path)
            self.assertEqual((run.status, run.out, run.folder.exists()), (2, "", False))
            self.assertEqual(run.err, f"{path}: is read, and would be lost: name another file to write\n")
            self.assertEqual(path.read_bytes(), before)

    def test_stock_that_is_used_up(self) -> None:
        why = self.refused("a,3,1000,500,keep\nb,4,10,10,free\n", "s,2,1000,600,1\n")
        self.assertEqual(why, "the stock is used up: there is no room for 1 of 7 panels, as 'a #3', 1000 x 500\n")
        self.assertIn("the stock is used up: ", self.refused("a,4,500,300,free\n", "s,1,1000,600,1\n"))


if __name__ == "__main__":
    unittest.main()
