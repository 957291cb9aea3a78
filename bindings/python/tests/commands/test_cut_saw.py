"""Sheets are sawn by their plans, in exact numbers: what comes off the saw are the panels of the list and the offcuts."""
from __future__ import annotations

import unittest
from collections import Counter
from fractions import Fraction
from itertools import combinations
from random import Random
from typing import Any

from .cut_steps import head_of
from .test_cut_runs import Case, Run, check_panels, each, rows_of, saw_all, write_example

HEAD, SHEETS = "name,count,width,height,grain\n", "name,count,width,height,cost\n"

KERFS, TRIMS = ("0", "3", "3.2", "4.75"), ("0", "2", "10", "12.5")


def drawn(chance: Random) -> tuple[str, str, str]:
    """A list of panels, stock and offcuts. There are enough sheets of the first kind, and each panel fits them."""
    panels, stock, offcuts = HEAD, SHEETS, SHEETS
    for index in range(chance.randint(1, 7)):
        sizes = [chance.choice(("{}", "{}.5", "{}.25")).format(chance.randint(8, most)) for most in (420, 340)]
        grain = chance.choice(("keep", "free", "free"))
        panels += f"p{index},{chance.randint(1, 5)},{sizes[0]},{sizes[1]},{grain}\n"
    stock += f"first,,{chance.randint(450, 900)}.{chance.randint(0, 9)},{chance.randint(370, 800)},{chance.randint(5, 9)}.5\n"
    for index in range(chance.randint(0, 2)):
        stock += f"s{index},{chance.choice(('', '1', '3'))},{chance.randint(200, 1200)},{chance.randint(200, 900)},"
        stock += f"{chance.randint(2, 15)}\n"
    for index in range(chance.randint(0, 3)):
        cost = chance.choice(("", "0", "1.25"))
        offcuts += f"o{index},{chance.choice(('', '1', '2'))},{chance.randint(30, 500)},{chance.randint(30, 500)}.5,{cost}\n"
    return panels, stock, offcuts


def apart(one: Any, other: Any, kerf: Fraction) -> bool:
    """Whether two rectangles are at least a kerf apart along x or y."""
    return any(
        first[axis] + first[side] + kerf <= second[axis]
        for axis, side in (("x", "width"), ("y", "height")) for first, second in ((one, other), (other, one)))


class Saw(Case):
    def check(self, run: Run, panels: str, kerf: str) -> None:
        """Saws all, and compares with the list, with offcuts.csv and with what is printed as JSON."""
        self.assertEqual((run.status, run.err), (0, ""))
        sawn, json = saw_all(run, kerf), run.json
        check_panels(self, rows_of(panels), sawn)
        table = [(row["name"], (Fraction(row["width"]), Fraction(row["height"])), int(row["count"]))
                 for row in rows_of((run.folder / "offcuts.csv").read_text(encoding="utf-8"))]
        left = [(it["name"], (it["width"], it["height"]), it["count"]) for it in json["offcuts_left"]]
        cut = [(name, size, sheet.count) for sheet in sawn for name, size in sheet.offcuts]
        self.assertEqual(table, left + cut)
        self.assertEqual(len({row[0] for row in cut}), len(cut))
        self.assertEqual(len(json["sheets"]), len(each(sawn)))
        for sheet, printed in zip(each(sawn), json["sheets"]):
            self.saw_json(printed, Fraction(kerf))
            self.assertEqual((sheet.cuts, sheet.length), (len(printed["cuts"]), printed["cut_length"]))
            # The plan of several sheets has no numbers of panels.
            found = [(it["name"].split(" #")[0] if sheet.count > 1 else it["name"], (it["width"], it["height"]), it["turned"])
                     for it in self.in_order(printed, "panel")]
            self.assertEqual(sheet.panels, found)
            sizes = [*(size for _, size, _ in sheet.panels), *(size for _, size in sheet.offcuts)]
            kept = sum((width * height for width, height in sizes), Fraction(0))
            self.assertEqual(printed["waste"], sheet.size[0] * sheet.size[1] - kept)
        names = [it["name"] for sheet in json["sheets"] for it in sheet["panels"]]
        self.assertEqual(len(set(names)), len(names))
        self.check_sums(json)

    def in_order(self, sheet: Any, role: str) -> list[Any]:
        """The parts of a role, as the cuts leave them."""
        return [it for cut in sheet["cuts"] for it in cut["leaves"] if it["role"] == role] or sheet[f"{role}s"]

    def saw_json(self, sheet: Any, kerf: Fraction) -> None:
        """Saws a sheet in its own coordinates. Each cut goes through a part that is there, and leaves what it says."""
        def rect(part: Any) -> tuple[Fraction, ...]:
            return part["x"], part["y"], part["width"], part["height"]

        table = {(Fraction(0), Fraction(0), sheet["width"], sheet["height"])}
        for cut in sheet["cuts"]:
            x, y, width, height = rect(cut["part"])
            table.remove((x, y, width, height))
            near, far = cut["blade"]
            start, end = (x, x + width) if cut["axis"] == "x" else (y, y + height)
            self.assertEqual(far - near, kerf)
            self.assertTrue(near < end and far > start)
            self.assertEqual(cut["at"], near - start)
            gone = {"left": far - start, "bottom": far - start, "right": end - near, "top": end - near, None: None}
            self.assertEqual(cut["off"], gone[cut["trims"]])
            ends = [(start, min(near, end)), (max(far, start), end)]
            if cut["axis"] == "x":
                left = [(low, y, high - low, height) for low, high in ends if high > low]
            else:
                left = [(x, low, width, high - low) for low, high in ends if high > low]
            self.assertEqual([rect(it) for it in cut["leaves"]], left)
            table.update(left)
        kept = [*sheet["panels"], *sheet["offcuts"]]
        self.assertLessEqual({rect(it) for it in kept}, table)
        trim = sheet["trim"]
        for it in sheet["panels"]:
            self.assertTrue(trim <= it["x"] and it["x"] + it["width"] <= sheet["width"] - trim)
            self.assertTrue(trim <= it["y"] and it["y"] + it["height"] <= sheet["height"] - trim)
        self.assertTrue(all(apart(one, other, kerf) for one, other in combinations(kept, 2)))

    def check_sums(self, json: Any) -> None:
        sums, sheets = json["sums"], json["sheets"]
        self.assertEqual(sums["sheets"], len(sheets))
        self.assertEqual(sums["cost"], sum(sheet["cost"] for sheet in sheets))
        self.assertEqual(sums["cuts"], sum(len(sheet["cuts"]) for sheet in sheets))
        self.assertEqual(sums["area"], sum(sheet["width"] * sheet["height"] for sheet in sheets))
        self.assertEqual(sums["area"], sums["panel_area"] + sums["offcut_area"] + sums["waste"])
        self.assertLessEqual(abs(sums["waste_percent"] - 100 * sums["waste"] / sums["area"]), Fraction("0.05"))
        self.assertEqual(sum(it["count"] for it in json["used"]), len(sheets))

    def test_the_example(self) -> None:
        write_example(self.folder)
        panels = (self.folder / "panels.csv").read_text(encoding="utf-8")
        words = [self.folder / "panels.csv", "--stock", self.folder / "sheets.csv"]
        words += ["--offcuts", self.folder / "offcuts.csv", "--json", "--replace"]
        for kerf in KERFS:
            for trim in TRIMS:
                with self.subTest(kerf=kerf, trim=trim):
                    run = self.cut(*words, "--kerf", kerf, "--trim", trim, "--keep", "300x200", "--tries", 1)
                    self.check(run, panels, kerf)
                    for sheet in run.json["sheets"]:
                        self.assertEqual(sheet["trim"], 0 if sheet["is_offcut"] else Fraction(trim))

    def test_drawn_lists(self) -> None:
        used: Counter[str] = Counter()
        for seed in range(200):
            chance = Random(seed)
            panels, stock, offcuts = drawn(chance)
            kerf, trim = chance.choice(KERFS), chance.choice(TRIMS)
            words = ["--kerf", kerf, "--trim", trim, "--keep", chance.choice(("60x40", "150x150", "0x0"))]
            words += ["--trim-offcuts"] if chance.random() < 0.5 else []
            with self.subTest(seed=seed):
                paths = [self.write("p.csv", panels), "--stock", self.write("s.csv", stock)]
                paths += ["--offcuts", self.write("o.csv", offcuts)]
                words += ["--tries", chance.choice(("1", "50", "600"))]
                run = self.cut(*paths, *words, "--json", out=f"plan{seed}")
                self.check(run, panels, kerf)
                self.check_stock(run, stock, offcuts)
                used.update(sheet["name"][0] for sheet in run.json["sheets"])
        # The lists are such that stock of all sorts is used.
        self.assertTrue(all(used[name] > 20 for name in "fso"), used)

    def check_stock(self, run: Run, stock: str, offcuts: str) -> None:
        """No more sheets are used than there are, each in its size and at its cost."""
        json = run.json
        used = Counter(sheet["name"] for sheet in json["sheets"])
        left = {it["name"]: it["count"] for it in json["offcuts_left"]}
        for is_offcut, table in ((False, stock), (True, offcuts)):
            for row in rows_of(table):
                count = row["count"] or ("1" if is_offcut else "999")
                self.assertLessEqual(used[row["name"]], int(count))
                if is_offcut:
                    self.assertEqual(left.get(row["name"], 0), int(count) - used[row["name"]])
                for sheet in json["sheets"]:
                    if sheet["name"] == row["name"]:
                        self.assertEqual((sheet["width"], sheet["height"]), (Fraction(row["width"]), Fraction(row["height"])))
                        self.assertEqual((sheet["cost"], sheet["is_offcut"]), (Fraction(row["cost"] or 0), is_offcut))


class ByHand(Case):
    def sheets(self, panels: str, stock: str, *words: object) -> list[str]:
        run = self.cut_tables(HEAD + panels, SHEETS + stock, *words, "--replace")
        return run.sheets()

    def count(self, panels: str, stock: str, *words: object) -> int:
        """How many sheets there are: some may be cut alike."""
        return sum(head_of(text.splitlines()).count for text in self.sheets(panels, stock, *words))

    def test_the_last_panel_of_a_row_needs_no_kerf(self) -> None:
        # 100 + 3.2 + 100 is 203.2.
        self.assertEqual(self.count("a,2,100,100,keep\n", "s,,203.2,100,1\n", "--kerf", "3.2"), 1)
        self.assertEqual(self.count("a,2,100,100,keep\n", "s,,203.1,100,1\n", "--kerf", "3.2"), 2)
        self.assertEqual(self.count("a,2,100,100,keep\n", "s,,200,100,1\n", "--kerf", "0"), 1)
        # With 10 off each edge.
        self.assertEqual(self.count("a,2,100,100,keep\n", "s,,223.2,120,1\n", "--kerf", "3.2", "--trim", "10"), 1)
        self.assertEqual(self.count("a,2,100,100,keep\n", "s,,223.1,120,1\n", "--kerf", "3.2", "--trim", "10"), 2)

    def test_the_steps_of_a_small_sheet(self) -> None:
        [text] = self.sheets("a,2,100,50,keep\n", "s,,203.2,60,1\n", "--kerf", "3.2", "--keep", "100x6")
        # Two panels in a row of 50; above it 60 - 50 - 3.2 is left.
        self.assertIn("1. A 203.2 x 60: cut across y at 50 -> B 203.2 x 50, offcut \"panels s 1-1\" 203.2 x 6.8\n"
                      "2. B 203.2 x 50: cut across x at 100 -> panel \"a #1\" 100 x 50, panel \"a #2\" 100 x 50\n", text)

    def test_a_blade_that_takes_the_end_of_a_part(self) -> None:
        # 1 and 2 are less than the kerf: nothing is left behind the blade, so these are trims.
        [text] = self.sheets("a,1,100,50,keep\n", "s,,101,52,1\n", "--kerf", "3")
        self.assertIn('2 off the top -> ', text)
        self.assertIn('1 off the right -> ', text)
        [last] = [line for line in text.splitlines() if line.startswith("2. ")]
        self.assertTrue(last.endswith('-> panel "a" 100 x 50'), last)
        self.assertNotIn(": cut across", text)

    def test_a_strip_that_is_narrower_than_the_blade(self) -> None:
        # Above the panel 5.9, 6 and 6.1 are left, of which the blade takes 3.
        for height, step in (
            ("55.9", 'trim 5.9 off the top -> panel "a" 100 x 50, waste 100 x 2.9'),
            ("56", 'cut across y at 50 -> panel "a" 100 x 50, waste 100 x 3'),
            ("56.1", 'cut across y at 50 -> panel "a" 100 x 50, waste 100 x 3.1'),
        ):
            [text] = self.sheets("a,1,100,50,keep\n", f"s,,100,{height},1\n", "--kerf", "3")
            self.assertIn(f"1. A 100 x {height}: {step}\n", text)
        # One that is worth keeping is no trim.
        [text] = self.sheets("a,1,100,50,keep\n", "s,,100,55,1\n", "--kerf", "3", "--keep", "0x0")
        self.assertIn('1. A 100 x 55: cut across y at 50 -> panel "a" 100 x 50, offcut "panels s 1-1" 100 x 2\n', text)

    def test_a_trim_inside_of_the_sheet_is_counted_from_its_part(self) -> None:
        # B begins at 103 of the sheet. Of its 41, 1 is more than the panel, and less than the blade.
        [text] = self.sheets("a,1,100,100,keep\nb,1,40,100,keep\n", "s,,144,100,1\n", "--kerf", "3")
        self.assertIn('1. A 144 x 100: cut across x at 100 -> panel "a" 100 x 100, B 41 x 100\n'
                      '2. B 41 x 100: trim 1 off the right -> panel "b" 40 x 100\n', text)

    def test_a_trim_that_is_narrower_than_the_blade(self) -> None:
        [text] = self.sheets("a,1,100,50,keep\n", "s,,104,54,1\n", "--kerf", "3", "--trim", "2")
        self.assertIn("1. A 104 x 54: trim 2 off the left -> A 102 x 54\n", text)
        self.assertIn('4. A 100 x 52: trim 2 off the top -> panel "a" 100 x 50\n', text)

    def test_a_sheet_that_is_a_panel(self) -> None:
        [text] = self.sheets("a,1,50,100,free\n", "s,,100,50,1\n", "--kerf", "3")
        self.assertIn('Nothing is cut: the sheet is panel "a" 100 x 50 (turned)\n', text)

    def test_many_panels_on_a_sheet(self) -> None:
        run = self.cut_tables(f"{HEAD}peg,800,7,5,free\n", f"{SHEETS}s,,500,400,1\n", "--kerf", "1", "--tries", "1")
        self.assertEqual(sum(len(sheet.panels) for sheet in saw_all(run, 1)), 800)


if __name__ == "__main__":
    unittest.main()
