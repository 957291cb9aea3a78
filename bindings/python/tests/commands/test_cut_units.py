"""Inches: how they are read and written, and plans in them, which are sawn."""
from __future__ import annotations

import unittest
import xml.etree.ElementTree as ElementTree
from decimal import Decimal
from fractions import Fraction
from random import Random

from rectangle_pack.commands._cut.unit import INCHES, MM, Lengths

from .cut_steps import data_of, exact
from .test_cut_runs import Case, check_panels, rows_of, saw_all

HEAD, SHEETS = "name,count,width,height,grain\n", "name,count,width,height,cost\n"


class Numbers(unittest.TestCase):
    def test_what_is_read(self) -> None:
        for text, number in (
            ("24 3/4", "24.75"), ("24-3/4", "24.75"), ("24 - 3/4", "24.75"), ("24.75", "24.75"), ("24,75", "24.75"),
            ("3/4", "0.75"), ("24", "24"), ("1/64", "0.015625"), ("8 63/64", "8.984375"), ('24 3/4"', "24.75"),
            ("-3/4", "-0.75"), ("-24 3/4", "-24.75"), ("0", "0"), ("5/4", "1.25"),
        ):
            self.assertEqual(INCHES.number(text), Decimal(number), text)
        for text in ("", "24 3/", "1/3", "1/128", "3/0", "24 3/4 1/2", "a", "24 3.5/4", "nan", "inf", "1,000.5", "24/ 3/4"):
            self.assertIsNone(INCHES.number(text), text)
        for text in ("24 3/4", "3/4", '24"'):
            self.assertIsNone(MM.number(text), text)

    def test_what_is_written(self) -> None:
        # Cells of a millionth: 64ths are whole.
        inches = Lengths(6, INCHES)
        for number, text in (
            ("24.75", "24 3/4"), ("0.75", "3/4"), ("24", "24"), ("0", "0"), ("0.015625", "1/64"), ("8.984375", "8 63/64"),
            ("0.5", "1/2"), ("12.625", "12 5/8"), ("0.1", "0.1"), ("24.3", "24.3"), ("0.007813", "0.007813"),
        ):
            cells = inches.cells(Decimal(number))
            self.assertEqual(inches.text(cells), text)
            self.assertEqual(INCHES.number(text), Decimal(number))
            self.assertEqual(inches.number(cells), float(number))
        self.assertEqual(Lengths(1, INCHES).text(245), "24 1/2")
        self.assertEqual(Lengths(2, MM).text(2475), "24.75")

    def test_long_lengths(self) -> None:
        # 42049 mm and 42050 mm; 1234.56 in
        self.assertEqual([Lengths(0, MM).far(it) for it in (42049, 42050)], ["42.0 m", "42.1 m"])
        self.assertEqual(Lengths(2, INCHES).far(123456), "1234.6 in")

    def test_on_paper(self) -> None:
        self.assertEqual((Lengths(2, INCHES).mm(250), Lengths(1, MM).mm(25)), (Decimal("63.5"), Decimal("2.5")))


class Plans(Case):
    def test_all_that_is_written_is_in_inches(self) -> None:
        # On 48 1/2 there are two of 23 5/8 with a kerf of 1/8 between them, and 1 1/8 is left beside the second kerf.
        run = self.cut_tables(
            f"{HEAD}side,2,23 5/8,15 3/4,keep\n", f"{SHEETS}ply,,48-1/2,24.5,30\n", "--kerf", "1/8", "--keep", "20x8",
            "--unit", "in")
        [sheet] = saw_all(run, Fraction(1, 8))
        self.assertEqual(sheet.size, (Fraction("48.5"), Fraction("24.5")))
        size = Fraction("23.625"), Fraction("15.75")
        self.assertEqual(sorted(sheet.panels), [("side #1", size, False), ("side #2", size, False)])
        [text] = run.sheets()
        lines = text.splitlines()
        self.assertEqual(lines[:3], ["Sheet 1 of 1: ply, 48 1/2 x 24 1/2 in", "Job panels", "Kerf 1/8, trim 0"])
        self.assertIn("Sizes are in inches, width by height", text)
        self.assertNotIn("mm", text)
        self.assertIn('-> panel "side #1" 23 5/8 x 15 3/4', text)
        # 24 1/2 - 15 3/4 - 1/8 is 8 5/8 above both, or above one of them.
        rows = rows_of((run.folder / "offcuts.csv").read_text(encoding="utf-8"))
        self.assertEqual([(row["name"], row["height"]) for row in rows], [("panels ply 1-1", "8 5/8")])
        self.assertIn("  1 x ply, 48 1/2 x 24 1/2, cost 30", run.out.splitlines())
        self.assertIn(" in together", run.out)
        root = ElementTree.parse(run.folder / "sheet-1.svg").getroot()
        texts = [it.text or "" for it in root.iter("{http://www.w3.org/2000/svg}text")]
        self.assertIn("Sheet 1 of 1: ply, 48 1/2 x 24 1/2 in", texts)
        self.assertIn("x 48 1/2", texts)
        # What is left is read again.
        again = self.cut(self.write("next.csv", f"{HEAD}a,1,20,8 5/8,keep\n"), "--offcuts", run.folder / "offcuts.csv",
                         "--kerf", "1/8", "--unit", "in", out="next")
        self.assertEqual((again.status, again.err), (0, ""))

    def test_drawn_lists(self) -> None:
        """Plans in inches are sawn as they are written, in 64ths, and in decimals that are none."""
        for seed in range(25):
            chance = Random(seed)

            def size(least: int, most: int) -> str:
                whole, part = chance.randint(least, most), chance.choice((0, 1, 2, 3, 5, 8))
                parts = 2 ** chance.randint(3, 6)
                return chance.choice((f"{whole} {part}/{parts}", f"{whole}-{part}/{parts}", f"{whole}.{part}", f"{whole}"))

            panels = HEAD + "".join(f"p{index},{chance.randint(1, 6)},{size(2, 20)},{size(2, 15)},free\n" for index in range(6))
            stock = f"{SHEETS}s,,{size(24, 48)},{size(24, 48)},9\n"
            kerf = chance.choice(("1/8", "3/32", "0.125", "0.1"))
            with self.subTest(seed=seed):
                run = self.cut_tables(panels, stock, "--unit", "in", "--kerf", kerf, "--trim", "1/4", "--tries", 3, "--replace")
                sawn = saw_all(run, INCHES.number(kerf))
                check_panels(self, [{**row, **{side: str(INCHES.number(row[side])) for side in ("width", "height")}}
                                    for row in rows_of(panels)], sawn)

    def test_json_and_page(self) -> None:
        page = self.folder / "page.html"
        run = self.cut_tables(f"{HEAD}a,1,10 1/2,5,keep\n", f"{SHEETS}s,,20,10,1\n", "--kerf", "1/8", "--unit", "in", "--json",
                              "--page", page)
        self.assertEqual((run.json["unit"], run.json["kerf"], run.json["keep"]), ("in", Fraction(1, 8), [8, 8]))
        [sheet] = run.json["sheets"]
        self.assertEqual([(it["width"], it["height"]) for it in sheet["panels"]], [(Fraction("10.5"), 5)])
        self.assertEqual(sheet["waste"] + sum(it["width"] * it["height"] for it in (*sheet["panels"], *sheet["offcuts"])), 200)
        [scene] = data_of(page)
        # 1/8 has three decimals.
        self.assertEqual((scene["unit"], scene["rooms"][0]["size"]), ("0.001 in", [20000, 10000, 1]))
        self.assertIn(["kerf", "1/8 in"], scene["facts"])
        self.assertEqual(exact(scene["cuts"]["sheet 1: s"][0]["step"]["kerf"]), Fraction(1, 8))

    def test_the_drawing_has_the_scale_of_paper(self) -> None:
        """A sheet of 10 in is 254 mm long, and one of 254 mm is drawn as large."""
        scales = []
        for size, unit in (("10,5", "in"), ("254,127", "mm")):
            words = ["--kerf", 0, "--unit", unit, "--replace"]
            run = self.cut_tables(f"{HEAD}a,1,{size},keep\n", f"{SHEETS}s,,{size},1\n", *words)
            text = (run.folder / "sheet-1.svg").read_text(encoding="utf-8")
            scales.append(text[text.index("scale "):].split(",")[0])
        self.assertEqual(scales[0], scales[1])

    def test_refusals(self) -> None:
        stock = self.write("s.csv", f"{SHEETS}s,,48,24,1\n")
        for panel, why in (
            ("1/3,5", "width is '1/3', and must be a number of inches, as 24 3/4 or 24.75"),
            ("-3/4,5", "width is -3/4, and must be more than 0"), ("5,0/4", "height is 0/4, and must be more than 0"),
        ):
            panels = self.write("p.csv", f"{HEAD}a,1,{panel},keep\n")
            run = self.cut(panels, "--stock", stock, "--kerf", "1/8", "--unit", "in")
            self.assertEqual((run.status, run.err), (2, f"{panels}:2: {why}\n"))
        panels = self.write("p.csv", f"{HEAD}a,1,24 3/4,5,keep\n")
        run = self.cut(panels, "--stock", stock, "--kerf", "3")
        self.assertEqual((run.status, run.err), (2, f"{panels}:2: width is '24 3/4', and must be a number\n"))
        run = self.cut(panels, "--stock", stock, "--kerf", "1/10", "--unit", "in")
        self.assertEqual(run.err, "--kerf is '1/10', and must be a number in inches that is not negative\n")


if __name__ == "__main__":
    unittest.main()
