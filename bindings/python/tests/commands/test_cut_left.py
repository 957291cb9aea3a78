"""Panels that are left, where only those that fit are asked for; and how few sheets will do."""
from __future__ import annotations

import unittest

from .test_cut_runs import Case, Run, check_panels, rows_of, saw_all

HEAD, SHEETS = "name,count,width,height,grain\n", "name,count,width,height,cost\n"


class Left(Case):
    def partial(self, panels: str, stock: str, *words: object, out: str = "plan") -> Run:
        """Some panels are left."""
        run = self.cut(self.write("p.csv", panels), "--stock", self.write("s.csv", stock), "--kerf", 3, "--partial",
                       "--page", self.folder / "page.html", *words, out=out)
        self.assertEqual(run.status, 1)
        return run

    def left(self, run: Run) -> list[str]:
        return (run.folder / "left.csv").read_text(encoding="utf-8").splitlines()

    def test_what_fits_is_planned(self) -> None:
        # Of 1000 x 500 a sheet of 1000 x 600 has room for one, and then for 10 x 10 above it.
        run = self.partial(f"{HEAD}a,3,1000,500,keep\nb,4,10,10,free\n", f"{SHEETS}s,2,1000,600,1\n")
        self.assertEqual((run.err, self.left(run)), ("", ["name,count,width,height,grain", "a,1,1000,500,keep"]))
        check_panels(self, rows_of(f"{HEAD}a,2,1000,500,keep\nb,4,10,10,free\n"), saw_all(run, 3))
        lines = run.out.splitlines()
        self.assertEqual(lines[0], "6 panels from 2 sheets, cost 2")
        self.assertIn("1 panel is left, in left.csv: no sheet has room for it", lines)
        # Of all panels it is not said how many sheets they need.
        self.assertNotIn("needed", run.out)

    def test_json(self) -> None:
        run = self.partial(f"{HEAD}a,3,1000,500,keep\n", f"{SHEETS}s,2,1000,600,1\n", "--json")
        [panel], [material] = run.json["left"], run.json["materials"]
        self.assertEqual((panel["name"].split(" #")[0], panel["line"], panel["width"], panel["height"]), ("a", 2, 1000, 500))
        self.assertEqual((material["least_sheets"], material["is_optimal"]), (None, False))

    def test_as_little_as_can_be_is_left(self) -> None:
        # The sheet takes the large panel, or both small ones, of which the area is less.
        run = self.partial(f"{HEAD}small,2,40,100,keep\nlarge,1,90,100,keep\n", f"{SHEETS}s,1,100,100,1\n")
        self.assertEqual(self.left(run)[1:], ["small,2,40,100,keep"])

    def test_panels_that_fit_no_sheet(self) -> None:
        run = self.partial(f"{HEAD}a,1,10,10,free\nb,2,1000.5,300,free\n", f"{SHEETS}s,,1000,600,1\n")
        self.assertEqual(self.left(run)[1:], ["b,2,1000.5,300,free"])

    def test_none_fits(self) -> None:
        run = self.partial(f"{HEAD}b,2,1000.5,300,free\n", f"{SHEETS}s,,1000,600,1\n")
        self.assertEqual(sorted(path.name for path in run.folder.iterdir()), ["buy.csv", "left.csv", "offcuts.csv"])
        self.assertEqual(run.out.splitlines()[0], "2 panels are left, in left.csv: no sheet has room for them")

    def test_the_columns_are_those_of_the_list(self) -> None:
        """Also those that are not known, and in their order: so the table is a cutting list."""
        panels = 'Height;Edge;Pieces;Part;Width\n50,5;beech;4;"a;b";100\n50;;1;c;100\n'
        run = self.partial(panels, f"{SHEETS}s,1,100,104,1\n")
        self.assertEqual(self.left(run), ["height,edge,pieces,part,width", '"50,5",beech,2,a;b,100', "50,,1,c,100"])
        again = self.cut(run.folder / "left.csv", "--stock", self.write("s.csv", f"{SHEETS}s,,100,104,1\n"), "--kerf", 3,
                         "--json", out="again")
        self.assertEqual((again.status, again.json["sums"]["panels"], again.json["left"]), (0, 3, []))

    def test_without_counts(self) -> None:
        run = self.partial("width,height\n100,50\n100,60\n", "width,height,cost,count\n100,60,1,1\n")
        self.assertEqual(self.left(run), ["width,height", "100,50"])

    def test_materials(self) -> None:
        """One has no sheets at all."""
        run = self.partial("width,height,material\n10,10,oak\n20,10,ash\n", "width,height,cost,material\n10,10,1,oak\n")
        self.assertEqual(self.left(run), ["width,height,material", "20,10,ash"])
        self.assertEqual([path.name for path in run.folder.iterdir() if path.is_dir()], ["material-oak"])

    def test_all_fit(self) -> None:
        """Then it is as without the word; and what an earlier run left goes."""
        run = self.partial(f"{HEAD}a,2,100,60,keep\n", f"{SHEETS}s,1,100,100,1\n")
        self.assertTrue((run.folder / "left.csv").exists())
        run = self.cut(self.write("p.csv", f"{HEAD}a,1,100,60,keep\n"), "--stock", self.folder / "s.csv", "--kerf", 3,
                       "--partial", "--replace")
        self.assertEqual((run.status, (run.folder / "left.csv").exists()), (0, False))


class Bounds(Case):
    def said(self, panels: str, stock: str, *words: object) -> tuple[str, list[str]]:
        run = self.cut_tables(HEAD + panels, SHEETS + stock, "--kerf", 0, "--replace", *words)
        lines = run.out.splitlines()
        return lines[0], [line for line in lines if "proved" in line or "needed" in line]

    def test_it_is_proved(self) -> None:
        # By the area; and as two of 60 x 60 are never on one sheet.
        proved = ["no plan needs fewer sheets: proved"]
        self.assertEqual(self.said("a,4,100,50,free\n", "s,,100,100,1\n"), ("4 panels from 2 sheets, cost 2", proved))
        self.assertEqual(self.said("a,3,60,60,free\n", "s,,100,100,1\n"), ("3 panels from 3 sheets, cost 3", proved))
        # With the kerf between them two of 50 do not fit beside each other.
        self.assertEqual(self.said("a,2,50,100,keep\n", "s,,100,100,1\n", "--kerf", 1),
                         ("2 panels from 2 sheets, cost 2", proved))

    def test_it_is_not_known(self) -> None:
        # Four fit round a hole, where no straight cuts part them. With straight cuts there is room for three.
        self.assertEqual(self.said("a,4,60,40,free\n", "s,,100,100,1\n"),
                         ("4 panels from 2 sheets, cost 2", ["at least 1 sheet is needed"]))
        # Two large sheets would do, and cost more.
        self.assertEqual(self.said("a,4,100,50,keep\n", "s,,100,50,1\nlarge,,100,100,9\n"),
                         ("4 panels from 4 sheets, cost 4", ["at least 2 sheets are needed"]))

    def test_shelves(self) -> None:
        """Twenty shelves that may be turned fit two sheets, of which ten are on each; and sixty fit six."""
        for count, sheets in ((20, 2), (60, 6)):
            run = self.cut_tables(
                f"{HEAD}shelf,{count},800,600,free\n", f"{SHEETS}full,,2800,2070,40\n", "--kerf", "3.2", "--trim", 10, "--json",
                "--replace")
            self.assertEqual((run.json["sums"]["sheets"], run.json["materials"][0]["is_optimal"]), (sheets, True))

    def test_each_material(self) -> None:
        run = self.cut_tables(
            "width,height,material,count\n100,50,oak,2\n60,60,ash,2\n",
            "width,height,cost,material\n100,100,1,oak\n100,100,2,ash\n", "--kerf", 0, "--json")
        self.assertEqual([(it["least_sheets"], it["is_optimal"]) for it in run.json["materials"]], [(1, True), (2, True)])


if __name__ == "__main__":
    unittest.main()
