"""Several materials in one run: each is a job of its own. And the names of jobs and of offcuts."""
from __future__ import annotations

import unittest
from fractions import Fraction
from pathlib import Path
from typing import Any
from unittest import mock

from .test_cut_runs import Case, Run, rows_of, run_cut, saw_all

PANELS = """name,count,width,height,material,thickness
door,2,100,50,Oak,18
back,1,100,50,MDF,18
shelf,1,90,50,oak,"18,0"
lid,1,100,50,Oak,19
"""
STOCK = """name,width,height,cost,material,thickness
full,100,100,10,oak,18
full,100,50,3,mdf,18
full,120,50,7,oak,19
full,100,50,1,pine,18
"""
OFFCUTS = """name,count,width,height,cost,material,thickness
rest,2,90,50,0,OAK,18
old,3,80,40,0,pine,18
"""
FOLDERS = ("material-Oak-18", "material-MDF-18", "material-Oak-19")


class Materials(Case):
    def run_all(self, *words: object, panels: str = PANELS, stock: str = STOCK, offcuts: str = OFFCUTS, **named: Any) -> Run:
        return self.cut_tables(panels, stock, "--kerf", 0, "--keep", "20x20", *words, offcuts=offcuts, **named)

    def files(self, run: Run) -> list[str]:
        return sorted(str(path.relative_to(run.folder)) for path in run.folder.rglob("*") if path.is_file())

    def test_panels_only_go_on_sheets_of_their_material(self) -> None:
        run = self.run_all()
        found = {folder: [(it.name, [panel[0] for panel in it.panels]) for it in saw_all(run, 0, folder)] for folder in FOLDERS}
        # The shelf takes the rest of 90 x 50; both doors fill a sheet. What is written 18,0 is 18; Oak and oak are one.
        self.assertEqual(sorted(found["material-Oak-18"]), [("full", ["door #1", "door #2"]), ("rest", ["shelf"])])
        self.assertEqual((found["material-MDF-18"], found["material-Oak-19"]), ([("full", ["back"])], [("full", ["lid"])]))

    def test_files(self) -> None:
        run = self.run_all()
        wanted = [f"material-{it}/sheet-1.{end}" for it in ("MDF-18", "Oak-18", "Oak-19") for end in ("svg", "txt")]
        wanted += [f"material-Oak-18/sheet-2.{end}" for end in ("svg", "txt")]
        self.assertEqual(self.files(run), sorted([*wanted, "buy.csv", "offcuts.csv"]))
        text = (run.folder / "material-Oak-19" / "sheet-1.txt").read_text(encoding="utf-8")
        self.assertEqual(text.splitlines()[:2], ["Sheet 1 of 1: full, 120 x 50 mm", "Job panels, Oak 19 mm"])
        svg = (run.folder / "material-Oak-19" / "sheet-1.svg").read_text(encoding="utf-8")
        self.assertIn(">Job panels, Oak 19 mm</text>", svg)

    def test_plans_of_an_earlier_run_go(self) -> None:
        """So do the folders that they leave empty. A file of the user stays, and so does a folder that is no material's."""
        first = self.run_all()
        (first.folder / "material-Oak-18" / "notes.txt").write_text("mine", encoding="utf-8")
        other = first.folder / "other" / "sheet-1.txt"
        other.parent.mkdir()
        other.write_text("mine", encoding="utf-8")
        again = self.cut(self.folder / "panels.csv", "--stock", self.folder / "sheets.csv", "--kerf", 0)
        self.assertEqual((again.status, again.err), (
            2, f"{first.folder}/buy.csv: is there already, of an earlier run: --replace lets it go\n"))
        (first.folder / "buy.csv").unlink()
        (first.folder / "offcuts.csv").unlink()
        again = self.cut(self.folder / "panels.csv", "--stock", self.folder / "sheets.csv", "--kerf", 0)
        self.assertIn("sheet-1.svg: is there already", again.err)
        plain = self.write("p.csv", "width,height\n10,10\n"), "--stock", self.write("s.csv", "width,height,cost\n10,10,1\n")
        self.assertEqual(run_cut(first.folder, *plain, "--kerf", 0, "--no-pdf", "--replace").status, 0)
        self.assertEqual(self.files(first), [
            "buy.csv", "material-Oak-18/notes.txt", "offcuts.csv", "other/sheet-1.txt", "sheet-1.svg", "sheet-1.txt"])
        self.assertFalse((first.folder / "material-MDF-18").exists())

    def test_offcuts_and_what_to_buy(self) -> None:
        run = self.run_all()
        # One rest of oak is used, the other is left, and so are those of pine, of which no panel is. 20 x 50 is left of 120.
        self.assertEqual((run.folder / "offcuts.csv").read_text(encoding="utf-8").splitlines(), [
            "name,count,material,thickness,width,height,cost", "rest,1,Oak,18,90,50,0", "old,3,pine,18,80,40,0",
            "panels Oak 19 1-1,1,Oak,19,20,50,0"])
        self.assertEqual((run.folder / "buy.csv").read_text(encoding="utf-8").splitlines(), [
            "sheet,size,material,thickness,count,cost each,cost", "full,100 x 100,Oak,18,1,10,10", "full,100 x 50,MDF,18,1,3,3",
            "full,120 x 50,Oak,19,1,7,7"])

    def test_sums(self) -> None:
        run = self.run_all()
        lines = run.out.splitlines()
        self.assertEqual([line for line in lines if " from " in line], [
            "Oak 18 mm: 3 panels from 2 sheets, cost 10", "MDF 18 mm: 1 panel from 1 sheet, cost 3",
            "Oak 19 mm: 1 panel from 1 sheet, cost 7", "together: 5 panels from 4 sheets, cost 20"])
        # Nothing is wasted of 10000 + 4500 + 5000 + 6000, and 1000 of it is kept.
        self.assertIn("waste 0.0 %; 1 offcut kept, 3.9 %", lines)

    def test_json(self) -> None:
        json = self.run_all("--json", "--job", "Hall").json
        self.assertEqual((json["job"], json["sums"]["sheets"], json["sums"]["cost"]), ("Hall", 4, 20))
        self.assertEqual([(it["material"], it["thickness"], it["sums"]["cost"]) for it in json["materials"]], [
            ("Oak", "18", 10), ("MDF", "18", 3), ("Oak", "19", 7)])
        self.assertEqual({(it["name"], it["material"], it["thickness"]) for it in json["sheets"]}, {
            ("full", "Oak", "18"), ("rest", "Oak", "18"), ("full", "MDF", "18"), ("full", "Oak", "19")})
        self.assertEqual([it["name"] for sheet in json["sheets"] for it in sheet["offcuts"]], ["Hall Oak 19 1-1"])

    def test_one_column_alone(self) -> None:
        for column, value, of in (("material", "oak", "oak"), ("thickness", "18", "18 mm")):
            run = self.run_all(
                panels=f"width,height,{column}\n10,10,{value}\n", stock=f"width,height,cost,{column}\n10,50,1,{value}\n",
                offcuts="", out=column)
            [text] = run.sheets(f"material-{value}")
            self.assertEqual(text.splitlines()[1], f"Job panels, {of}")
            offcuts = (run.folder / "offcuts.csv").read_text(encoding="utf-8")
            self.assertEqual(offcuts, f"name,count,{column},width,height,cost\n")

    def test_folders_whose_names_would_be_one(self) -> None:
        run = self.run_all(panels="width,height,material\n10,10,a/b\n10,10,a b\n10,10,..\n",
                           stock="width,height,cost,material\n10,10,1,a/b\n10,10,1,a b\n10,10,1,..\n", offcuts="")
        folders = sorted(path.name for path in run.folder.iterdir() if path.is_dir())
        self.assertEqual(folders, ["material-a-b", "material-a-b--2", "material-other"])

    def refused(self, panels: str, stock: str, offcuts: str = "") -> tuple[int, str]:
        paths: list[object] = [self.write("p.csv", panels), "--stock", self.write("s.csv", stock)]
        paths += ["--offcuts", self.write("o.csv", offcuts)] if offcuts else []
        run = self.cut(*paths, "--kerf", 0)
        self.assertEqual((run.out, run.err.count("\n"), run.folder.exists()), ("", 1, False))
        return run.status, run.err.replace(f"{self.folder}/", "").rstrip("\n")

    def test_refusals(self) -> None:
        with_it, without = "width,height,cost,material\n10,10,1,oak\n", "width,height,cost\n10,10,1\n"
        panels, plain = "width,height,material\n10,10,oak\n", "width,height\n10,10\n"
        for words, status, why in (
            ((panels, without), 2, "s.csv:1: the column 'material' is missing, and p.csv has it"),
            ((plain, with_it), 2, "p.csv:1: the column 'material' is missing, and s.csv has it"),
            ((panels, with_it, without), 2, "o.csv:1: the column 'material' is missing, and p.csv has it"),
            (("width,height,thickness\n10,10,18\n", without), 2,
             "s.csv:1: the column 'thickness' is missing, and p.csv has it"),
            (("width,height,material\n10,10,\n", with_it), 2, "p.csv:2: material is missing"),
            (("width,height,thickness\n10,10,0\n", without), 2, "p.csv:2: thickness is 0, and must be more than 0"),
            (("name,width,height,material\na,10,11,oak\n", with_it), 1, "oak: the panel 'a' of line 2, 10 x 11, fits no sheet"),
            (("name,width,height,material\na,10,10,pine\n", with_it), 1, "the panel 'a' of line 2 is of pine, and no sheet is"),
        ):
            with self.subTest(why):
                self.assertEqual(self.refused(*words), (status, why))

    def test_a_panel_that_fits_no_sheet_is_named_before_the_first_search(self) -> None:
        stock = "width,height,cost,material\n10,10,1,oak\n10,10,1,ash\n"
        with mock.patch("rectangle_pack.commands.cut.search_all", side_effect=AssertionError("a search has begun")):
            refused = self.refused("name,width,height,material\na,10,10,oak\nb,10,11,ash\n", stock)
        self.assertEqual(refused, (1, "ash: the panel 'b' of line 3, 10 x 11, fits no sheet"))

    def test_stock_that_is_used_up(self) -> None:
        stock = "count,width,height,cost,material\n9,10,10,1,oak\n1,10,10,1,ash\n"
        refused = self.refused("name,count,width,height,material\na,1,10,10,oak\nb,2,10,10,ash\n", stock)
        why = "ash: the stock is used up: there is no room for 1 of 2 panels, as 'b #2', 10 x 10"
        self.assertEqual(refused, (1, why))

    def test_offcuts_of_which_there_are_none(self) -> None:
        """A table with nothing but its head says nothing of materials."""
        run = self.run_all(offcuts="name,count,width,height,cost\n")
        self.assertIn("Oak 18 mm: 3 panels from 2 sheets, cost 20", run.out.splitlines())


class Names(Case):
    def offcuts(self, run: Run) -> list[tuple[str, str]]:
        rows = rows_of((run.folder / "offcuts.csv").read_text(encoding="utf-8"))
        return [(row["name"], row["count"]) for row in rows]

    def one(self, panels: Path, out: str, *words: object) -> Run:
        stock = self.write("s.csv", "name,width,height,cost\nfull 2800x2070,2800,2070,40\n")
        run = self.cut(panels, "--stock", stock, "--kerf", 0, *words, out=out)
        self.assertEqual((run.status, run.err), (0, ""))
        return run

    def test_two_jobs_name_their_offcuts_apart(self) -> None:
        table = "name,width,height\ntop,2800,1000\n"
        kitchen, hall = self.write("kitchen.csv", table), self.write("hall.csv", table)
        self.assertEqual(self.offcuts(self.one(kitchen, "one")), [("kitchen full 2800x2070 1-1", "1")])
        self.assertEqual(self.offcuts(self.one(hall, "two")), [("hall full 2800x2070 1-1", "1")])
        run = self.one(hall, "three", "--job", "Smith\n 7", "--json")
        self.assertEqual(self.offcuts(run), [("Smith 7 full 2800x2070 1-1", "1")])
        self.assertEqual(run.json["job"], "Smith 7")
        [text] = run.sheets()
        self.assertEqual(text.splitlines()[1], "Job Smith 7")

    def test_no_offcut_has_the_name_of_one_that_is_there(self) -> None:
        panels = self.write("kitchen.csv", "name,width,height\ntop,2800,1000\n")
        rack = self.write("rack.csv", "name,width,height\nkitchen full 2800x2070 1-1,500,500\n")
        run = self.one(panels, "one", "--offcuts", rack)
        self.assertEqual(self.offcuts(run), [("kitchen full 2800x2070 1-1", "1"), ("kitchen full 2800x2070 1-2", "1")])


class Buying(Case):
    def test_what_is_bought(self) -> None:
        """Each kind in a line, with its number. An offcut is not bought, also where it has a cost."""
        run = self.cut_tables(
            "width,height,count\n100,50,4\n", "name,width,height,cost\n\"birch, 18\",100,100.5,62.50\nsmall,100,50,50\n",
            "--kerf", 0, "--json", offcuts="name,width,height,cost\nold,100,50,1\n")
        self.assertEqual(rows_of((run.folder / "buy.csv").read_text(encoding="utf-8")), [
            {"sheet": "birch, 18", "size": "100 x 100.5", "material": "", "thickness": "", "count": "1", "cost each": "62.5",
             "cost": "62.5"},
            {"sheet": "small", "size": "100 x 50", "material": "", "thickness": "", "count": "1", "cost each": "50",
             "cost": "50"}])
        self.assertEqual(run.json["sums"]["cost"], Fraction("113.5"))

    def test_nothing_is_bought(self) -> None:
        run = self.cut_tables("width,height\n10,10\n", "width,height,cost\n10,10,1\n", "--kerf", 0,
                              offcuts="width,height\n10,10\n")
        self.assertEqual(rows_of((run.folder / "buy.csv").read_text(encoding="utf-8")), [])

    def test_several_of_a_kind(self) -> None:
        run = self.cut_tables("width,height,count\n10,10,3\n", "name,width,height,cost\ns,10,10,1.25\n", "--kerf", 0)
        [row] = rows_of((run.folder / "buy.csv").read_text(encoding="utf-8"))
        self.assertEqual((row["count"], row["cost each"], row["cost"]), ("3", "1.25", "3.75"))


if __name__ == "__main__":
    unittest.main()
