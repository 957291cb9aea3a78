"""Tables as spreadsheets write them, names of all sorts, and all that is refused: by one line, and without a file."""
from __future__ import annotations

import os
import unittest
from fractions import Fraction
from pathlib import Path

from .test_cut_runs import Case, as_user, check_panels, rows_of, saw_all, write_example

HEAD, SHEETS = "name,count,width,height,grain\n", "name,count,width,height,cost\n"
PANELS, STOCK = f"{HEAD}a,2,100,50,free\n", f"{SHEETS}s,,300,200,9\n"


class Tables(Case):
    def test_as_a_spreadsheet_writes_them(self) -> None:
        panels = self.folder / "panels.csv"
        lines = ("\ufeffHeight;NAME; Width ;count;Grain", "50,5;Tür;100,25;2;Keep", ";;;;", "", '20;"a;b";10;;', "")
        panels.write_bytes("\r\n".join(lines).encode())
        stock = self.folder / "sheets.csv"
        stock.write_bytes(b"cost\twidth\theight\r\n9,50\t300\t200\r\n")
        run = self.cut(panels, "--stock", stock, "--kerf", "3,2", "--keep", "50,5X50", "--json")
        self.assertEqual((run.status, run.err), (0, ""))
        [sheet] = run.json["sheets"]
        self.assertEqual((sheet["name"], sheet["cost"], run.json["kerf"]), ("sheet", Fraction("9.5"), Fraction("3.2")))
        self.assertEqual(run.json["keep"], [Fraction("50.5"), 50])
        check_panels(self, [
            {"name": "Tür", "count": "2", "width": "100.25", "height": "50.5", "grain": "keep"},
            {"name": "a;b", "count": "1", "width": "10", "height": "20", "grain": "free"}], saw_all(run, "3.2"))

    def test_words_for_grain(self) -> None:
        for word, fits in (("keep", False), ("Yes", False), ("free", True), ("NO", True), ("", True)):
            panels, stock = self.write("p.csv", f"{HEAD}a,1,100,200,{word}\n"), self.write("s.csv", f"{SHEETS}s,,200,100,1\n")
            run = self.cut(panels, "--stock", stock, "--kerf", 0, "--replace")
            self.assertEqual(run.status, 0 if fits else 1, word)

    def test_other_names_of_columns(self) -> None:
        """Where the sides are length and width, the length lies along x: a panel that keeps its direction fits so."""
        panels = self.write("p.csv", "Part;Pieces;Length;Width;Grain;Edge\nside;2;200;100;keep;beech\n")
        stock = self.write("s.csv", "sheet,qty,width,height,price,,note,note\nply,3,200,100,7.5,,,\n")
        run = self.cut(panels, "--stock", stock, "--kerf", 0, "--json")
        passed = f"columns that are passed over: 'edge' of {panels}; 'note' of {stock}\n"
        self.assertEqual((run.status, run.err), (0, passed))
        self.assertEqual([(it["name"], it["count"], it["cost"]) for it in run.json["used"]], [("ply", 2, 15)])
        self.assertEqual([part["name"] for sheet in run.json["sheets"] for part in sheet["panels"]], ["side #1", "side #2"])

    def test_a_column_that_has_its_own_name_too(self) -> None:
        panels = self.write("p.csv", "qty,count,pieces,width,height\n9,2,7,10,10\n")
        run = self.cut(panels, "--stock", self.write("s.csv", STOCK), "--kerf", 0, "--json")
        self.assertEqual((run.status, run.err), (0, f"columns that are passed over: 'qty', 'pieces' of {panels}\n"))
        self.assertEqual(run.json["sums"]["panels"], 2)

    def test_names(self) -> None:
        """Panels of one name are numbered, past names that stand in the list. Each name is in one line, and can be printed."""
        rows = ["a,2,10,10,", "a #1,1,20,10,", "a,1,30,10,", ",2,40,10,", "b,0,50,10,", '"two\nlines",1,60,10,']
        rows += ["\x07bell,1,70,10,"]
        run = self.cut_tables(HEAD + "\n".join(rows) + "\n", STOCK, "--kerf", 0)
        panels = sorted((max(size), name) for sheet in saw_all(run, 0) for name, size, _ in sheet.panels)
        self.assertEqual(panels, [
            (10, "a #2"), (10, "a #3"), (20, "a #1"), (30, "a #4"), (40, "panel #1"), (40, "panel #2"), (60, "two lines"),
            (70, "?bell")])

    def test_numbers_are_exact(self) -> None:
        # 0.1 + 0.2 is 0.3 here: 3 panels with two kerfs between them.
        run = self.cut_tables(f"{HEAD}a,3,0.1,0.1,keep\n", f"{SHEETS}s,,0.7000,0.1,1\n", "--kerf", "0.2", "--keep", "1x1")
        self.assertEqual([sheet.size for sheet in saw_all(run, "0.2")], [(Fraction("0.7"), Fraction("0.1"))])
        # The largest sheet that the library holds.
        run = self.cut_tables(f"{HEAD}a,1,4294967294,7,keep\n", f"{SHEETS}s,,4294967294,8,1\n", "--kerf", "1", "--replace")
        self.assertEqual(len(saw_all(run, 1)), 1)

    def test_offcuts_of_several_runs(self) -> None:
        """All are there to cut from; and a panel tells the line of its list, as an editor counts them."""
        first, second = self.write("one.csv", f"{SHEETS}one,1,50,50,0\n"), self.write("two.csv", f"{SHEETS}two,1,60,60,0\n")
        panels = self.write("p.csv", f"{HEAD}a,1,60,60,keep\n\nb,1,50,50,keep\n")
        run = self.cut(panels, "--offcuts", first, "--offcuts", second, "--kerf", 0, "--json")
        self.assertEqual((run.status, run.err), (0, ""))
        cut = {sheet["name"]: [(part["name"], part["line"]) for part in sheet["panels"]] for sheet in run.json["sheets"]}
        self.assertEqual(cut, {"one": [("b", 4)], "two": [("a", 2)]})

    def test_the_same_each_time(self) -> None:
        write_example(self.folder)
        words = [self.folder / "panels.csv", "--stock", self.folder / "sheets.csv", "--offcuts", self.folder / "offcuts.csv",
                 "--kerf", "3.2", "--trim", 10, "--tries", 40, "--json"]
        found = []
        for seed in ("1", "2"):
            run = as_user(*words, "--no-pdf", "--out", self.folder / seed, PYTHONHASHSEED=seed)
            self.assertEqual((run.returncode, run.stderr), (0, ""))
            found.append([(path.name, path.read_bytes()) for path in sorted((self.folder / seed).iterdir())])
            found[-1].append(("", run.stdout.replace(f"/{seed}/", "/").encode()))
        self.assertEqual(found[0], found[1])


class Refusals(Case):
    def refused(self, *words: object, status: int = 2) -> str:
        before = self.files()
        run = self.cut(*words)
        self.assertEqual((run.status, run.out, run.err.count("\n")), (status, "", 1), run.err)
        self.assertEqual(self.files(), before)
        return run.err.rstrip("\n").replace(f"{self.folder}{os.sep}", "")

    def files(self) -> list[Path]:
        return sorted(path for path in self.folder.rglob("*") if path.name not in ("p.csv", "s.csv", "o.csv"))

    def of_panels(self, text: str, *words: object) -> str:
        return self.refused(self.write("p.csv", text), "--stock", self.write("s.csv", STOCK), "--kerf", 3, *words)

    def of_stock(self, text: str) -> str:
        return self.refused(self.write("p.csv", PANELS), "--stock", self.write("s.csv", text), "--kerf", 3)

    def of_words(self, *words: object) -> str:
        return self.refused(self.write("p.csv", PANELS), "--stock", self.write("s.csv", STOCK), *words)

    def test_lists(self) -> None:
        whole = "and must be a whole number from 0 to 4294967295"
        line = HEAD + "a,1,10,10,\n"
        for text, why in (
            ("", "p.csv: is empty; its first line names the columns: width, height"),
            (HEAD, "p.csv: names no panel"),
            (HEAD + "a,0,10,10,\n", "p.csv: names no panel"),
            ("name,width\na,1\n", "p.csv:1: the column 'height' is missing"),
            # A required column that is mistyped is missing, also where others are passed over.
            ("name,widht,height,colour\na,1,1,red\n",
             "p.csv:1: the column 'width' is missing; not known: 'widht', 'colour'"),
            ("width,height,width\n1,1,1\n", "p.csv:1: the column 'width' is named twice"),
            (line + "b,two,10,10,\n", f"p.csv:3: count is 'two', {whole}"),
            (line + "b,-1,10,10,\n", f"p.csv:3: count is '-1', {whole}"),
            (line + "b,1.5,10,10,\n", f"p.csv:3: count is '1.5', {whole}"),
            (line + "b,1,,10,\n", "p.csv:3: width is missing"),
            (line + "b,1,0,10,\n", "p.csv:3: width is 0, and must be more than 0"),
            (line + "b,1,10,-3,\n", "p.csv:3: height is -3, and must be more than 0"),
            (line + "b,1,-500,10,\n", "p.csv:3: width is -500, and must be more than 0"),
            (line + "b,4294967296,10,10,\n", f"p.csv:3: count is '4294967296', {whole}"),
            ("qty,length,width\n-1,10,10\n", f"p.csv:2: qty is '-1', {whole}"),
            ("qty,length,width\n1,-500,10\n", "p.csv:2: length is -500, and must be more than 0"),
            ("qty,length,width\n1,10,0\n", "p.csv:2: width is 0, and must be more than 0"),
            ("length,width,height\n900,600,18\n",
             "p.csv:1: the column 'length' is one too many beside 'width' and 'height', which are the two sides"),
            (line + "b,1,10,ten,\n", "p.csv:3: height is 'ten', and must be a number"),
            (line + "b,1,nan,10,\n", "p.csv:3: width is 'nan', and must be a number"),
            (line + "b,1,inf,10,\n", "p.csv:3: width is 'inf', and must be a number"),
            (line + "b,1,1e400,10,\n", "p.csv:3: width is 1e400, and must be at most 4294967295"),
            (line + "b,1,1e-400,10,\n", "p.csv:3: width is 1e-400, and must have at most 9 decimals"),
            (line + "b,1,4294967296,10,\n", "p.csv:3: width is 4294967296, and must be at most 4294967295"),
            (line + "b,1,10,10,maybe\n", "p.csv:3: grain is 'maybe', and must be one of: keep, yes, free, no"),
            (line + "b,1,10,10,keep,x\n", "p.csv:3: 6 columns, and the first line names 5"),
            (HEAD + "a,100000,1,1,\nb,1,1,1,\n", "p.csv: names 100001 panels, and at most 100000 can be cut at once"),
            # With a kerf of 3, and all in steps of 0.001.
            (line + "b,1,4294967.293,10,\n",
             "p.csv:3: width is too large: 4294964.295 mm at most, where all is measured in steps of 0.001 mm"),
        ):
            with self.subTest(text=text[-40:]):
                self.assertEqual(self.of_panels(text), why)
        (self.folder / "p.csv").write_bytes(b"width,height\n\xff,1\n")
        words = ["--stock", self.folder / "s.csv", "--kerf", 3]
        self.assertEqual(self.refused(self.folder / "p.csv", *words), "p.csv: is no text in UTF-8: save it as CSV in UTF-8")
        self.assertEqual(self.refused(self.folder / "none.csv", *words), "none.csv: cannot be read: No such file or directory")
        self.assertIn("cannot be read: Is a directory", self.refused(self.folder, *words))

    def test_stock(self) -> None:
        for text, why in (
            ("", "s.csv: is empty; its first line names the columns: width, height, cost"),
            (SHEETS, "s.csv: names no sheet"),
            ("width,height\n1,1\n", "s.csv:1: the column 'cost' is missing"),
            (SHEETS + "s,,300,200,\n", "s.csv:2: cost is missing"),
            (SHEETS + "s,,300,200,-1\n", "s.csv:2: cost is -1, and must be at least 0"),
            (SHEETS + "s,,300,0.0,1\n", "s.csv:2: height is 0.0, and must be more than 0"),
            (SHEETS + "s,,4294967293,200,1\n",
             "s.csv:2: width is too large: 4294967292 mm at most, where all is measured in steps of 1 mm"),
        ):
            with self.subTest(text=text[-40:]):
                self.assertEqual(self.of_stock(text), why)
        offcuts = self.write("o.csv", SHEETS + "o,one,1,1,1\n")
        why = "o.csv:2: count is 'one', and must be a whole number from 0 to 4294967295"
        self.assertEqual(self.of_words("--kerf", 3, "--offcuts", offcuts), why)
        none = self.folder / "none.csv"
        self.assertIn("none.csv: cannot be read", self.of_words("--kerf", 3, "--offcuts", none))
        self.assertIn("none.csv: cannot be read", self.refused(self.folder / "p.csv", "--stock", none, "--kerf", 3))

    def test_words(self) -> None:
        number = "and must be a number in mm that is not negative"
        for words, why in (
            (("--kerf", "wide"), f"--kerf is 'wide', {number}"),
            (("--kerf", "-1"), f"--kerf is '-1', {number}"),
            (("--kerf", "1,000.5"), f"--kerf is '1,000.5', {number}"),
            (("--kerf", "1e-10"), "--kerf is 1e-10, and must have at most 9 decimals"),
            (("--kerf", "4294967295"), "--kerf is too large, where all is measured in steps of 1 mm"),
            (("--kerf", "3", "--trim", "nan"), f"--trim is 'nan', {number}"),
            (("--kerf", "3", "--keep", "300"), "--keep is '300', and must be a width and a height in mm, as 200x200"),
            (("--kerf", "3", "--keep", "300xtwo"), f"--keep is 'two', {number}"),
            (("--kerf", "3", "--tries", "0"), f"--tries is 0, and must be from 1 to {2**63 - 1}"),
            (("--kerf", "3", "--seconds", "0"), "--seconds is 0, and must be more than 0, and less than a billion"),
            (("--kerf", "3", "--seconds", "nan"), "--seconds is nan, and must be more than 0, and less than a billion"),
            (("--kerf", "3", "--job", " "), "--job is empty, and must be a name"),
        ):
            with self.subTest(words=words):
                self.assertEqual(self.of_words(*words), why)
        self.assertEqual(self.refused(self.write("p.csv", PANELS), "--kerf", 3),
                         "there is nothing to cut from: name --stock, --offcuts or both")

    def test_words_that_the_parser_refuses(self) -> None:
        for words in ((), ("--kerf",), ("--kerf", "3", "--tries", "many"), ("--kerf", "3", "--seconds", "long")):
            run = self.cut(self.write("p.csv", PANELS), "--stock", self.write("s.csv", STOCK), *words)
            self.assertEqual((run.status, run.out, run.folder.exists()), (2, "", False))

    def test_folders(self) -> None:
        words = [self.write("p.csv", PANELS), "--stock", self.write("s.csv", STOCK), "--kerf", 3, "--no-pdf"]
        self.write("file", "")
        for out, why in (("file", "file: is not a folder"), ("file/plan", "file/plan/sheet-1.txt: cannot be written: ")):
            run = as_user(*words, "--out", self.folder / out)
            self.assertEqual((run.returncode, run.stdout, run.stderr.count("\n")), (2, "", 1))
            self.assertIn(why, run.stderr)
        self.assertEqual(self.cut(*words).status, 0)
        self.assertEqual(self.refused(*words), "plan/buy.csv: is there already, of an earlier run: --replace lets it go")

    def test_plans_of_an_earlier_run_go(self) -> None:
        words = ["--stock", self.write("s.csv", STOCK), "--kerf", 3]
        self.assertEqual(self.cut(self.write("p.csv", f"{HEAD}a,3,300,200,\n"), *words).status, 0)
        (self.folder / "plan" / "notes.txt").write_text("mine", encoding="utf-8")
        (self.folder / "plan" / "plan.pdf").write_text("old", encoding="utf-8")
        self.assertEqual(self.cut(self.write("p.csv", f"{HEAD}a,1,300,200,\n"), *words, "--replace").status, 0)
        names = sorted(path.name for path in (self.folder / "plan").iterdir())
        self.assertEqual(names, ["buy.csv", "notes.txt", "offcuts.csv", "sheet-1.svg", "sheet-1.txt"])

    def test_a_pdf_needs_its_library(self) -> None:
        self.write("cairo.py", "raise ImportError\n")
        words = [self.write("p.csv", PANELS), "--stock", self.write("s.csv", STOCK), "--kerf", 3, "--out", self.folder / "plan"]
        run = as_user(*words, FIRST=str(self.folder))
        self.assertEqual((run.returncode, run.stdout), (2, ""))
        self.assertEqual(run.stderr, "a PDF (--no-pdf leaves it out) needs pycairo: install it with `pip install pycairo`\n")
        self.assertFalse((self.folder / "plan").exists())
        self.assertEqual(as_user(*words, "--no-pdf", FIRST=str(self.folder)).returncode, 0)

    def test_as_a_user_sees_it(self) -> None:
        run = as_user("none.csv", "--stock", "none.csv", "--kerf", 3, "--out", self.folder / "plan", "--no-pdf")
        why = "none.csv: cannot be read: No such file or directory\n"
        self.assertEqual((run.returncode, run.stdout, run.stderr), (2, "", why))
        run = as_user("--help")
        self.assertEqual((run.returncode, run.stderr), (0, ""))
        self.assertIn("python3 -m rectangle_pack cut panels.csv --stock sheets.csv", run.stdout)


if __name__ == "__main__":
    unittest.main()
