"""Sheets that are cut alike have one plan, in text, in drawings and in the summary; each of them is told in JSON."""
from __future__ import annotations

import json
import re
import unittest
import xml.etree.ElementTree as ElementTree
from unittest import mock

from .test_cut_drawings import HAS_CAIRO, SVG
from .test_cut_runs import Case, Run, check_panels, rows_of, run_cut, saw_all

HEAD, SHEETS = "name,count,width,height,grain\n", "name,count,width,height,cost\n"

# No sheet has room for two shelves. Two sides go beside one, and 200 x 30 is left: so there are three such sheets, and one with
# the door alone.
PANELS = f"{HEAD}side,6,100,60,keep\nshelf,3,200,110,keep\ndoor,1,200,190,keep\n"
STOCK = f"{SHEETS}ply,,200,200,10\n"


class Sheets(Case):
    def run_all(self, *words: object) -> Run:
        return self.cut_tables(PANELS, STOCK, "--kerf", 0, "--keep", "100x30", *words)

    def test_one_plan(self) -> None:
        run = self.run_all()
        texts = [text.splitlines() for text in run.sheets()]
        self.assertEqual(len(texts), 2)
        [three] = [lines for lines in texts if lines[1] == "3 times this sheet"]
        [one] = [lines for lines in texts if lines is not three]
        self.assertIn(three[0], ("Sheets 1 to 3 of 4: ply, 200 x 200 mm", "Sheets 2 to 4 of 4: ply, 200 x 200 mm"))
        self.assertEqual((three[2], one[1]), ("Job panels", "Job panels"))
        self.assertTrue(three[-1].startswith("each sheet: 3 panels, 1 offcut, waste 0.0 %, "), three[-1])
        # Panels of several sheets have no number there.
        self.assertEqual(sorted(set(re.findall(r'panel "(.*?)"', "\n".join(three)))), ["shelf", "side"])
        check_panels(self, rows_of(PANELS), saw_all(run, 0))

    def test_files_and_sums(self) -> None:
        run = self.run_all()
        stems = {path.stem for path in run.folder.glob("sheet-*")}
        self.assertIn(stems, ({"sheet-1-to-3", "sheet-4"}, {"sheet-1", "sheet-2-to-4"}))
        lines = run.out.splitlines()
        self.assertEqual(lines[:2], ["10 panels from 4 sheets, cost 40", "  4 x ply, 200 x 200, cost 40"])
        self.assertIn(lines[2], ("  sheets 1 to 3: 3 times this sheet", "  sheets 2 to 4: 3 times this sheet"))
        # Of 160000, three times 6000 is kept, and 2000 wasted.
        self.assertEqual(lines[3:5], ["no plan needs fewer sheets: proved", "waste 1.3 %; 3 offcuts kept, 11.3 %"])

    def test_offcuts_have_one_name(self) -> None:
        run = self.run_all()
        lines = (run.folder / "offcuts.csv").read_text(encoding="utf-8").splitlines()
        self.assertEqual(len(lines), 2)
        self.assertRegex(lines[1], r"^panels ply [12]-1,3,200,30,0$")

    def test_json_has_each_sheet(self) -> None:
        run = self.run_all("--json")
        sheets = run.json["sheets"]
        self.assertEqual([it["number"] for it in sheets], [1, 2, 3, 4])
        self.assertEqual(sorted(len([it for it in sheets if it["plan"] == number]) for number in {it["plan"] for it in sheets}),
                         [1, 3])
        names = sorted(part["name"] for it in sheets for part in it["panels"])
        wanted = ["door", *(f"shelf #{number}" for number in (1, 2, 3)), *(f"side #{number}" for number in range(1, 7))]
        self.assertEqual(names, wanted)

    def test_the_judge_takes_what_is_printed(self) -> None:
        from rectangle_pack import commands
        path = self.write("plan.json", self.run_all("--json").out)
        self.assertEqual(len(json.loads(path.read_text(encoding="utf-8"))["sheets"]), 4)
        with mock.patch("sys.stdout"):
            self.assertEqual(commands.main(["check", str(path)]), 0)

    def test_drawings(self) -> None:
        run = self.run_all()
        [path] = run.folder.glob("sheet-*-to-*.svg")
        texts = [it.text or "" for it in ElementTree.parse(path).getroot().iter(f"{SVG}text")]
        self.assertTrue(texts[0].endswith(": ply, 200 x 200 mm: 3 times this sheet"), texts[0])
        self.assertEqual(texts[1], "Job panels")
        self.assertEqual(texts.count("side"), 2)

    @unittest.skipUnless(HAS_CAIRO, "pycairo is not there: it writes the PDF")
    def test_pdf_has_a_page_for_a_plan(self) -> None:
        run = self.run_all("--replace")
        run = self.cut(self.folder / "panels.csv", "--stock", self.folder / "sheets.csv", "--kerf", 0, "--replace", pdf=True)
        self.assertEqual(len(re.findall(rb"/Type */Page\b", (run.folder / "plan.pdf").read_bytes())), 2)

    def test_sheets_with_the_same_panels_are_cut_as_the_best_of_them(self) -> None:
        """Whatever the search says: here two sheets have their panels in another order."""
        from rectangle_pack import Section
        from rectangle_pack.commands._cut.alike import alike_of
        from rectangle_pack.commands._cut.job import Job, Kind, Laid, Panel
        from rectangle_pack.commands._cut.packing import Filled
        from rectangle_pack.commands._cut.unit import Lengths
        from rectangle_pack.commands._scale import Scale
        kind = Kind("s", 100, 100, 1, None, False, 0)
        panels = [Panel(f"{title} #{number}", key, title, width, height, True, key + 1) for number in (1, 2)
                  for key, title, width, height in ((1, "a", 100, 40), (2, "b", 60, 100))]
        job = Job(panels, [kind], 0, (30, 30), Lengths(), Scale())
        # Beside a turned: 60 + 40 is 100, and nothing is left.
        one, other = (Filled(kind, laid, places) for laid, places in (
            ((Laid(panels[1]), Laid(panels[0], True)), (Section(0, 0, 0, 60, 100, 1), Section(60, 0, 0, 40, 100, 1))),
            ((Laid(panels[2], True), Laid(panels[3])), (Section(0, 0, 0, 40, 100, 1), Section(40, 0, 0, 60, 100, 1)))))
        [alike] = alike_of(job, [one, other])
        self.assertEqual((alike.plan.count, alike.plan.waste), (2, 0))
        names = [sorted(part.name for part in sheet.panels) for sheet in alike.sheets]
        self.assertEqual(names, [["a #1", "b #1"], ["a #2", "b #2"]])
        self.assertEqual([part.rect for part in alike.sheets[0].panels], [part.rect for part in alike.sheets[1].panels])


class Apart(Case):
    def test_panels_of_one_size_and_two_names_are_no_reason(self) -> None:
        run = self.cut_tables(f"{HEAD}left,1,10,10,keep\nright,1,10,10,keep\n", f"{SHEETS}s,,10,10,1\n", "--kerf", 0)
        self.assertEqual(sorted(path.name for path in run.folder.glob("*.txt")), ["sheet-1.txt", "sheet-2.txt"])

    def test_plans_of_several_sheets_of_an_earlier_run_go(self) -> None:
        paths = [self.write("p.csv", f"{HEAD}a,2,10,10,keep\n"), "--stock", self.write("s.csv", f"{SHEETS}s,,10,10,1\n")]
        words = [*paths, "--kerf", 0, "--no-pdf"]
        self.assertEqual(run_cut(self.folder / "plan", *words).status, 0)
        self.assertTrue((self.folder / "plan" / "sheet-1-to-2.txt").exists())
        self.write("p.csv", f"{HEAD}a,1,10,10,keep\n")
        self.assertEqual(run_cut(self.folder / "plan", *words, "--replace").status, 0)
        names = sorted(path.name for path in (self.folder / "plan").iterdir())
        self.assertEqual(names, ["buy.csv", "offcuts.csv", "sheet-1.svg", "sheet-1.txt"])


class Sums(Case):
    def test_what_is_printed(self) -> None:
        # 2 x 5000 of 3 x 6000 mm2 is kept as panels; each sheet leaves 100x10, too small to keep.
        run = self.cut_tables(f"{HEAD}a,2,100,50,keep\n", f"{SHEETS}s,,100,60,1.25\n", "--kerf", 0)
        self.assertEqual(run.out.splitlines(), [
            "2 panels from 2 sheets, cost 2.5", "  2 x s, 100 x 60, cost 2.5", "  sheets 1 to 2: 2 times this sheet",
            "no plan needs fewer sheets: proved", "waste 16.7 %; 0 offcuts kept, 0.0 %", "2 cuts of 0.2 m together",
            f"4 files written to {run.folder}"])
        self.assertEqual(rows_of((run.folder / "offcuts.csv").read_text(encoding="utf-8")), [])


if __name__ == "__main__":
    unittest.main()
