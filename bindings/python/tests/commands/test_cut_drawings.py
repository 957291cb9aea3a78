"""The drawings, and the page: SVG that can be read, to scale, without texts on each other; a PDF with a page a sheet."""
from __future__ import annotations

import importlib
import importlib.util
import re
import shutil
import subprocess
import unittest
import xml.etree.ElementTree as ElementTree
from collections.abc import Iterator
from fractions import Fraction
from itertools import combinations
from pathlib import Path
from typing import Any, NamedTuple
from unittest import mock

from .test_cut_runs import PYTHON, Case, Run, as_user, write_example

HEAD, SHEETS = "name,count,width,height,grain\n", "name,count,width,height,cost\n"

SVG = "{http://www.w3.org/2000/svg}"

HAS_CAIRO = importlib.util.find_spec("cairo") is not None

# Long names, names with signs that XML has a meaning for, small panels, and many lines.
ODD = HEAD + 'Rückwand für den großen Schrank mit einem langen Namen,3,1100,420.5,free\n"a < b & ""c""",4,333,200,keep\n'
ODD += "spacer,30,31.2,18,free\npeg,25,12,12,free\npin,4,2,2,free\nstrip,6,22,900,keep\n"
ODD += "".join(f"row {index},1,{90 + index},{70 + index},\n" for index in range(60))


class Spot(NamedTuple):
    """What a text covers."""

    text: str
    left: float
    top: float
    right: float
    bottom: float

    def meets(self, other: Spot) -> bool:
        slack = 0.05
        return (self.left + slack < other.right and other.left + slack < self.right
                and self.top + slack < other.bottom and other.top + slack < self.bottom)


def texts_of(root: ElementTree.Element) -> Iterator[Spot]:
    """The texts of a drawing, as wide as cairo sets them in the font for letters without serifs."""
    cairo: Any = importlib.import_module("cairo")
    context = cairo.Context(cairo.RecordingSurface(cairo.CONTENT_COLOR, None))
    for it in root.iter(f"{SVG}text"):
        weight = cairo.FONT_WEIGHT_BOLD if it.get("font-weight") == "bold" else cairo.FONT_WEIGHT_NORMAL
        context.select_font_face("sans-serif", cairo.FONT_SLANT_NORMAL, weight)
        size, x, y = (float(it.get(name, "")) for name in ("font-size", "x", "y"))
        context.set_font_size(size)
        width, height = context.text_extents(it.text or "").x_advance, size
        left = x - width / 2 if it.get("text-anchor") == "middle" else x
        if it.get("transform"):
            yield Spot(it.text or "", x - height / 2, y - width / 2, x + height / 2, y + width / 2)
        else:
            yield Spot(it.text or "", left, y - height / 2, left + width, y + height / 2)


def number(element: ElementTree.Element, name: str) -> Fraction:
    return Fraction(element.get(name, ""))


class Drawings(Case):
    def setUp(self) -> None:
        super().setUp()
        write_example(self.folder)
        self.words: list[object] = ["--stock", self.folder / "sheets.csv", "--offcuts", self.folder / "offcuts.csv"]
        self.words += ["--job", "sideboard", "--kerf", "3.2", "--trim", 10, "--keep", "300x200", "--tries", 20, "--json"]

    def drawn(self, run: Run) -> list[tuple[Any, ElementTree.Element]]:
        """The sheets, each with its drawing. Of those that are cut alike there is the first."""
        self.assertEqual((run.status, run.err), (0, ""))
        sheets, found = run.json["sheets"], []
        for sheet in sheets:
            if sheet["plan"] == sheet["number"]:
                last = max(it["number"] for it in sheets if it["plan"] == sheet["plan"])
                stem = f"sheet-{sheet['number']}" + (f"-to-{last}" if last > sheet["number"] else "")
                found.append((sheet, ElementTree.parse(run.folder / f"{stem}.svg").getroot()))
        return found

    def runs(self) -> Iterator[Run]:
        yield self.cut(self.folder / "panels.csv", *self.words, out="example")
        yield self.cut(self.write("odd.csv", ODD), *self.words, out="odd")

    def test_svg(self) -> None:
        for run in self.runs():
            for sheet, root in self.drawn(run):
                self.assertEqual(root.tag, f"{SVG}svg")
                title, description = root.find(f"{SVG}title"), root.find(f"{SVG}desc")
                assert title is not None and description is not None
                self.assertIn(f": {'offcut ' * sheet['is_offcut']}{sheet['name']}, ", title.text or "")
                self.assertIn(f"{len(sheet['panels'])} panels, {len(sheet['offcuts'])} offcuts", description.text or "")
                self.check_scale(sheet, root)

    def check_scale(self, sheet: Any, root: ElementTree.Element) -> None:
        """Each panel and each offcut is drawn in its place, y upwards, in the scale that is written on the drawing."""
        [scale] = re.findall(r"scale 1:([0-9.]+),", "".join(root.itertext()))
        drawn: dict[str, list[ElementTree.Element]] = {}
        for it in root.iter(f"{SVG}rect"):
            drawn.setdefault((it.findtext(f"{SVG}title") or "").split(", ")[0], []).append(it)
        # The sheet is the first rectangle with an outline.
        whole = next(it for it in root.iter(f"{SVG}rect") if it.get("stroke"))
        for part in (*sheet["panels"], *sheet["offcuts"]):
            [rect] = drawn[f"{part['role']} {part['name']}"]
            top = sheet["height"] - part["y"] - part["height"]
            wanted = [part["x"], top, part["width"], part["height"]]
            found = [number(rect, "x") - number(whole, "x"), number(rect, "y") - number(whole, "y"),
                     number(rect, "width"), number(rect, "height")]
            for on_sheet, on_paper in zip(wanted, found):
                self.assertLess(abs(on_sheet / Fraction(scale) - on_paper), Fraction("0.02"))

    @unittest.skipUnless(HAS_CAIRO, "pycairo is not there: it says how wide text is")
    def test_no_text_is_on_another_or_beyond_the_page(self) -> None:
        for run in self.runs():
            for _, root in self.drawn(run):
                texts = list(texts_of(root))
                self.assertGreater(len(texts), 5)
                width, height = map(float, root.get("viewBox", "").split()[2:])
                for it in texts:
                    self.assertTrue(0 <= it.left and it.right <= width and 0 <= it.top and it.bottom <= height, it)
                meeting = [(one.text, other.text) for one, other in combinations(texts, 2) if one.meets(other)]
                self.assertEqual(meeting, [])

    def test_small_panels_and_long_names(self) -> None:
        run = self.cut(self.write("odd.csv", ODD), *self.words, out="odd")
        texts = [it.text or "" for _, root in self.drawn(run) for it in root.iter(f"{SVG}text")]
        self.assertTrue(any(text.startswith("Rückwand") for text in texts))
        self.assertTrue(any("Too small for a number: " in text for text in texts))
        # Texts may be searched for: a name is not parted, and its signs are not lost.
        self.assertTrue(any(text.startswith('a < b & "c"') for text in texts))

    def test_the_picture_in_the_docs(self) -> None:
        """It is what the command draws of the example, with the words that the docs have."""
        picture = PYTHON.parent.parent / "docs" / "pictures" / "cut_sideboard.svg"
        if not picture.is_file():
            self.skipTest("the docs are not there")
        run = self.cut(self.folder / "panels.csv", *self.words[:-3])
        self.assertEqual(run.status, 0)
        self.assertEqual((run.folder / "sheet-3.svg").read_text(encoding="utf-8"), picture.read_text(encoding="utf-8"))

    def test_a_legend_that_is_too_long(self) -> None:
        run = self.cut(self.write("many.csv", HEAD + "".join(f"row {index},1,{90 + index},20,\n" for index in range(120))),
                       *self.words, "--replace")
        [(_, root)] = self.drawn(run)
        texts = [it.text or "" for it in root.iter(f"{SVG}text")]
        [more] = [int(match.group(1)) for text in texts if (match := re.fullmatch(r"and (\d+) more", text))]
        listed = [text for text in texts if re.fullmatch(r"1 x row \d+, \d+ x 20", text)]
        offcuts = [text for text in texts if text.startswith("offcut ") and ", " in text]
        self.assertEqual(len(listed) + more, 120 + len(run.json["sheets"][0]["offcuts"]) - len(offcuts))

    @unittest.skipUnless(HAS_CAIRO, "pycairo is not there: it writes the PDF")
    def test_pdf(self) -> None:
        run = self.cut(self.folder / "panels.csv", *self.words, pdf=True)
        pdf, sheets = run.folder / "plan.pdf", self.drawn(run)
        self.assertEqual(self.pages_of(pdf), len(sheets))
        # The same each time.
        again = self.cut(self.folder / "panels.csv", *self.words, pdf=True, out="again")
        self.assertEqual((again.folder / "plan.pdf").read_bytes(), pdf.read_bytes())
        if shutil.which("pdftotext"):
            done = subprocess.run(["pdftotext", str(pdf), "-"], capture_output=True, text=True, encoding="utf-8", check=True)
            for page, (sheet, _) in zip(done.stdout.split("\f"), sheets):
                self.assertIn(f"Sheet {sheet['number']} of {len(sheets)}: ", page)

    def pages_of(self, pdf: Path) -> int:
        """How many pages of A4 there are."""
        if shutil.which("pdfinfo"):
            done = subprocess.run(["pdfinfo", "-l", "99", str(pdf)], capture_output=True, text=True, check=True)
            sizes = re.findall(r"Page +\d+ size: +(\S+) x (\S+)", done.stdout)
            self.assertLessEqual({tuple(sorted(map(float, size))) for size in sizes}, {(595.276, 841.89)})
            return len(sizes)
        return len(re.findall(rb"/Type */Page\b", pdf.read_bytes()))


class Pages(Case):
    def scene(self, panels: str, stock: str, *words: object) -> Any:
        """What the page is given."""
        with mock.patch("rectangle_pack.commands.view.write_page", create=True) as write_page:
            run = self.cut_tables(panels, stock, *words, "--page", self.folder / "page.html", "--json")
        [(scene, path)] = [call.args for call in write_page.call_args_list]
        self.assertEqual(path, self.folder / "page.html")
        return run.json, scene

    def test_what_it_shows(self) -> None:
        write_example(self.folder)
        panels, stock = ((self.folder / name).read_text(encoding="utf-8") for name in ("panels.csv", "sheets.csv"))
        json, scene = self.scene(panels, stock, "--kerf", "3.2", "--trim", 2, "--tries", 4)
        self.assertEqual((scene.unit, len(scene.rooms), len(scene.steps)), ("0.1 mm", len(json["sheets"]), len(json["sheets"])))
        names = [room.name for room in scene.rooms]
        self.assertEqual(len(set(names)), len(names))
        self.assertEqual(set(scene.cuts), set(names))
        numbers = [item.number for step in scene.steps for item in step.placed]
        self.assertEqual(numbers, list(range(38)))
        for sheet, room, step in zip(json["sheets"], scene.rooms, scene.steps):
            self.assertEqual(room.size, (10 * sheet["width"], 10 * sheet["height"], 1))
            self.assertEqual([(it.name, it.bin, it.at, it.size) for it in step.placed], [
                (it["name"], room.name, (10 * it["x"], 10 * it["y"], 0), (10 * it["width"], 10 * it["height"], 1))
                for it in sheet["panels"]])
            self.assertEqual(len(step.free[room.name]), len(sheet["offcuts"]))
            self.check_cuts(sheet, scene.cuts[room.name], [it.at + it.size for it in step.placed])
        facts = dict(scene.facts)
        self.assertEqual((facts["sheets"], facts["panels"], facts["kerf"]), (str(len(names)), "38", "3.2 mm"))

    def check_cuts(self, sheet: Any, cuts: Any, panels: list[tuple[int, ...]]) -> None:
        """Each cut is inside its part, and through none of the panels."""
        self.assertEqual(len(cuts), len(sheet["cuts"]))
        for cut, printed in zip(cuts, sheet["cuts"]):
            (near, far), (at, size), part = cut.blade, cut.part, printed["part"]
            index = "xy".index(cut.step.axis)
            self.assertEqual((cut.step.axis, at[:2]), (printed["axis"], (10 * part["x"], 10 * part["y"])))
            self.assertEqual(size, (10 * part["width"], 10 * part["height"], 1))
            self.assertTrue(at[index] <= near < far <= at[index] + size[index])
            blade = [10 * it for it in printed["blade"]]
            self.assertEqual([near, far], [max(blade[0], at[index]), min(blade[1], at[index] + size[index])])
            other = 1 - index
            for it in panels:
                beside = it[other] >= at[other] + size[other] or it[other] + it[3 + other] <= at[other]
                self.assertTrue(beside or far <= it[index] or near >= it[index] + it[3 + index])

    def test_in_whole_millimetres(self) -> None:
        _, scene = self.scene(f"{HEAD}a,1,10,10,\n", f"{SHEETS}s,,20,20,1\n", "--kerf", 3)
        self.assertEqual((scene.unit, scene.rooms[0].size), ("mm", (20, 20, 1)))

    def test_the_file(self) -> None:
        from rectangle_pack.commands import view
        if not hasattr(view, "write_page"):
            self.skipTest("there is no write_page yet")
        words = [self.write("p.csv", f"{HEAD}a,1,10,10,\n"), "--stock", self.write("s.csv", f"{SHEETS}s,,20,20,1\n")]
        run = as_user(*words, "--kerf", 3, "--no-pdf", "--out", self.folder / "plan", "--page", self.folder / "page.html")
        self.assertEqual((run.returncode, run.stderr), (0, ""))
        self.assertGreater((self.folder / "page.html").stat().st_size, 100)


if __name__ == "__main__":
    unittest.main()
