"""Tests of bench/: the inputs, the layouts, and what is made of answers."""
from __future__ import annotations

import contextlib
import io
import math
import pathlib
import re
import shutil
import subprocess
import tempfile
import unittest

import atlas
import fill
import inputs
import plans
import programs
import speed

README = pathlib.Path(__file__).resolve().parents[1] / "README.md"


class Inputs(unittest.TestCase):
    def test_lines_are_commands(self) -> None:
        line = re.compile(r"bin \w+( \d+){3}|rect \w+( \d+){3}( g\d*)*|exclude g\d+ g\d+|release \d+|pack|sweep a")
        few = [inputs.one_bin(3, 64), inputs.one_deep_bin(3, 64), inputs.many_bins(3, 2), inputs.many_packings(3, 2)]
        few += [inputs.stuck_groups(2, 2), inputs.one_group(3), inputs.one_box(3), inputs.excluded(5, 3, 2), inputs.swept(3, 2)]
        for lines in (*few, inputs.given_back(3, "turns")):
            for it in lines:
                self.assertRegex(it, line)

    def test_boxes_are_counted(self) -> None:
        for it in (*speed.PACKINGS, *speed.OTHERS):
            rects = [line.split() for line in it.lines() if line.startswith("rect")]
            self.assertEqual(sum(max(1, len(words) - 5) for words in rects), it.boxes, it.name)

    def test_order_of_releases(self) -> None:
        self.assertEqual([*inputs.given_back(2, "last")][-2:], ["release 1", "release 0"])
        self.assertEqual([*inputs.given_back(2, "turns")][-3:], ["release 1", "rect r3 1 1 1", "pack"])


class Plans(unittest.TestCase):
    def test_a_strip_is_freed_before_its_row(self) -> None:
        found = plans.layout(2, plans.grid(2, 1), 3)
        wanted = ["bin 2 4 1", "box 2 1 1 1", "pack 0", "release 0", "box 1 1 1 1", "box 1 1 1 1", "pack 0"]
        self.assertEqual(found.lines, wanted)

    def test_rows_are_as_wide_as_their_bin(self) -> None:
        for rows in (plans.halved(6, 4), plans.bricks(6, 3), plans.shelves(50, 20)):
            self.assertEqual(len({sum(widths) for _, widths in rows}), 1)

    def test_nested_boxes_fill_their_bin(self) -> None:
        for found, cells in ((plans.nested(5), 5**2), (plans.nested_in_depth(5), 5**3)):
            sizes = [map(int, line.split()[1:4]) for line in found.lines if line.startswith("box")]
            self.assertEqual(sum(map(math.prod, sizes)), cells - 1)


class Fill(unittest.TestCase):
    ASKED = [fill.Asked("a", [(2, 2, 1), (1, 2, 1)], "first 0 0 3", 3), fill.Asked("a", [(4, 1, 1)], "first 0 0 4", 4)]

    def test_the_part_that_is_filled(self) -> None:
        self.assertAlmostEqual(fill.part(self.ASKED, [9, 16]), (6 / 9 + 4 / 16) / 2)
        self.assertTrue(math.isnan(fill.part(self.ASKED, [9, 0])))

    def test_the_least_that_is_asked_for(self) -> None:
        for it in (*fill.for_squares(), *fill.for_containers()):
            self.assertTrue(it.question.endswith(f" {it.least}"))
        self.assertEqual(len([*fill.for_pages()]), 500)

    @unittest.skipUnless(shutil.which("cc") and pathlib.Path("/usr/include/stb").is_dir(), "no C compiler, or no libstb-dev")
    def test_other_packers(self) -> None:
        program = programs.compiled("fill_by_hand.c", "-lm")
        found = fill.answers(program, fill.BY_HAND, [*self.ASKED, fill.Asked("a", [(2, 2, 1)] * 3, "pages 2 4", 2)])
        self.assertEqual(found, {name: [3, 4, 2] for name in fill.BY_HAND})


@unittest.skipUnless(shutil.which("cc"), "no C compiler")
class Churn(unittest.TestCase):
    def test_a_page_stays_full_and_is_whole_once_emptied(self) -> None:
        fullness = {}
        with tempfile.TemporaryDirectory() as folder:
            for name in ("model", "shelves"):
                sources = [README.parent / "churn" / it for it in ("workload.c", f"{name}.c")]
                subprocess.run(["cc", "-std=c11", "-O2", "-Wall", "-Wextra", "-Werror", *sources, "-o", f"{folder}/{name}"], check=True)
                said = subprocess.run([f"{folder}/{name}", "40000"], capture_output=True, text=True, check=True).stdout
                self.assertIn("emptied: 1 parts; a box of the whole page: taken", said)
                fullness[name] = float(atlas.told(said)[0])
        # An atlas is to be four fifths full, and fuller than by shelves.
        self.assertGreater(fullness["model"], 0.8)
        self.assertGreater(fullness["model"], fullness["shelves"])


class Reports(unittest.TestCase):
    def test_a_report_is_a_row(self) -> None:
        tenths = " ".join(f"0.8{i}/0.7{i}" for i in range(10))
        said = f"x: 9 boxes, 2 refusals, full 0.9 in the mean, 0.8 at the worst\n  by tenths: {tenths}\n"
        said += "  3 parts; 1.5 looked at a box; 0.123 M boxes/s; worst call: place 0.25 ms, mend 3.96 ms\n"
        self.assertEqual(atlas.told(said), ["0.9", "0.8", "0.80, 0.84, 0.89", "123,000", "4.0"])


class Tables(unittest.TestCase):
    def test_a_table_is_markdown(self) -> None:
        with contextlib.redirect_stdout(io.StringIO()) as said:
            programs.table(["A", "b"], [["x", "1"]])
        self.assertEqual(said.getvalue(), "| A | b |\n| --- | ---: |\n| x | 1 |\n\n")

    def test_the_readme_names_each_table(self) -> None:
        ran = subprocess.run(["python3", README.parent, "--help"], capture_output=True, text=True, check=False)
        tables = re.findall(r"\w+", ran.stderr.rpartition("Tables:")[2])
        self.assertEqual(tables, [name for row in re.findall(r"(?m)^\| (`.*?) \|", README.read_text()) for name in re.findall(r"`(\w+)`", row)])


@unittest.skipUnless(shutil.which("mypy"), "no mypy")
class Types(unittest.TestCase):
    def test_mypy_finds_nothing(self) -> None:
        said = subprocess.run(["mypy", "--strict", "--cache-dir=/dev/null", "."], cwd=README.parent, capture_output=True, text=True, check=False)
        self.assertEqual(said.returncode, 0, said.stdout + said.stderr)


if __name__ == "__main__":
    unittest.main()
