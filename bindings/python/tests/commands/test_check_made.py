"""The command check on what the other commands make of their examples."""
from __future__ import annotations

import importlib.util
import json
import subprocess
import sys
import unittest
from pathlib import Path
from typing import Any

from .check_cases import PYTHON, CheckCase, changed

HAS_PILLOW = importlib.util.find_spec("PIL") is not None


class Made(CheckCase):
    def example(self, name: str) -> Path:
        """The files of an example."""
        folder = self.folder / name
        script = PYTHON / "examples" / "commands" / f"{name}.py"
        subprocess.run([sys.executable, str(script), str(folder)], check=True, stdout=subprocess.DEVNULL)
        return folder

    def made(self, *words: object) -> Any:
        """What a command prints as JSON."""
        status, out, err = self.command(*words, "--json")
        self.assertEqual((status, err), (0, ""))
        return json.loads(out)

    def moved(self, whole: Any, place: str, axis: str, by: float) -> None:
        """What is there has no fault. With one thing elsewhere there is one."""
        self.assertEqual(self.check(self.file("whole.json", whole)).status, 0)
        at = whole
        for key in place.split():
            at = at[int(key) if key.isdigit() else key]
        other = self.file("moved.json", changed(whole, f"{place} {axis}", at[axis] + by))
        status, out, err = self.check(other)
        self.assertEqual((status, err, out.count("\n")), (1, "", 1))
        self.assertIn(f'"{at["name"] if "name" in at else at["crate"]}', out)

    @unittest.skipUnless(HAS_PILLOW, "Pillow is not there: it reads the sprites")
    def test_sheet(self) -> None:
        words = ("--alias", "--trim", "--extrude", 1, "--size", 140, "--format", "json-hash,phaser-multi,libgdx")
        whole = self.made("sheet", self.example("sheet"), *words, "-o", self.folder / "atlas")
        stored, pages = sum(page["stored"] for page in whole["pages"]), len(whole["pages"])
        self.assertGreater(pages, 1)
        self.assertLess(stored, len(whole["sprites"]))
        indices = [self.folder / name for name in ("atlas-0.json", "atlas-1.json", "atlas.phaser.json", "atlas.atlas")]
        for file in (self.file("sheet.json", whole), *indices):
            # Pixels are repeated round each sprite, and two between these are empty.
            self.assert_sound(file, f"{stored} boxes on {pages} pages", "--padding", 4)
            self.assertEqual(self.check(file, "--padding", 5).status, 1)
        self.moved(whole, "sprites 0", "x", 140)

    def test_cut(self) -> None:
        folder = self.example("cut")
        words = ("--stock", folder / "sheets.csv", "--offcuts", folder / "offcuts.csv", "--kerf", 3.2, "--trim", 10, "--no-pdf")
        whole = self.made("cut", folder / "panels.csv", *words, "--out", folder / "plan", "--tries", 5)
        parts = sum(len(sheet["panels"]) + len(sheet["offcuts"]) for sheet in whole["sheets"])
        sheets = len(whole["sheets"])
        self.assertGreater(sheets, 1)
        path = self.file("cut.json", whole)
        self.assert_sound(path, f"{parts} boxes on {sheets} sheets")
        # Some are just as far apart as the blade is wide.
        self.assertEqual(self.check(path, "--padding", "3.2").status, 0)
        self.assertEqual(self.check(path, "--padding", "3.3").status, 1)
        self.moved(whole, "sheets 0 panels 0", "x", 2500)

    def test_load(self) -> None:
        folder = self.example("load")
        # Without the containers of 40 feet, of which one may take all.
        rooms = (folder / "containers.csv").read_text().splitlines(keepends=True)
        (folder / "containers.csv").write_text("".join(line for line in rooms if not line.startswith("40 ft")))
        for words in ((), ("--together",), ("--apart-list", folder / "apart.csv")):
            whole = self.made("load", folder / "crates.csv", folder / "containers.csv", *words, "--tries", 30)
            crates, containers = whole["crates"], len(whole["containers"])
            self.assertGreater(containers, 1)
            self.assert_sound(self.file("load.json", whole), f"{crates} boxes in {containers} containers")
            self.moved(whole, "containers 0 steps 0", "x", 0.5)

    def test_view(self) -> None:
        folder = self.example("view")
        for name in ("pages.txt", "van.txt"):
            whole = self.made("view", folder / name, "--page", folder / "page.html")
            placed = [step["placed"] for scene in whole["scenes"] for step in scene["steps"] if "placed" in step]
            self.assertTrue(placed)
            status, out, err = self.check(self.file("view.json", whole))
            self.assertEqual((status, err), (0, ""))
            self.assertIn(f"{sum(map(len, placed))} boxes in ", out)


if __name__ == "__main__":
    unittest.main()
