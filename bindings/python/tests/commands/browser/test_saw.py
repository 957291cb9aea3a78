"""The steps at the saw on the page in a browser: each number that it prints is that of the text for the same sheet."""
from __future__ import annotations

import re
import unittest
from collections import Counter
from collections.abc import Iterator, Sequence
from typing import NamedTuple

from ..cut_steps import PAGE, Piece, Step, head_of, step_in, steps_in
from ..cutting_lists import CuttingList, by_hand, drawn_lists
from ..test_cut_drawings import ODD
from ..test_cut_runs import UNCUT, run_cut, write_example
from ..test_view_tools import TOP, cut_scene, with_everything
from .browser import BrowserCase, Keys, program

from rectangle_pack.commands._view._drawings import read_drawings

# Goes through cuts, and answers what the page says of each: in its list, beside the drawing, and to who listens. What is
# spoken waits for a moment of rest, which is made short.
GO = """const [first, last, done] = arguments;
    const real = window.setTimeout.bind(window);
    window.setTimeout = (run) => real(run, 0);
    const text = (id) => document.getElementById(id).textContent;
    const frame = () => new Promise((go) => requestAnimationFrame(() => real(go, 0)));
    (async () => {
      const [list, slider, said] = [document.getElementById('steps'), document.getElementById('slider'), []];
      for (let cut = first; cut < Math.min(last, list.options.length); cut += 1) {
        slider.value = String(cut);
        slider.dispatchEvent(new Event('input', {bubbles: true}));
        await frame();
        const option = list.selectedOptions[0];
        said.push([option.parentElement.label, option.textContent, text('command'), text('status')]);
      }
      done(said);
    })();"""
BOXES = """return [...document.querySelectorAll('#table tbody tr')].map((row) => (
    [...row.cells].map((cell) => cell.textContent)))"""


def written(it: Piece) -> str:
    """A piece as the page writes it."""
    title = it.name if it.role == "part" else f'{it.role} "{it.name}"' if it.name else it.role
    return " ".join(filter(None, (title, f"{it.width} × {it.height}", "(turned)" if it.is_turned else "")))


def brief(step: Step) -> str:
    """A step as it stands in the list."""
    what = f"{step.where} at {step.length}" if step.where in ("x", "y") else f"{step.length} off the {step.where}"
    return f"{step.number}. {what} of {written(step.piece)}"


def spoken(step: Step, count: int, room: str, kerf: str, unit: str = "mm") -> str:
    """What is said of a step to who listens."""
    name = step.piece.name or "the part"
    takes = f", which takes the next {kerf} {unit}" if kerf != "0" else ""
    if step.where in ("x", "y"):
        side = {"x": "left", "y": "lower"}[step.where]
        how = f"It is {step.length} {unit} from the {side} edge of {name} to the near side of the blade{takes}"
    else:
        how = f"It takes {step.length} {unit} off the {step.where} edge of {name}, the blade's width included"
    return f"Cut {step.number} of {count} in {room}. {how}. It leaves {' and '.join(map(written, step.leaves))}."


def counts_of(steps: Sequence[Step]) -> Counter[str]:
    """How often steps have what lists are drawn for."""
    return Counter(
        name for step in steps for name, is_there in (
            ("cuts", True), ("decimals", "." in step.length), ("turned", any(it.is_turned for it in step.leaves)),
            # The edges of a sheet are trimmed by its first four steps.
            ("trims inside", step.where in ("right", "top") and int(step.number) > 4),
            ("sheets", step.number == "1"), ("second sheets", step.number == "2"))
        if is_there)


class Said(NamedTuple):
    """What the page says of a cut."""

    room: str
    brief: str
    step: Step | None
    spoken: str


class Saw(BrowserCase):
    """Pages beside texts."""

    def said(self) -> list[Said]:
        """What the page says of all cuts, some at a time: the driver waits for an answer for half a minute."""
        self.click("cutting")
        count, found = self.js("return document.getElementById('steps').options.length"), []
        for first in range(1, count, 50):
            for row in self.driver.execute_async_script(GO, first, first + 50):
                room, short, command, sentence = (text.replace("\u00a0", " ") for text in row)
                head, *left = command.split("\n")
                step = step_in(f"{head} → {', '.join(it.removeprefix('→ ') for it in left)}", PAGE)
                found.append(Said(room, short, step, sentence))
        return found

    def check_said(self, expected: Sequence[Said]) -> None:
        """The page says these steps, and nothing else."""
        found = self.said()
        for one, other in zip(found, expected):
            self.assertEqual(one, other)
        self.assertEqual(len(found), len(expected))
        self.assert_quiet()

    def check(self, it: CuttingList) -> Counter[str]:
        """The page of a list beside its texts. What came up in them."""
        words: list[object] = [self.file("panels.csv", it.panels), "--stock", self.file("stock.csv", it.stock)]
        words += ["--offcuts", self.file("offcuts.csv", it.offcuts)] if it.offcuts else []
        page = self.folder / "page.html"
        run = run_cut(self.folder / it.name, *words, *it.words, "--tries", "6", "--no-pdf", "--page", page)
        self.assertEqual((run.status, run.err), (0, ""))
        self.show(page)
        counts: Counter[str] = Counter()
        expected: list[Said] = []
        panels: list[tuple[str, str, str, str, bool]] = []
        for text in run.sheets():
            lines = text.splitlines()
            head, steps = head_of(lines), steps_in(lines)
            room = head.room
            expected += [Said(room, brief(step), step, spoken(step, len(steps), room, head.kerf)) for step in steps]
            panels += [(it.name, room, it.width, it.height, it.is_turned) for it in self.panels_in(lines, steps)]
            counts += counts_of(steps)
        rows: list[list[str]] = self.js(BOXES)
        self.assertEqual(sorted((row[1], row[2], row[5], row[6], "turned" in row[8:]) for row in rows), sorted(panels))
        if expected:
            self.check_said(expected)
        return counts + Counter({"lists of several sheets": int(len(run.sheets()) > 1)})

    def panels_in(self, lines: Sequence[str], steps: Sequence[Step]) -> Iterator[Piece]:
        """The panels of a text."""
        yield from (piece for step in steps for piece in step.leaves if piece.role == "panel")
        for it in filter(None, map(UNCUT.fullmatch, lines)):
            yield Piece("panel", it[1], it[2], it[3], bool(it[4]))

    def test_the_example(self) -> None:
        write_example(self.folder)
        panels, stock, offcuts = (
            (self.folder / f"{name}.csv").read_text(encoding="utf-8") for name in ("panels", "sheets", "offcuts"))
        for words in ("--kerf 3.2 --trim 10 --keep 300x200", "--kerf 4.75 --trim 2 --trim-offcuts", "--kerf 0"):
            with self.subTest(words=words):
                counts = self.check(CuttingList(words, panels, stock, offcuts, tuple(words.split())))
                self.assertGreater(counts["cuts"], 50)

    def test_lists_of_other_tests(self) -> None:
        names = CuttingList("names", ODD, "name,width,height,cost\nbirch,2500,1250,68.5\n", "", ("--kerf", "3.2", "--trim", "10"))
        for it in (*by_hand(), names):
            with self.subTest(it.name):
                self.check(it)

    def test_drawn_lists(self) -> None:
        counts: Counter[str] = Counter()
        for it in drawn_lists(20):
            with self.subTest(it.name, words=it.words):
                counts += self.check(it)
        for name, least in (
            ("cuts", 300), ("decimals", 150), ("turned", 40), ("trims inside", 5), ("lists of several sheets", 8),
        ):
            self.assertGreaterEqual(counts[name], least, counts)

    def test_a_table_of_an_example_program(self) -> None:
        """A cut is said as the line of the table says it: from below, or from the left, of its part."""
        text = (TOP / "crates" / "example_panels" / "stdout").read_text(encoding="utf-8")
        self.open(read_drawings(text.encode(), "stdout", "panels", "mm")[-1])
        expected = []
        for number, *lines in (it.split("\n") for it in text.split("-- sheet ")[1:]):
            found = [re.fullmatch(r" +\d+\. +(\d+) x (\d+) +cut (\d+) mm from (below|the left)", line) for line in lines]
            expected += [(f"sheet-{number}", *it.groups()) for it in found if it]
        sides = {"y": "below", "x": "the left"}
        self.assertEqual(
            [(it.room, it.step.piece.width, it.step.piece.height, it.step.length, sides[it.step.where])
             for it in self.said() if it.step], expected)
        self.assert_quiet()


class Cuts(BrowserCase):
    def test_a_plan_is_gone_through_cut_by_cut(self) -> None:
        for scene in (cut_scene(), program("panels")[2]):
            self.open(scene)
            whole = self.picture()
            self.click("cutting")
            cuts = [(name, cut) for name, plan in scene.cuts.items() for cut in plan]
            pictures = {whole}
            for index, (name, cut) in enumerate(cuts[:14]):
                self.assertEqual(self.text("place"), f"cut {index + 1} / {len(cuts)}")
                pictures.add(self.picture())
                # It is counted from the edge of the part, and not from that of the bin.
                (at, size), axis = cut.part, "xy".index(cut.step.axis)
                number = [it[0] for it in cuts[:index + 1]].count(name)
                said = f"{number}. {size[0]} × {size[1]}: cut across {'xy'[axis]} at {cut.blade[0] - at[axis]}\n→ "
                command = self.text("command").replace("\u00a0", " ")
                self.assertEqual(command[:len(said)], said)
                self.assertEqual(command.count("\n"), 2)
                self.keys("n")
            self.assertEqual(len(pictures), 15)
            self.keys(Keys.HOME)
            self.wait_for("status", "Before the first cut.")
            self.assertEqual(self.text("command"), "")
            self.keys("c")
            self.assertEqual(self.text("step-title"), "Step")
            self.assert_quiet()

    def test_a_saw_of_some_width(self) -> None:
        scene = with_everything()
        self.open(scene)
        self.keys("c")
        # A cell is 0.1 mm: the saw takes 0.2 mm from 0.3 on, of 0.7.
        said = "It is 0.3 mm from the left edge of <A> to the near side of the blade, which takes the next 0.2 mm."
        left = 'panel "<b> "one"" 0.3 × 0.7 (turned) and 0.2 × 0.7'
        self.wait_for("status", f"Cut 1 of 2 in __proto__. {said} It leaves {left}.")
        self.keys("n")
        said = "It takes 0.3 mm off the bottom edge of the part, the blade's width included."
        self.wait_for("status", f'Cut 2 of 2 in __proto__. {said} It leaves waste 0.2 × 0.1 and offcut "</script>" 0.2 × 0.4.')
        self.assertEqual(self.text("command").replace("\u00a0", " "), (
            '2. 0.2 × 0.7: trim 0.3 off the bottom\n→ waste 0.2 × 0.1\n→ offcut "</script>" 0.2 × 0.4'))


if __name__ == "__main__":
    unittest.main()
