"""Jobs of the command pack whose answers are known by hand, and the ways in which it is called."""
from __future__ import annotations

import json
import os
import re
import subprocess
import sys
import unittest
from pathlib import Path
from unittest import mock

from .pack_jobs import Json, PackCase, Run

PYTHON = Path(__file__).resolve().parents[2]

# A box that is wider than high, and a page that takes it.
SMALL: Json = {"bins": [{"width": 10, "height": 10}], "boxes": [{"width": 4, "height": 10}]}


def run_alone(text: str, *words: str) -> Run:
    """A run of the command as a process, with this text on standard input."""
    whole = {**os.environ, "PYTHONPATH": str(PYTHON)}
    command = [sys.executable, "-m", "rectangle_pack", "pack", *words]
    done = subprocess.run(command, input=text.encode(), capture_output=True, env=whole, check=False)
    return Run(done.returncode, done.stdout.decode("ascii"), done.stderr.decode())


class Documented(PackCase):
    def test_the_example(self) -> None:
        """The job in docs/TOOLS.md, and what is said of its answer."""
        text = (PYTHON.parents[1] / "docs" / "TOOLS.md").read_text(encoding="utf-8").split("## pack: ")[1]
        blocks = re.findall(r"^    {.*\n(?:    .*\n)*", text, re.MULTILINE)
        job, head, line = ("\n".join(it[4:] for it in block.splitlines()) for block in blocks)
        out = self.run_job(job).out
        self.assertTrue(out.startswith(head), out)
        self.assertIn(line, out)


class Answers(PackCase):
    def test_one_box(self) -> None:
        placement = {
            "box": 0, "piece": 0, "name": None, "group": None, "bin": 0, "copy": 0,
            "x": 0, "y": 0, "z": 0, "width": 4, "height": 10, "depth": 1, "turned": False}
        self.assertEqual(self.answer({**SMALL, "heuristic": "width"}), {
            "complete": True, "optimal": True, "used": 1, "least": 1, "cost": 1, "heuristic": "width",
            "bins": [{"bin": 0, "copy": 0, "name": None, "placements": [0]}], "placements": [placement], "left": []})

    def test_nothing(self) -> None:
        """No boxes need no bins. What is there no times is not packed."""
        none = {"bins": [{"width": 9, "height": 9, "count": 0}], "boxes": [{"width": 9, "height": 9, "count": 0}]}
        for job in ({"bins": [], "boxes": []}, {**SMALL, "boxes": []}, none):
            answer = self.answer(job)
            self.assertEqual(
                [answer[key] for key in ("complete", "optimal", "used", "least", "cost")], [True, True, 0, 0, 0], job)
            self.assertEqual([answer[key] for key in ("bins", "placements", "left")], [[], [], []])

    def test_as_many_bins_as_are_needed(self) -> None:
        """Two boxes of more than half the sides share no bin."""
        job = {"bins": [{"name": "page", "width": 10, "height": 10, "count": None, "cost": 7}],
               "boxes": [{"name": "tile", "width": 6, "height": 6, "count": 3}]}
        answer = self.answer(job)
        self.assertEqual([answer[key] for key in ("used", "least", "cost", "optimal")], [3, 3, 21, True])
        self.assertEqual([(it["piece"], it["copy"], it["name"]) for it in answer["placements"]],
                         [(0, 0, "tile"), (1, 1, "tile"), (2, 2, "tile")])
        self.assertEqual([(it["bin"], it["copy"], it["name"]) for it in answer["bins"]],
                         [(0, 0, "page"), (0, 1, "page"), (0, 2, "page")])

    def test_a_bin_that_costs_less(self) -> None:
        job = {"bins": [{"width": 10, "height": 10, "cost": 5}, {"width": 5, "height": 5, "cost": 2}],
               "boxes": [{"width": 5, "height": 5}], "tries": 50}
        answer = self.answer(job)
        self.assertEqual(([it["bin"] for it in answer["bins"]], answer["cost"], answer["heuristic"]), ([1], 2, None))

    def test_boxes_that_may_be_turned(self) -> None:
        """4x9 and 9x6 have as many cells as the sheet of 9x10, so the first one has to lie."""
        job: Json = {"bins": [{"width": 9, "height": 10}], "boxes": [{"width": 4, "height": 9}, {"width": 9, "height": 6}]}
        self.assertEqual(self.run_job(job).status, 1)
        boxes = [{**job["boxes"][0], "turn": "flat"}, job["boxes"][1]]
        ways: list[Json] = [{"turn": "flat"}, {"turn": "any", "tries": 100}, {"boxes": boxes}]
        for more in ways:
            door, shelf = self.answer({**job, **more})["placements"]
            self.assertEqual((door["width"], door["height"], door["turned"]), (9, 4, True))
            self.assertEqual((shelf["width"], shelf["height"], shelf["turned"]), (9, 6, False))
        self.assertEqual(self.run_job({**job, "turn": "upright"}).status, 1)
        self.assertEqual(self.run_job({**job, "turn": "flat", "boxes": [{**it, "turn": "none"} for it in boxes]}).status, 1)

    def test_groups(self) -> None:
        """A group is in one bin, and one that is excluded in another. A box of two groups stands in both."""
        job = {"bins": [{"width": 4, "height": 4, "depth": 4, "count": 2}],
               "boxes": [{"width": 1, "height": 2, "depth": 3, "groups": ["food", "paint"], "count": 2},
                         {"width": 2, "height": 2, "depth": 2, "groups": ["food"]}, {"width": 2, "height": 2, "groups": ["paint"]}],
               "groups": ["poison"], "exclude": [["food", "paint"], ["poison", "food"]]}
        placements = self.answer(job)["placements"]
        self.assertEqual([(it["box"], it["piece"], it["group"]) for it in placements], [
            (0, 0, "food"), (0, 1, "food"), (1, 0, "food"), (2, 0, "paint"), (0, 0, "paint"), (0, 1, "paint")])
        homes = {group: {it["copy"] for it in placements if it["group"] == group} for group in ("food", "paint")}
        self.assertEqual(([len(it) for it in homes.values()], homes["food"] & homes["paint"]), ([1, 1], set()))

    def test_a_cutting_plan(self) -> None:
        bin, = self.answer({**SMALL, "cuts": True})["bins"]
        whole = {"x": 0, "y": 0, "z": 0, "width": 10, "height": 10, "depth": 1}
        self.assertEqual(bin["parts"], [
            {**whole, "axis": "x", "at": 4, "lower": 1, "upper": 2}, {**whole, "width": 4, "placement": 0},
            {**whole, "x": 4, "width": 6, "placement": None}])

    def test_names_are_told_as_they_are(self) -> None:
        names = ["Tür", "\ud800", "a\nb", "帽子", ""]
        job = {"bins": SMALL["bins"], "boxes": [{"width": 1, "height": 1, "name": name, "groups": [name]} for name in names]}
        placements = self.answer(job)["placements"]
        self.assertEqual([(it["name"], it["group"]) for it in placements], [(name, name) for name in names])

    def test_numbers_as_programs_write_them(self) -> None:
        text = '{"bins": [{"width": 10.0, "height": 1e1}], "boxes": [{"width": 4, "height": 100E-1, "count": 1.0}]}'
        self.assertEqual(self.answer(text), self.answer(SMALL))
        self.assertEqual(self.answer("\ufeff" + text), self.answer(SMALL))
        self.assertEqual(self.answer({"$schema": "job.schema.json", **SMALL}), self.answer(SMALL))

    def test_the_greatest_numbers(self) -> None:
        most = 2**32 - 1
        job = {"bins": [{"width": most, "height": most, "depth": most, "count": most, "cost": 2**64 - 1}],
               "boxes": [{"width": most, "height": most, "depth": most, "count": 2}], "tries": 1, "seed": 2**64 - 1}
        answer = self.answer(job)
        self.assertEqual((answer["used"], answer["least"], answer["cost"]), (2, 2, 2 * (2**64 - 1)))


class NotAll(PackCase):
    """A hat of 4x3 and a cap of 4x2 are higher together than the page of 4x4. With the hat fewer cells are left."""

    job_of_three: Json = {"bins": [{"width": 4, "height": 4}], "boxes": [
        {"name": "hat", "width": 4, "height": 3}, {"name": "cap", "width": 4, "height": 2}, {"width": 1, "height": 1}]}

    def test_what_fits_is_packed(self) -> None:
        for tries in (0, 20):
            done = self.run_job({**self.job_of_three, "partial": True, "tries": tries})
            self.assertEqual((done.status, done.err), (1, f"{self.folder / 'job.json'}: 1 of 3 boxes is left\n"))
            answer = done.answer
            self.assertEqual(answer["left"], [{"box": 1, "piece": 0, "name": "cap", "group": None}])
            self.assertEqual([it["box"] for it in answer["placements"]], [0, 2])
            # Three boxes in one page are too many, whoever packs them.
            self.assertEqual([answer[key] for key in ("complete", "optimal", "used", "least")], [False, False, 1, None])

    def test_a_group_that_is_left_is_left_whole(self) -> None:
        boxes = [{**it, "groups": ["clothes"]} for it in self.job_of_three["boxes"]]
        done = self.run_job({"bins": self.job_of_three["bins"], "boxes": boxes, "partial": True})
        self.assertEqual((done.status, [(it["box"], it["group"]) for it in done.answer["left"]]),
                         (1, [(0, "clothes"), (1, "clothes"), (2, "clothes")]))
        self.assertTrue(done.err.endswith(": 3 of 3 boxes are left\n"))

    def test_a_refusal_names_what_is_left(self) -> None:
        job, many = self.job_of_three, {"width": 4, "height": 4}
        cases = [
            (job, "$.boxes[1] 'cap'"), ({**job, "tries": 20}, "$.boxes[1] 'cap'"),
            ({**job, "bins": []}, "$.boxes[0] 'hat', $.boxes[1] 'cap' and $.boxes[2]"),
            ({"bins": [], "boxes": [{**many, "count": 3}] * 5}, "$.boxes[0], $.boxes[1], $.boxes[2] and 2 more"),
        ]
        for case, names in cases:
            why = f'not all boxes fit: left are {names}; by "partial": true what fits is packed'
            self.assertEqual(self.run_job(case), Run(1, "", f"{self.folder / 'job.json'}: {why}\n"))


class Calls(PackCase):
    def test_standard_input(self) -> None:
        answer = self.answer(SMALL)
        done = run_alone(json.dumps(SMALL), "-")
        self.assertEqual((done.status, done.answer, done.err), (0, answer, ""))
        done = run_alone('{"bins": 3}', "-")
        self.assertEqual(done, Run(2, "", "standard input: $.boxes: is missing\n"))

    def test_a_file_for_the_answer(self) -> None:
        path, answer = self.folder / "new" / "answer.json", self.run_job(SMALL)
        self.assertEqual(self.run_job(SMALL, "--out", path), Run(0, "", ""))
        self.assertEqual(path.read_text(encoding="ascii"), answer.out)
        done = self.run_job({**NotAll.job_of_three, "partial": True}, "--out", path)
        self.assertEqual((done.status, done.out), (1, ""))
        self.assertEqual(len(json.loads(path.read_text(encoding="ascii"))["left"]), 1)
        # What is refused writes nothing.
        before = path.read_text(encoding="ascii")
        self.assertEqual(self.run_job(NotAll.job_of_three, "--out", path).status, 1)
        self.assertEqual(path.read_text(encoding="ascii"), before)

    def test_the_job_is_not_written_over(self) -> None:
        for word in ("--out", "--page"):
            why = ": is read, and would be lost: name another file to write"
            self.assert_refused(SMALL, why, word, self.folder / "job.json")

    def test_the_page_to_look_at(self) -> None:
        """Bins of one name have names of their own there."""
        bins = [{"name": "van", "width": 4, "height": 4}, {"name": "van", "width": 4, "height": 4},
                {"width": 4, "height": 4, "count": None}]
        job = {"bins": bins, "boxes": [{"name": "crate", "width": 4, "height": 4, "count": 3}, {"width": 3, "height": 4}]}
        with mock.patch("rectangle_pack.commands.view.write_page") as written:
            answer = self.answer(job, "--page", self.folder / "page.html")
        (scene, path), _ = written.call_args
        self.assertEqual(path, self.folder / "page.html")
        self.assertEqual(sorted(room.name for room in scene.rooms), ["bins[2] 1", "bins[2] 2", "van", "van (bins[1])"])
        items = [it for step in scene.steps for it in step.placed]
        self.assertEqual(sorted(it.name for it in items), ["boxes[1]", "crate", "crate", "crate"])
        for it in items:
            placement = answer["placements"][it.number]
            self.assertEqual((*it.at, *it.size), tuple(placement[key] for key in ("x", "y", "z", "width", "height", "depth")))
        self.assertEqual(sorted(step.text for step in scene.steps), [
            "bins[2] 1: 1 box, 100 % filled", "bins[2] 2: 1 box, 75 % filled", "van (bins[1]): 1 box, 100 % filled",
            "van: 1 box, 100 % filled"])
        self.answer(job, "--page", self.folder / "page.html")
        self.assertIn("<html", (self.folder / "page.html").read_text(encoding="utf-8"))

    def test_each_placement_has_a_line(self) -> None:
        job = {"bins": SMALL["bins"], "boxes": [{"width": 2, "height": 2, "count": 9}]}
        lines = self.run_job(job).out.splitlines()
        self.assertEqual([json.loads(line.rstrip(",")) for line in lines if line.startswith('{"box"')], self.answer(job)["placements"])

    def test_equal_jobs_have_equal_answers(self) -> None:
        sides = [(2, 9), (7, 3), (4, 4), (8, 5), (3, 6), (9, 1)]
        job = {"bins": [{"width": 12, "height": 9, "count": None}], "turn": "flat", "seed": 3, "tries": 300,
               "boxes": [{"width": width, "height": height, "count": 2} for width, height in sides]}
        self.assertEqual(self.run_job(job), self.run_job(job))

    def test_a_search_ends_in_time(self) -> None:
        """More tries than can be made in a year."""
        job = {"bins": [{"width": 30, "height": 30, "count": None}], "tries": 10**15,
               "boxes": [{"width": 7 + number % 5, "height": 6 + number % 7} for number in range(40)]}
        self.assertTrue(self.answer(job, "--seconds", "0.1")["complete"])

    def test_words_that_are_wrong(self) -> None:
        self.assertEqual(self.run_words(), Run(2, "", "name a job, or - for standard input\n"))
        for words in (("--seconds", "0"), ("--seconds", "nan"), ("--seconds", "x"), ("--schema", "bins"), ("a", "b")):
            done = self.run_words(*words)
            self.assertEqual((done.status, done.out), (2, ""), words)
        missing = self.folder / "no.json"
        self.assertEqual(self.run_words(missing), Run(2, "", f"{missing}: cannot be read: No such file or directory\n"))


if __name__ == "__main__":
    unittest.main()
