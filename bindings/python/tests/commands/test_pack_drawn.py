"""Drawn jobs: the answers of the command pack before the library's judge, and beside the library's own packings."""
from __future__ import annotations

import random
import unittest
from typing import Any

from rectangle_pack import Bin, Box, NotEnoughBinSpace, pack

from .pack_jobs import Json, PackCase, drawn_job, fault_of, wrong_part

JOBS = 400


def packed_alike(job: Json) -> Any:
    """The packing of a job whose boxes have no further groups, by the library, which refuses what does not fit."""
    boxes = {
        (index, piece): Box(it["width"], it["height"], it.get("depth", 1), *it.get("groups", ()))
        for index, it in enumerate(job["boxes"]) for piece in range(it.get("count", 1))}
    bins = [Bin(it["width"], it["height"], it.get("depth", 1), it.get("count", 1), it.get("cost", 1)) for it in job["bins"]]
    named = [*job.get("groups", ()), *(name for it in job["boxes"] for name in it.get("groups", ()))]
    more: Json = {"groups": {name: [] for name in named}, "exclude": job.get("exclude", ())}
    turns = [it.get("turn", job.get("turn", "none")) for it in job["boxes"]]
    if job.get("tries") or {job.get("turn", "none"), *turns} != {"none"}:
        more.update(tries=job.get("tries", 0), seed=job.get("seed", 0), turn={name: turns[name[0]] for name in boxes})
    else:
        more["heuristic"] = job.get("heuristic", "best")
    try:
        return pack(bins, boxes, **more)
    except NotEnoughBinSpace:
        return None


class Drawn(PackCase):
    def check_numbers(self, job: Json, answer: Json) -> None:
        """What is said of the whole is what placements say."""
        homes = {(it["bin"], it["copy"]) for it in answer["placements"]}
        self.assertEqual(answer["used"], len(homes))
        self.assertEqual(answer["cost"], sum(job["bins"][bin].get("cost", 1) for bin, _ in homes))
        self.assertEqual([(it["bin"], it["copy"]) for it in answer["bins"]], sorted(homes))
        for it in answer["bins"]:
            here = [index for index, placed in enumerate(answer["placements"])
                    if (placed["bin"], placed["copy"]) == (it["bin"], it["copy"])]
            self.assertEqual(it["placements"], here)
            self.assertEqual("parts" in it, job.get("cuts", False))
        self.assertEqual(answer["complete"], not answer["left"])
        if answer["complete"]:
            self.assertLessEqual(answer["least"], answer["used"])
        self.assertEqual(answer["optimal"], answer["complete"] and answer["used"] == answer["least"])

    def check_turns(self, job: Json, answer: Json) -> None:
        for it in answer["placements"]:
            box = job["boxes"][it["box"]]
            as_it_is = (box["width"], box["height"], box.get("depth", 1))
            self.assertEqual(it["turned"], (it["width"], it["height"], it["depth"]) != as_it_is)
            self.assertEqual(it["name"], box.get("name"))

    def test_answers(self) -> None:
        r, kinds = random.Random(8), set()
        for number in range(JOBS):
            job = drawn_job(r)
            with self.subTest(number=number, job=job):
                done = self.run_job(job)
                if done.status and not job.get("partial"):
                    self.assertEqual((done.status, done.out), (1, ""))
                    self.assertIn(": not all boxes fit: left are $.boxes[", done.err)
                    kinds.add("refused")
                    continue
                answer = done.answer
                self.assertEqual(done.status, 1 if answer["left"] else 0)
                self.assertIsNone(fault_of(job, answer))
                self.check_numbers(job, answer)
                self.check_turns(job, answer)
                for it in answer["bins"] if job.get("cuts") else ():
                    self.assertIsNone(wrong_part(job, answer, it))
                    kinds.add("cut")
                kinds |= {"left" if answer["left"] else "complete", "searched" if answer["heuristic"] is None else "packed"}
                kinds |= {"turned" for placed in answer["placements"] if placed["turned"]}
        self.assertEqual(kinds, {"refused", "cut", "left", "complete", "searched", "packed", "turned"})

    def test_answers_are_those_of_the_library(self) -> None:
        r, fitted, refused = random.Random(9), 0, 0
        for number in range(JOBS):
            job = drawn_job(r)
            if any(len(it.get("groups", ())) > 1 for it in job["boxes"]):
                continue
            with self.subTest(number=number, job=job):
                packing, done = packed_alike(job), self.run_job({**job, "partial": False})
                self.assertEqual(done.status, 1 if packing is None else 0)
                if packing is None:
                    refused += 1
                    continue
                fitted += 1
                answer = done.answer
                self.assertEqual(
                    [((it["box"], it["piece"]), it["group"], it["bin"], it["copy"], it["x"], it["y"], it["z"], it["width"],
                      it["height"], it["depth"], it["turned"]) for it in answer["placements"]],
                    [(it.name, it.group, it.bin, it.copy, *it.section, it.turned) for it in packing])
                self.assertEqual(
                    (answer["used"], answer["least"], answer["optimal"], answer["heuristic"]),
                    (packing.used, packing.least, packing.optimal, packing.heuristic))
        self.assertGreater(min(fitted, refused), 50)


if __name__ == "__main__":
    unittest.main()
