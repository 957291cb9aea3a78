"""Jobs that the command pack refuses: one line names the place in the job, and says why."""
from __future__ import annotations

import copy
import unittest
from typing import Any

from .pack_jobs import HEURISTICS, Json, PackCase

JOB: Json = {
    "bins": [{"width": 9, "height": 9}, {"width": 9, "height": 9, "depth": 9, "name": "van", "count": 2, "cost": 3}],
    "boxes": [{"width": 1, "height": 2}, {"width": 1, "height": 2, "depth": 3, "name": "hat", "count": 2, "groups": ["a", "b"]}],
    "exclude": [["a", "b"]], "groups": ["c"], "tries": 3, "seed": 4, "turn": "flat", "partial": True, "cuts": True,
}

GONE = object()

SIDE = "not a whole number from 1 to 4294967295"
LONG = "not a whole number from 0 to 18446744073709551615"

# Where something else stands, what stands there, and what is said. A key that is last may be new.
CASES: list[tuple[str, Any, str]] = [
    ("bins 0 width", 0, f"$.bins[0].width: {SIDE}: 0"),
    ("bins 0 height", 2**32, f"$.bins[0].height: {SIDE}: 4294967296"),
    ("bins 1 depth", 1.5, f"$.bins[1].depth: {SIDE}: 1.5"),
    ("bins 1 depth", "9", f'$.bins[1].depth: {SIDE}: "9"'),
    ("bins 0 width", GONE, "$.bins[0].width: is missing"),
    ("bins 1 name", 7, "$.bins[1].name: not a text: 7"),
    ("bins 1 name", None, "$.bins[1].name: not a text: null"),
    ("bins 1 count", -1, "$.bins[1].count: not a whole number from 0 to 4294967295: -1"),
    ("bins 1 count", 2**32, "$.bins[1].count: not a whole number from 0 to 4294967295: 4294967296"),
    ("bins 1 cost", 2**64, f"$.bins[1].cost: {LONG}: 18446744073709551616"),
    ("bins 1 cost", None, f"$.bins[1].cost: {LONG}: null"),
    ("bins 0 group", "a", "$.bins[0].group: not known here, where there are width, height, depth, name, count, cost"),
    ("bins", {}, "$.bins: not a list: an object"),
    ("bins 1", [9, 9], "$.bins[1]: not an object: a list"),
    ("bins", GONE, "$.bins: is missing"),
    ("boxes", GONE, "$.boxes: is missing"),
    ("boxes 1 width", -1, f"$.boxes[1].width: {SIDE}: -1"),
    ("boxes 1 width", True, f"$.boxes[1].width: {SIDE}: true"),
    ("boxes 1 depth", 0, f"$.boxes[1].depth: {SIDE}: 0"),
    ("boxes 0 height", GONE, "$.boxes[0].height: is missing"),
    ("boxes 1 count", 1_000_001, "$.boxes[1].count: not a whole number from 0 to 1000000: 1000001"),
    ("boxes 1 count", None, "$.boxes[1].count: not a whole number from 0 to 1000000: null"),
    ("boxes 1 name", ["hat"], "$.boxes[1].name: not a text: a list"),
    ("boxes 1 groups", "ab", '$.boxes[1].groups: not a list: "ab"'),
    ("boxes 1 groups 1", 3, "$.boxes[1].groups[1]: not a text: 3"),
    ("boxes 1 groups 1", "a", '$.boxes[1].groups[1]: the same as $.boxes[1].groups[0]: "a"'),
    ("boxes 0 turn", "left", '$.boxes[0].turn: not one of none, flat, upright, any: "left"'),
    ("boxes 0 turn", ["flat"], "$.boxes[0].turn: not one of none, flat, upright, any: a list"),
    ("boxes 0 Größe", 3, "$.boxes[0].Größe: not known here, where there are width, height, depth, name, count, groups, turn"),
    ("boxes 0 cost", 3, "$.boxes[0].cost: not known here, where there are width, height, depth, name, count, groups, turn"),
    ("exclude", ["a", "b"], '$.exclude[0]: not a list: "a"'),
    ("exclude 0", ["a"], "$.exclude[0]: not two groups: a list"),
    ("exclude 0", ["a", "b", "c"], "$.exclude[0]: not two groups: a list"),
    ("exclude 0 1", "a", '$.exclude[0][1]: the same as $.exclude[0][0]: "a"'),
    ("exclude 0 1", None, "$.exclude[0][1]: not a text: null"),
    ("exclude 0 1", "B", '$.exclude[0][1]: no box has this group, and $.groups does not name it: "B"'),
    ("groups", {"c": []}, "$.groups: not a list: an object"),
    ("groups", ["c", "d", "c"], '$.groups[2]: the same as $.groups[0]: "c"'),
    ("tries", -1, f"$.tries: {LONG}: -1"),
    ("tries", "many", f'$.tries: {LONG}: "many"'),
    ("seed", 2**64, f"$.seed: {LONG}: 18446744073709551616"),
    ("seed", 0.5, f"$.seed: {LONG}: 0.5"),
    ("turn", "Flat", '$.turn: not one of none, flat, upright, any: "Flat"'),
    ("partial", 1, "$.partial: not true or false: 1"),
    ("cuts", "yes", '$.cuts: not true or false: "yes"'),
    ("heuristic", "fast", f'$.heuristic: not one of {", ".join(["best", *HEURISTICS])}: "fast"'),
    ("heuristic", "width", '$.heuristic: a search takes all heuristics, and $.tries asks for one: "width"'),
    ("$schema", 3, '$["$schema"]: not a text: 3'),
    ("own key", 3, '$["own key"]: not known here, where there are bins, boxes, groups, exclude, heuristic, tries, seed, turn, '
     "partial, cuts, $schema"),
]


def changed(job: Json, place: str, value: object) -> Json:
    """The job with something else at this place."""
    whole: Any = copy.deepcopy(job)
    keys = [place] if place == "own key" else place.split()
    steps = [int(key) if key.isdigit() else key for key in keys]
    part, last = whole, steps[-1]
    for key in steps[:-1]:
        part = part[key]
    if value is GONE:
        del part[last]
    else:
        part[last] = value
    return whole


class Refusals(PackCase):
    def test_a_value_that_is_wrong(self) -> None:
        self.answer(JOB)
        for place, value, why in CASES:
            with self.subTest(place=place, value=value):
                self.assert_refused(changed(JOB, place, value), f": {why}")

    def test_a_heuristic_beside_boxes_that_may_be_turned(self) -> None:
        job = {"bins": JOB["bins"], "boxes": JOB["boxes"], "heuristic": "height"}
        self.answer({**job, "tries": 0, "turn": "none"})
        why = ": $.heuristic: a search takes all heuristics, and {} asks for one: \"height\""
        self.assert_refused({**job, "turn": "flat"}, why.format("$.turn"))
        self.assert_refused(changed(job, "boxes 1 turn", "any"), why.format("$.boxes[1].turn"))
        self.answer({**changed(job, "boxes 1 turn", "any"), "heuristic": "best"})

    def test_too_many_boxes(self) -> None:
        box = {"width": 1, "height": 1, "count": 600_000}
        self.assert_refused({"bins": [], "boxes": [box, box]}, ": $.boxes: more than 1000000 boxes, with their counts")

    def test_what_is_no_job(self) -> None:
        cases = {
            "": ":1: is no JSON: Expecting value",
            "[]": ": $: not an object: a list",
            "null": ": $: not an object: null",
            '{"bins": [],\n"boxes": [}': ":2: is no JSON: Expecting value",
            '{"bins": [], "boxes": [], "seed": NaN}': ": is no JSON: NaN is no number",
            '{"bins": [], "boxes": [], "bins": []}': ': is no JSON: an object has the key "bins" twice',
            '{"bins": [], "boxes": [], "seed": 1e999999999}': f": $.seed: {LONG}: 1E+999999999",
            '{"bins": [], "boxes": [], "seed": 1' + "0" * 5000 + "}": f": $.seed: {LONG}: 1{'0' * 39}..",
            "[" * 100_000: ": is nested too deeply",
        }
        for text, why in cases.items():
            self.assert_refused(text, why)
        self.assert_refused(b'{"bins": "\xff"}', ": is no text in UTF-8")


if __name__ == "__main__":
    unittest.main()
