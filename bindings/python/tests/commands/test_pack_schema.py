"""The JSON Schemas of the command pack, by Debian's python3-jsonschema: they refuse what the command refuses."""
from __future__ import annotations

import copy
import json
import random
import unittest
from collections.abc import Callable, Iterator
from typing import Any

try:
    from jsonschema import Draft202012Validator
except ImportError as why:
    raise unittest.SkipTest(f"no python3-jsonschema: {why}") from None

from rectangle_pack.commands._common import Wrong
from rectangle_pack.commands._json import json_of
from rectangle_pack.commands._pack.job import job_of

from .pack_jobs import HEURISTICS, Json, PackCase, TURNS, drawn_job
from .test_pack_refusals import CASES, JOB, changed

JOBS = 3000

# Values that most places do not take.
VALUES: list[Any] = [
    None, True, False, -1, 0, 1, 1.0, 0.5, 2**32 - 1, 2**32, 2**64 - 1, 2**64, "", "x", "1", "none", "flat", "best", [], {}, ["x"],
    ["x", "x"], [["x", "y"]], [["x"]], 1_000_000, 1_000_001, 1e300,
]
KEYS = ["width", "height", "depth", "name", "count", "cost", "groups", "turn", "bins", "boxes", "exclude", "heuristic", "tries",
        "seed", "partial", "cuts", "$schema", "colour"]


def _parts(value: Any) -> Iterator[Any]:
    """The lists and objects in a value, and itself."""
    if isinstance(value, (list, dict)):
        yield value
        for it in value.values() if isinstance(value, dict) else value:
            yield from _parts(it)


def _change_one(r: random.Random, job: Json) -> None:
    """Another value in place of one."""
    part = r.choice([it for it in _parts(job) if it])
    part[r.choice([*part]) if isinstance(part, dict) else r.randrange(len(part))] = copy.deepcopy(r.choice(VALUES))


def _take_one(r: random.Random, job: Json) -> None:
    """One value is gone."""
    part = r.choice([it for it in _parts(job) if it])
    del part[r.choice([*part]) if isinstance(part, dict) else r.randrange(len(part))]


def _put_one(r: random.Random, job: Json) -> None:
    """One value more."""
    part = r.choice([*_parts(job)])
    if isinstance(part, dict):
        part[r.choice(KEYS)] = copy.deepcopy(r.choice(VALUES))
    else:
        part.insert(r.randint(0, len(part)), copy.deepcopy(r.choice(VALUES)))


def _ask_twice(r: random.Random, job: Json) -> None:
    """A heuristic, and perhaps a search beside it."""
    job["heuristic"] = r.choice(["best", *HEURISTICS])
    job.update(r.choice([{"tries": r.randint(0, 1)}, {"turn": r.choice(TURNS)}, {}]))


MISTAKES: list[Callable[[random.Random, Json], None]] = [_change_one, _take_one, _put_one, _ask_twice]


def why_refused(job: object) -> str:
    """Why the command refuses a job; nothing where it takes it."""
    try:
        job_of("job", json_of("job", json.dumps(job)))
    except Wrong as why:
        return str(why)
    return ""


class Schemas(PackCase):
    def schema(self, name: str) -> Any:
        done = self.run_words("--schema", name)
        self.assertEqual((done.status, done.err), (0, ""))
        schema = json.loads(done.out)
        Draft202012Validator.check_schema(schema)
        return Draft202012Validator(schema)

    def test_each_refusal(self) -> None:
        """The schema does not see whether a group is that of a box."""
        schema = self.schema("job")
        self.assertTrue(schema.is_valid(JOB))
        for place, value, why in CASES:
            self.assertEqual(schema.is_valid(changed(JOB, place, value)), "no box has this group" in why, why)

    def test_drawn_jobs(self) -> None:
        r, schema = random.Random(10), self.schema("job")
        for _ in range(JOBS // 10):
            job = drawn_job(r)
            self.assertEqual(([*schema.iter_errors(job)], why_refused(job)), ([], ""))

    def test_drawn_jobs_with_a_mistake(self) -> None:
        r, schema, verdicts = random.Random(11), self.schema("job"), {mistake: [0, 0] for mistake in MISTAKES}
        for number in range(JOBS):
            job, mistake = drawn_job(r), MISTAKES[number % len(MISTAKES)]
            mistake(r, job)
            why, is_valid = why_refused(job), schema.is_valid(job)
            if "no box has this group" in why or "more than 1000000 boxes" in why:
                continue
            self.assertEqual(is_valid, not why, (job, why))
            verdicts[mistake][is_valid] += 1
        # What is drawn is now wrong, now right all the same.
        self.assertGreater(min(count for counts in verdicts.values() for count in counts), 20, verdicts)

    def test_answers(self) -> None:
        r, schema, seen = random.Random(12), self.schema("answer"), 0
        for number in range(JOBS // 10):
            job = {**drawn_job(r), "partial": True, "cuts": number % 2 == 0}
            answer = self.run_job(job).answer
            self.assertEqual([*schema.iter_errors(answer)], [], job)
            seen += len(answer["placements"])
            part: Any = r.choice([it for it in _parts(answer) if isinstance(it, dict)])
            # Each entry is always there, but for a plan that is not asked for, and there are no others.
            key = r.choice([*part])
            del part[key]
            self.assertEqual(schema.is_valid(answer), key == "parts")
            part["colour"] = "red"
            self.assertFalse(schema.is_valid(answer))
        self.assertGreater(seen, 500)


if __name__ == "__main__":
    unittest.main()
