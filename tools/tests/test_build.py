"""Tests of tools/build.py: which proofs share the processors, what is said of how far they are, and what is taken over of proofs
that the gate made."""
from __future__ import annotations

import contextlib
import io
import os
import pathlib
import tempfile
import unittest
from unittest import mock

import build

# What each crate stands on.
BELOW = "low:\nleft: low\nright: low\nmiddle: left\ntop: middle right\n"
# The log of a check of eight functions, as it was after five, and one more line that is not whole yet.
LOG = """\
checked tiny::clock::ClockDisplay::fmt, 1 of 8
checked tiny::clock::Clock::new, 2 of 8
checked tiny::clock::describe, 3 of 8
checked tiny::std++io++traits++Lines+Destruct::drop, 4 of 8
checked tiny::main, 5 of 8
checked tiny::clock::ClockPartialEq::eq, 6"""


class Shares(unittest.TestCase):
    def shares(self, jobs: int, ready: list[str], running: list[str]) -> dict[str, int]:
        """How many jobs each crate gets."""
        with mock.patch.object(build, "most_jobs", return_value=jobs):
            return dict(build.Build(build.crates_of(BELOW), pathlib.Path()).shares(ready, running))

    def test_a_proof_alone_gets_all_processors(self) -> None:
        self.assertEqual(self.shares(4, ["top"], []), {"top": 4})

    def test_that_for_which_most_wait_gets_all_processors(self) -> None:
        self.assertEqual(self.shares(4, ["left", "right"], []), {"left": 4, "right": 2})
        self.assertEqual(self.shares(4, ["right"], ["left"]), {"right": 2})
        self.assertEqual(self.shares(4, ["middle"], ["right"]), {"middle": 4})


class Steps(unittest.TestCase):
    """The commands for a library, and for a program over it."""

    def setUp(self) -> None:
        folder = tempfile.TemporaryDirectory()
        self.addCleanup(folder.cleanup)
        top = pathlib.Path(folder.name)
        (top / "crates/program/src").mkdir(parents=True)
        (top / "crates/program/src/main.rt").touch()
        self.its = build.Build(build.crates_of("low:\nprogram: low\n", top), top)

    def steps(self, name: str) -> list[list[str]]:
        return [*self.its.steps(self.its.crates[name], 4)]

    def test_what_a_check_proved_of_a_library_is_built_with_its_statements_alone(self) -> None:
        check, builds = self.steps("low")
        self.assertLessEqual({"--statements", "--progress"}, {*check})
        self.assertEqual(check[check.index("-o") + 1], builds[builds.index("--crate-checked") + 1])
        self.assertEqual(builds[builds.index("-o") + 1], str(self.its.crates["low"].made))

    def test_what_a_check_proved_of_a_program_is_built_and_linked(self) -> None:
        check, compiles, links = self.steps("program")
        self.assertEqual((check[1], compiles[1]), ("check", "build"))
        self.assertIn("--progress", check)
        self.assertEqual(check[check.index("-o") + 1], compiles[compiles.index("--crate-checked") + 1])
        self.assertIn(compiles[compiles.index("-o") + 1], links)
        self.assertIn(f"low={self.its.crates['low'].made}", check)


class HowFar(unittest.TestCase):
    def test_a_log_has_counts(self) -> None:
        self.assertEqual(build.counts_of(LOG), (5, 8))
        self.assertEqual(build.counts_of(""), (0, 0))

    def test_what_is_left_is_reckoned_by_the_share(self) -> None:
        self.assertEqual(build.how_far("tiny", (5, 8), 340, (40, 2)), "tiny: 5 of 8 functions are proved, about 5 min left")

    def test_before_there_is_a_share(self) -> None:
        self.assertEqual(build.how_far("tiny", (0, 0), 12.3, (0, 0)), "tiny is being proved, for 12 s")
        self.assertEqual(build.how_far("tiny", (5, 8), 40, (40, 5)), "tiny: 5 of 8 functions are proved")

    def test_after_the_last_function(self) -> None:
        self.assertEqual(build.how_far("tiny", (8, 8), 340, (40, 2)), "tiny: all 8 functions are proved, and it is compiled")

    def told(self, is_terminal: bool) -> str:
        """What is told, twice, of one crate that is being proved and one that has not begun."""
        with tempfile.TemporaryDirectory() as top, contextlib.redirect_stderr(io.StringIO()) as said:
            its = build.Build(build.crates_of("tiny:\nnext: tiny\n", pathlib.Path(top)), pathlib.Path())
            its.is_terminal, its.began, its.sums = is_terminal, {"tiny": 0}, {"tiny": ""}
            its.crates["tiny"].proved.mkdir(parents=True)
            for seconds, log in ((40, LOG[: LOG.index("checked tiny::clock::describe")]), (340, LOG)):
                its.crates["tiny"].log.write_text(log)
                with mock.patch("time.monotonic", return_value=seconds), mock.patch.dict(os.environ, COLUMNS="50"):
                    its.tell(["tiny", "next"])
        return said.getvalue()

    def test_a_terminal_has_one_line_that_goes_on(self) -> None:
        lines = ["tiny: 2 of 8 functions are proved; crates to come", "tiny: 5 of 8 functions are proved, about 5 min le"]
        self.assertEqual(self.told(True), "".join(f"\r\x1b[K{it}" for it in lines))

    def test_elsewhere_there_are_plain_lines(self) -> None:
        counts = ("2 of 8 functions are proved", "5 of 8 functions are proved, about 5 min left")
        lines = [f"tiny: {it}; crates to come: 1\n" for it in counts]
        self.assertEqual(self.told(False), "".join(lines))


class Take(unittest.TestCase):
    """What `rt ci` left of two crates, of which the second stands on the first."""

    BEGAN = 1000.0

    def setUp(self) -> None:
        folder = tempfile.TemporaryDirectory()
        self.addCleanup(folder.cleanup)
        self.top = pathlib.Path(folder.name)
        (self.top / "KIT-ID").write_text("kit")
        self.crates = build.crates_of("low:\nhigh: low\n", self.top)
        for name in self.crates:
            self.write(f"crates/{name}/src/lib.rt", "source", self.BEGAN - 1)
            self.write(f"crates/{name}/out/rlib/{name}.rlib/format", f"left of {name}", self.BEGAN + 1)
            os.utime(self.crates[name].left_by_ci, (self.BEGAN + 1, self.BEGAN + 1))

    def write(self, name: str, text: str, changed: float) -> None:
        path = self.top / name
        path.parent.mkdir(parents=True, exist_ok=True)
        path.write_text(text)
        os.utime(path, (changed, changed))

    def taken(self, *proved: str, kept: str = "") -> list[str]:
        """What is taken over where `rt ci` said that it proved these, and that it had kept one."""
        said = "".join(f"== {name}\nlogic=proved functions=2\nrt: {name} proved\n" for name in proved)
        said += f"rt: {kept} is kept: an earlier run proved it\n" if kept else ""
        with mock.patch.object(build, "TOP", self.top):
            return build.Build(self.crates, self.top).take(self.BEGAN, said)

    def test_what_is_proved_is_taken_over(self) -> None:
        self.assertEqual(self.taken("low", "high"), ["low", "high"])
        high = self.crates["high"]
        self.assertEqual((high.made / "format").read_text(), "left of high")
        self.assertEqual(high.log.read_text(), "logic=proved functions=2\n")
        with mock.patch.object(build, "TOP", self.top), mock.patch.object(build.Build, "call") as call:
            build.Build(self.crates, self.top).run()
        call.assert_not_called()

    def test_what_is_not_said_to_be_proved_is_left(self) -> None:
        self.assertEqual(self.taken("low"), ["low"])
        self.assertFalse(self.crates["high"].stamp.exists())

    def test_what_stands_on_a_library_that_is_left_is_left(self) -> None:
        self.assertEqual(self.taken("high"), [])

    def test_a_program_stays_where_it_is(self) -> None:
        self.crates = build.crates_of("low:\nprogram: low\n", self.top)
        self.write("crates/program/src/main.rt", "source", self.BEGAN - 1)
        self.write("crates/program/out/program", "program", self.BEGAN + 1)
        self.assertEqual(self.taken("low", "program"), ["low", "program"])
        self.assertTrue(self.crates["program"].stamp.exists())

    def test_a_source_that_is_newer_is_not_proved(self) -> None:
        self.write("crates/high/src/lib.rt", "other", self.BEGAN + 1)
        self.assertEqual(self.taken("low", "high"), ["low"])

    def test_what_an_older_check_left_is_left(self) -> None:
        os.utime(self.crates["high"].left_by_ci, (self.BEGAN - 1, self.BEGAN - 1))
        self.assertEqual(self.taken("low", "high"), ["low"])

    def test_what_the_machine_had_kept_is_taken_over(self) -> None:
        os.utime(self.crates["low"].left_by_ci, (self.BEGAN - 1, self.BEGAN - 1))
        self.assertEqual(self.taken("high", kept="low"), ["low", "high"])
        self.assertEqual(self.crates["low"].log.read_text(), "low is kept: an earlier run proved it\n")


if __name__ == "__main__":
    unittest.main()
