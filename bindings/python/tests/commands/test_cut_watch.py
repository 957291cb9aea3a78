"""What is said while a search goes on, and what is written when the user ends it."""
from __future__ import annotations

import contextlib
import io
import os
import pty
import select
import signal
import subprocess
import sys
import time
import unittest
from collections.abc import Sequence
from pathlib import Path
from unittest import mock

from rectangle_pack.commands._cut.files import write_all
from rectangle_pack.commands._cut.job import Job, Material
from rectangle_pack.commands._cut.packing import Rough
from rectangle_pack.commands._cut.unit import Lengths
from rectangle_pack.commands._cut.watch import Stop, Watch
from rectangle_pack.commands._scale import Scale

from .test_cut_runs import PYTHON, Case, check_panels, rows_of, run_cut, saw_all

HEAD, SHEETS = "name,count,width,height,grain\n", "name,count,width,height,cost\n"
PANELS, STOCK = f"{HEAD}a,20,70,40,free\nb,30,33,21,free\n", f"{SHEETS}s,,200,150,2.5\n"

class Screen(io.StringIO):
    """A terminal."""

    def isatty(self) -> bool:
        return True


class Lines(unittest.TestCase):
    def told(
        self, stream: io.StringIO, moments: Sequence[float], material: str = "", tries: int | None = 9000,
    ) -> str:
        """What is written where a search tells of it at these moments, after a thousand tries each. From the second on there is
        a plan: of one sheet more each time, in searches of its own, so that the first is the best."""
        clock = iter([0.0, *moments])
        with contextlib.redirect_stderr(stream):
            job = Job([], [], 0, (0, 0), Lengths(), Scale(1), material=Material(material, "18" if material else ""))
            watch = Watch(job, tries, None, Stop(), lambda: next(clock))
            for number in range(len(moments)):
                self.assertTrue(watch.tried(1000, Rough(int(not number), 125 * number, number)))
                watch.next()
            watch.end()
        return stream.getvalue()

    def test_a_line_each_half_minute(self) -> None:
        best = "best so far: 1 sheet, cost 12.5\n"
        self.assertEqual(self.told(io.StringIO(), [10, 29, 30, 31, 59, 61, 200]), (
            f"3000 of 9000 tries, {best}6000 of 9000 tries, {best}7000 of 9000 tries, {best}"))
        self.assertEqual(self.told(io.StringIO(), [31], "birch"), "birch 18 mm: 1000 of 9000 tries, no plan so far\n")
        self.assertEqual(self.told(io.StringIO(), [1, 2, 3]), "")

    def test_as_many_tries_as_there_is_time_for(self) -> None:
        self.assertEqual(self.told(io.StringIO(), [1, 31], tries=None), "2000 tries, best so far: 1 sheet, cost 12.5\n")

    def test_a_line_that_goes_on(self) -> None:
        with mock.patch.dict(os.environ, {"COLUMNS": "61"}):
            text = self.told(Screen(), [0.1, 0.3, 0.4, 0.6])
        lines = [f"{number} of 9000 tries, best so far: 1 sheet, cost 12.5" for number in (2000, 4000)]
        # At the end it is written once more, with the end of the line.
        self.assertEqual(text, "".join(f"\r{line:60}" for line in (*lines, lines[1])) + "\n")

    def test_a_narrow_terminal(self) -> None:
        with mock.patch.dict(os.environ, {"COLUMNS": "11"}):
            self.assertEqual(self.told(Screen(), [5]), "\r1000 of 90\r1000 of 90\n")

    def test_when_it_is_over(self) -> None:
        """At the end of its time, or when Ctrl-C is pressed."""
        moments = iter([0.0, 4.9, 5.0, 6.0])
        job = Job([], [], 0, (0, 0), Lengths(), Scale())
        watch = Watch(job, None, 5, Stop(), lambda: next(moments))
        self.assertEqual([watch.is_over for _ in range(3)], [False, True, True])
        with Stop() as stop:
            watch = Watch(job, None, None, stop)
            self.assertTrue(watch.tried(1, Rough(0, 0, 1)))
            signal.raise_signal(signal.SIGINT)
            self.assertFalse(watch.tried(2, Rough(0, 0, 1)))


def stopping(after: int) -> object:
    """Has the user press Ctrl-C at the time when a search tells of itself that often."""
    tried, calls = Watch.tried, list[int]()

    def stop(watch: Watch, used: int, found: Rough) -> bool:
        calls.append(used)
        if len(calls) == after:
            signal.raise_signal(signal.SIGINT)
        return tried(watch, used, found)

    return mock.patch.object(Watch, "tried", stop)


class Stopped(Case):
    def test_the_best_so_far_is_written(self) -> None:
        paths = [self.write("p.csv", PANELS), "--stock", self.write("s.csv", STOCK), "--kerf", 3, "--no-pdf"]
        with stopping(4):  # type: ignore[attr-defined]
            run = run_cut(self.folder / "plan", *paths, "--page", self.folder / "page.html")
        self.assertEqual(run.status, 130)
        self.assertRegex(run.err, r"^stopped after \d+ of 100000 tries: the plan is the best so far\n$")
        self.assertTrue(run.out.startswith("50 panels from "), run.out)
        self.assertTrue((self.folder / "page.html").exists() and (run.folder / "offcuts.csv").exists())
        check_panels(self, rows_of(PANELS), saw_all(run, 3))
        # Ctrl-C does again what it did.
        self.assertIs(signal.getsignal(signal.SIGINT), signal.default_int_handler)

    def test_all_is_written_when_it_is_stopped_late(self) -> None:
        """Once more, and then it ends. Who stops it again means it."""
        paths = [self.write("p.csv", PANELS), "--stock", self.write("s.csv", STOCK), "--kerf", 3, "--no-pdf", "--tries", 1]
        for times, files in ((1, True), (2, False)):
            def late(folder: Path, files: dict[str, bytes | str], times: int = times) -> None:
                for _ in range(times):
                    signal.raise_signal(signal.SIGINT)
                write_all(folder, files)

            with mock.patch("rectangle_pack.commands.cut.write_all", late):
                run = run_cut(self.folder / f"plan{times}", *paths)
            self.assertEqual((run.status, run.folder.exists()), (130, files))
            self.assertEqual(run.err, "stopped when the search had ended: the plans are whole\n" * files)

    def test_nothing_is_written_where_there_is_no_plan(self) -> None:
        # There is room for three only where one stands, which no heuristic finds, as these turn nothing; and the search is
        # stopped before it begins.
        paths = [self.write("p.csv", f"{HEAD}a,3,50,30,free\n"), "--stock", self.write("s.csv", f"{SHEETS}s,1,80,60,1\n")]
        with mock.patch("rectangle_pack._searching._PIECE", 1), stopping(1):  # type: ignore[attr-defined]
            run = run_cut(self.folder / "plan", *paths, "--kerf", 0, "--no-pdf")
        self.assertEqual((run.status, run.out, run.err, run.folder.exists()), (130, "", "", False))

    def test_materials_after_the_one_that_is_stopped_have_no_plan(self) -> None:
        panels = self.write("p.csv", "width,height,material\n10,10,oak\n20,10,ash\n10,10,elm\n")
        stock = self.write("s.csv", "width,height,cost,material\n50,50,1,oak\n50,50,2,ash\n50,50,4,elm\n")
        rack = self.write("o.csv", "name,width,height,material\nold,40,5,elm\n")
        tried = Watch.tried

        def stop(watch: Watch, used: int, found: Rough) -> bool:
            if watch.job.of == "ash":
                signal.raise_signal(signal.SIGINT)
            return tried(watch, used, found)

        for words, left in (((), []), (("--partial", "--replace"), ["width,height,material", "10,10,elm"])):
            with mock.patch.object(Watch, "tried", stop):
                run = run_cut(self.folder / "plan", panels, "--stock", stock, "--offcuts", rack, "--kerf", 0, "--no-pdf", *words)
            self.assertEqual(run.status, 130)
            self.assertRegex(run.err, r"^stopped after \d+ of 100000 tries: the plan is the best so far; no plan of elm\n$")
            folders = sorted(path.name for path in run.folder.iterdir() if path.is_dir())
            self.assertEqual(folders, ["material-ash", "material-oak"])
            # The offcut of elm is there as before.
            self.assertIn("old,1,elm,40,5,0", (run.folder / "offcuts.csv").read_text(encoding="utf-8").splitlines())
            path = run.folder / "left.csv"
            self.assertEqual(path.read_text(encoding="utf-8").splitlines() if path.exists() else [], left)

    def test_a_time(self) -> None:
        """The search ends when the time is over: each material has a share of it."""
        paths = [self.write("p.csv", PANELS), "--stock", self.write("s.csv", STOCK), "--kerf", 3, "--no-pdf"]
        begun = time.monotonic()
        run = run_cut(self.folder / "plan", *paths, "--seconds", 1)
        self.assertEqual((run.status, run.err), (0, ""))
        self.assertLess(time.monotonic() - begun, 30)
        check_panels(self, rows_of(PANELS), saw_all(run, 3))

    def test_as_a_user_stops_it(self) -> None:
        """On a terminal the line goes on; Ctrl-C is pressed when it says that there is a plan."""
        screen, end = pty.openpty()
        paths = [str(self.write("p.csv", PANELS)), "--stock", str(self.write("s.csv", STOCK)), "--out", str(self.folder / "plan")]
        words = [sys.executable, "-m", "rectangle_pack", "cut", *paths, "--kerf", "3", "--no-pdf", "--tries", "100000000"]
        with subprocess.Popen(
                words, stdout=subprocess.PIPE, stderr=end, text=True, env={**os.environ, "PYTHONPATH": str(PYTHON)},
                # A shell may have it ignored.
                preexec_fn=lambda: signal.signal(signal.SIGINT, signal.default_int_handler) and None) as run:
            os.close(end)
            seen, until = b"", time.monotonic() + 60
            while b"best so far" not in seen and run.poll() is None and time.monotonic() < until:
                seen += os.read(screen, 1000) if select.select([screen], [], [], 0.1)[0] else b""
            run.send_signal(signal.SIGINT)
            out, _ = run.communicate(timeout=60)
        with contextlib.suppress(OSError):
            while more := os.read(screen, 1000):
                seen += more
        os.close(screen)
        self.assertEqual(run.returncode, 130)
        self.assertTrue(out.startswith("50 panels from "), out)
        self.assertRegex(seen.decode(), r"\r\d+ of 100000000 tries, best so far: \d+ sheets, cost [\d.]+ ")
        self.assertRegex(seen.decode().splitlines()[-1], r"^stopped after \d+ of 100000000 tries: the plan is the best so far$")
        self.assertTrue((self.folder / "plan" / "buy.csv").exists())


if __name__ == "__main__":
    unittest.main()
