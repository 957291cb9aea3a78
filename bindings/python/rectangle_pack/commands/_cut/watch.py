"""Says on standard error how a search goes, and when it is to end."""
from __future__ import annotations

import shutil
import signal
import sys
import threading
import time
from collections.abc import Callable
from types import FrameType, TracebackType

from .job import Job
from .packing import Rough

__all__ = ["Stop", "Watch"]

# On a terminal a line is written anew after so many seconds; else there is another one.
ANEW, ANOTHER = 0.2, 30.0


class Stop:
    """Ctrl-C ends the search, and the best plan so far is written. Who presses it again ends all."""

    def __init__(self) -> None:
        self.is_pressed = False
        self._before = signal.getsignal(signal.SIGINT)

    def __enter__(self) -> Stop:
        # A shell may have it ignored; and only the main thread hears it.
        if self._before is signal.default_int_handler and threading.current_thread() is threading.main_thread():
            signal.signal(signal.SIGINT, self._press)
        return self

    def __exit__(self, kind: type[BaseException] | None, error: BaseException | None, trace: TracebackType | None) -> None:
        if signal.getsignal(signal.SIGINT) == self._press:
            signal.signal(signal.SIGINT, self._before)

    def _press(self, number: int, frame: FrameType | None) -> None:
        self.is_pressed = True
        signal.signal(signal.SIGINT, self._before)


class Watch:
    """Is told of the tries of a search, and answers whether to go on. On a terminal it has one line that goes on, else a line
    each half minute."""

    def __init__(
        self, job: Job, tries: int | None, seconds: float | None, stop: Stop, clock: Callable[[], float] = time.monotonic,
    ) -> None:
        self.job, self.tries, self.seconds, self.stop, self.clock = job, tries, seconds, stop, clock
        # The tries of all searches that have ended, and those of this one too.
        self.done = self.used = 0
        self.best: Rough | None = None
        self.is_terminal = sys.stderr.isatty()
        self.begun = self.told = clock()

    @property
    def is_over(self) -> bool:
        return self.stop.is_pressed or self.seconds is not None and self.clock() - self.begun >= self.seconds

    @property
    def count(self) -> str:
        """5000 of 20000 tries"""
        return f"{self.used} of {self.tries} tries" if self.tries is not None else f"{self.used} tries"

    @property
    def text(self) -> str:
        """birch 18 mm: 5000 of 20000 tries, best so far: 12 sheets, cost 830.5"""
        of = f"{self.job.of}: " if self.job.of else ""
        found = "no plan so far"
        if self.best and not self.best.left:
            sheets = "1 sheet" if self.best.sheets == 1 else f"{self.best.sheets} sheets"
            found = f"best so far: {sheets}, cost {self.job.costs.text(self.best.cost)}"
        return f"{of}{self.count}, {found}"

    def tried(self, used: int, found: Rough) -> bool:
        """This search has made so many tries, and found this. Whether it is to go on."""
        self.used = self.done + used
        self.best = found if self.best is None else min(self.best, found)
        now = self.clock()
        if now - self.told >= (ANEW if self.is_terminal else ANOTHER):
            self.told = now
            self._tell()
        return not self.is_over

    def next(self) -> None:
        """This search has ended."""
        self.done = self.used

    def _tell(self, end: str = "") -> None:
        if self.is_terminal:
            width = shutil.get_terminal_size().columns - 1
            print(f"\r{self.text[:width]:{width}}", end=end, file=sys.stderr, flush=True)
        else:
            print(self.text, file=sys.stderr, flush=True)

    def end(self) -> None:
        """Ends the line on a terminal."""
        if self.is_terminal and self.used:
            self._tell("\n")
