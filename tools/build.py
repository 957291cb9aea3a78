#!/usr/bin/env python3
"""Proves a program, or the library for C, with all that it stands on, and builds it.

build.py CRATE: proves the crates on which CRATE stands, side by side where neither stands on the other, then CRATE itself,
    and builds it: a program as crates/CRATE/out/CRATE, a static library as crates/CRATE/out/libCRATE.a. What it proved
    before is not proved again, as long as no file has changed of that crate and of those below it.
build.py --reached PROGRAM: proves and builds a copy of the program and of the crates below it in build/reached, from which
    tools/reached.py leaves out what tools/left_out.txt names.
build.py --take BEGAN SAID: takes over what `rt ci` has proved in this clone, so that it is not proved again. BEGAN is a file written
    before it began, SAID has what it said.

While it proves, it says on standard error how far it is: on a terminal in one line that goes on, else in a line each half minute.

`rattle build` builds nothing that is not proved. `rt lib` and `rt run` take one crate after another, keep what a proof after an edit
can begin from, which makes a first build longer, and do not take what `rt ci` proved."""
import collections.abc
import concurrent.futures
import dataclasses
import fcntl
import graphlib
import hashlib
import math
import os
import pathlib
import re
import shutil
import subprocess
import sys
import time

TOP = pathlib.Path(__file__).resolve().parent.parent
# What is proved of crates as they are.
PROVED = TOP / "build" / "proved"
# A program is copied to here, without what it does not reach.
REACHED = TOP / "build" / "reached"
TARGET = "x86_64-unknown-linux-gnu"
# In kB: the memory that is left alone, and what a proof or a further job of it is reckoned to take.
LEFT_ALONE, MEMORY_OF_A_JOB = 1e6, 3e6
# The checker's allocator keeps what is freed for the next request.
SETTINGS = {"MIMALLOC_PURGE_DELAY": "-1"}
# Seconds between two words on how far it is: on a terminal, and elsewhere.
PAUSES = {True: 1, False: 30}
# What a check says as it ends with a function.
CHECKED = re.compile(r"(?m)^checked .*, (\d+) of (\d+)$")


class NotProved(Exception):
    """A crate that is not proved, or that could not be built."""


@dataclasses.dataclass(frozen=True)
class Crate:
    """A crate of crates.txt, and the crates that its line names."""

    name: str
    is_static: bool
    below: tuple[str, ...]
    top: pathlib.Path = TOP

    @property
    def folder(self) -> pathlib.Path:
        return self.top / "crates" / self.name

    @property
    def proved(self) -> pathlib.Path:
        """Where what is proved of it is kept: its log and stamp, and of a library what those above read."""
        return self.top / "build" / "proved"

    @property
    def log(self) -> pathlib.Path:
        """What was said when it was proved."""
        return self.proved / f"{self.name}.log"

    @property
    def stamp(self) -> pathlib.Path:
        """A sum of all that the proof read."""
        return self.proved / f"{self.name}.sum"

    @property
    def is_program(self) -> bool:
        return (self.folder / "src" / "main.rt").is_file()

    @property
    def is_library(self) -> bool:
        """Whether other crates can stand on it."""
        return not self.is_program and not self.is_static

    @property
    def made(self) -> pathlib.Path:
        """What a build of it makes."""
        built = TOP / "crates" / self.name / "out"
        if self.is_program:
            return built / self.name
        if self.is_static:
            return built / f"lib{self.name}.a"
        return self.proved / f"{self.name}.rlib"

    @property
    def left_by_ci(self) -> pathlib.Path:
        """Where `rt ci` leaves what those above a library read, or a program."""
        return self.folder / "out" / "rlib" / f"{self.name}.rlib" if self.is_library else self.made

    def sources(self) -> list[pathlib.Path]:
        """The files that a proof reads, in order."""
        return sorted(
            path for room in ("src", "specs", "proofs") for path in (self.folder / room).rglob("*") if path.is_file()
        )


def crates_of(text: str, top: pathlib.Path = TOP) -> dict[str, Crate]:
    """The crates that crates.txt names."""
    crates = {}
    for line in text.splitlines():
        head, colon, below = line.partition("#")[0].partition(":")
        if colon:
            name, *kind = head.split()
            crates[name] = Crate(name, kind == ["staticlib"], tuple(below.split()), top)
    return crates


def with_all_below(name: str, crates: dict[str, Crate]) -> dict[str, Crate]:
    """The crate of this name and all that it stands on."""
    found = {name: crates[name]}
    for it in crates[name].below:
        found |= with_all_below(it, crates)
    return found


def what_it_reaches(program: str) -> dict[str, Crate]:
    """The crates of the copy of a program, without what a list names."""
    import reached  # Not above, as tools/release reads this file from another folder.

    try:
        reached.copy(program, REACHED)
    except reached.Refused as why:
        raise NotProved(why) from why
    return crates_of((REACHED / "crates.txt").read_text(), REACHED)


def toolchain() -> pathlib.Path:
    """The folder of the toolchain."""
    said = subprocess.run(["rt", "doc"], capture_output=True, text=True, check=True)
    return pathlib.Path(said.stdout.strip()).parent


def most_jobs() -> int:
    """How many jobs there are processors and memory for."""
    said = pathlib.Path("/proc/meminfo").read_text()
    free = next(int(line.split()[1]) for line in said.splitlines() if line.startswith("MemAvailable:"))
    return max(1, min(len(os.sched_getaffinity(0)), int((free - LEFT_ALONE) / MEMORY_OF_A_JOB)))


def chain(name: str, crates: dict[str, Crate]) -> int:
    """How many crates are proved one after another from this one on."""
    return 1 + max((chain(it.name, crates) for it in crates.values() if name in it.below), default=0)


def counts_of(log: str) -> tuple[int, int]:
    """How many functions are proved of how many, as a log says; zeros where it says nothing yet."""
    done, of = (CHECKED.findall(log) or [("0", "0")])[-1]
    return int(done), int(of)


def how_far(name: str, counts: tuple[int, int], took: float, first: tuple[float, int]) -> str:
    """What is said of a proof that has taken so many seconds. What is left is reckoned by the share that is done since the first look
    at which a function was proved: after how many seconds that was, and how many were."""
    done, of = counts
    if not of:
        return f"{name} is being proved, for {took:.0f} s"
    if done == of:
        return f"{name}: all {of} functions are proved, and it is compiled"
    seconds, more = took - first[0], done - first[1]
    left = f", about {math.ceil(seconds * (of - done) / more / 60)} min left" if more else ""
    return f"{name}: {done} of {of} functions are proved{left}"


class Build:
    """One build, of these crates."""

    def __init__(self, crates: dict[str, Crate], kit: pathlib.Path) -> None:
        self.crates = crates
        self.kit = kit
        self.jobs = most_jobs()
        self.began: dict[str, float] = {}
        self.first: dict[str, tuple[float, int]] = {}
        self.sums: dict[str, str] = {}
        self.is_terminal = sys.stderr.isatty()
        self.running: list[subprocess.Popen[bytes]] = []

    def sum_of(self, crate: Crate) -> str:
        """A sum of all that a proof of the crate reads."""
        whole = hashlib.sha256((self.kit / "KIT-ID").read_bytes())
        for path in crate.sources():
            content = path.read_bytes()
            whole.update(f"{path.relative_to(TOP)} {len(content)}\n".encode() + content)
        for name in crate.below:
            whole.update(self.sums[name].encode())
        return whole.hexdigest()

    def steps(self, crate: Crate, jobs: int) -> collections.abc.Iterator[list[str]]:
        """The commands that prove the crate and build it. The check tells how far it is."""
        kit, checked = self.kit, str(crate.proved / f"{crate.name}.checked")
        words = ["--crate-name", crate.name, f"src/{'main' if crate.is_program else 'lib'}.rt", "--links", f"{crate.name}="]
        words += ["--extern", f"std={kit}/rlibs/std.rlib", "-L", f"dependency={kit}/rlibs", "-L", f"dependency={crate.proved}"]
        words += [it for name in crate.below for it in ("--extern", f"{name}={self.crates[name].made}")]
        words += ["--antt-project", f"{kit}/rattle/logic/antt-project.json"]
        words += ["--crate-type", "staticlib"] if crate.is_static else []
        proves = ["--logic-built", f"{kit}/logic_built", "--jobs", str(jobs), *(["--statements"] if crate.is_library else [])]
        yield ["rattle", "check", *words, *proves, "--progress", "-o", checked]
        compiles = [] if crate.is_library else ["--toolchain", f"{kit}/toolchain", "--backend", "llvm"]
        part = str(crate.made.with_suffix(".o") if crate.is_program else crate.made)
        yield ["rattle", "build", *words, "--crate-checked", checked, *compiles, "-o", part]
        if crate.is_program:
            link = [f"{kit}/bin/rattle-link", "--target", TARGET, "--toolchain", f"{kit}/toolchain", "-o", str(crate.made)]
            yield [*link, part, f"{kit}/c/libos_c.a", f"{kit}/c/liblibc_c.a"]

    def call(self, crate: Crate, words: list[str]) -> None:
        """Runs a command in the crate's folder, and keeps what it says."""
        with crate.log.open("ab") as log:
            env = {**SETTINGS, **os.environ}
            ran = subprocess.Popen(words, cwd=crate.folder, env=env, stdin=subprocess.DEVNULL, stdout=log, stderr=log)
            self.running.append(ran)
            status = ran.wait()
        if status:
            said = re.sub(r"(?m)^checked .*\n", "", crate.log.read_text(errors="replace"))
            raise NotProved(f"{said}{crate.name} is not built: {words[0]} ended with {status}")

    def is_proved(self, crate: Crate) -> bool:
        """Whether the crate is proved and built as it stands."""
        return crate.made.exists() and crate.stamp.is_file() and crate.stamp.read_text() == self.sums[crate.name]

    def make(self, crate: Crate, jobs: int) -> None:
        """Proves and builds the crate, where that is not done yet."""
        self.sums[crate.name] = whole = self.sum_of(crate)
        if self.is_proved(crate):
            crate.made.touch()
            return
        crate.stamp.unlink(missing_ok=True)
        crate.proved.mkdir(parents=True, exist_ok=True)
        crate.log.write_text("")
        crate.made.parent.mkdir(exist_ok=True)
        self.began[crate.name] = time.monotonic()
        for words in self.steps(crate, jobs):
            self.call(crate, words)
        if self.sum_of(crate) == whole:
            crate.stamp.write_text(whole)
        self.say(f"{crate.name} is proved, in {time.monotonic() - self.began[crate.name]:.0f} s\n")

    def say(self, text: str) -> None:
        """Says it, on a terminal in place of the line that stands there."""
        print(f"\r\x1b[K{text}" if self.is_terminal else text, end="", file=sys.stderr, flush=True)

    def told(self, name: str) -> str:
        """How far the proof of a crate is."""
        took, counts = time.monotonic() - self.began[name], counts_of(self.crates[name].log.read_text(errors="replace"))
        if counts[0]:
            self.first.setdefault(name, (took, counts[0]))
        return how_far(name, counts, took, self.first.get(name, (0, 0)))

    def tell(self, names: collections.abc.Iterable[str]) -> None:
        """Tells how far the proofs of these crates are, of those that have begun, and how many crates come after them."""
        if line := "; ".join(self.told(name) for name in names if name in self.began):
            left = len(self.crates) - len(self.sums)
            line += f"; crates to come: {left}" if left else ""
            self.say(line[: shutil.get_terminal_size().columns - 1] if self.is_terminal else f"{line}\n")

    def told_by_ci(self, crate: Crate, began: float, said: str) -> str | None:
        """What `rt ci`, which began then, said of a crate that it proved as it stands, or that the machine had kept from an earlier run,
        where it left what was made."""
        proved = re.search(rf"(?ms)^== {crate.name}\n(.*?)^rt: {crate.name} proved$", said)
        told = proved or re.search(rf"(?m)^rt: ({crate.name} is kept: .*\n)", said)
        is_left = crate.left_by_ci.exists() and (not proved or crate.left_by_ci.stat().st_mtime > began)
        is_as_it_stands = all(it.stat().st_mtime < began for it in crate.sources())
        return told[1] if told and is_left and is_as_it_stands else None

    def take(self, began: float, said: str) -> list[str]:
        """Takes over the crates that `rt ci` proved, and answers their names. What it leaves of them is what this tool makes. It fits
        only what it was proved over: what stands on a crate that is left is left too."""
        taken: list[str] = []
        for name in graphlib.TopologicalSorter({it.name: it.below for it in self.crates.values()}).static_order():
            crate = self.crates[name]
            told = self.told_by_ci(crate, began, said)
            if told is not None and {*crate.below} <= {*taken}:
                self.take_over(crate, told)
                taken.append(name)
        return taken

    def take_over(self, crate: Crate, told: str) -> None:
        """Copies what `rt ci` left of a library, and keeps what it said of the crate."""
        crate.proved.mkdir(parents=True, exist_ok=True)
        crate.stamp.unlink(missing_ok=True)
        if crate.is_library:
            shutil.rmtree(crate.made, ignore_errors=True)
            shutil.copytree(crate.left_by_ci, crate.made)
        crate.log.write_text(told)
        self.sums[crate.name] = self.sum_of(crate)
        crate.stamp.write_text(self.sums[crate.name])

    def shares(self, ready: collections.abc.Sequence[str], running: collections.abc.Sequence[str]) -> list[tuple[str, int]]:
        """The crates that are ready, beside what is running, each with its jobs: all processors for those for which most others wait,
        and half of them for each of the rest."""
        longest = max([0, *(chain(name, self.crates) for name in [*ready, *running])])
        return [(name, self.jobs if chain(name, self.crates) == longest else max(1, self.jobs // 2)) for name in ready]

    def run(self) -> None:
        """Makes each crate once those are made on which it stands."""
        order = graphlib.TopologicalSorter({crate.name: crate.below for crate in self.crates.values()})
        order.prepare()
        running: dict[concurrent.futures.Future[None], str] = {}
        with concurrent.futures.ThreadPoolExecutor(self.jobs) as pool:
            try:
                while order.is_active():
                    for name, jobs in self.shares(order.get_ready(), [*running.values()]):
                        running[pool.submit(self.make, self.crates[name], jobs)] = name
                    pause, until = PAUSES[self.is_terminal], concurrent.futures.FIRST_COMPLETED
                    while not (done := concurrent.futures.wait(running, pause, until).done):
                        self.tell(running.values())
                    for it in done:
                        it.result()
                        order.done(running.pop(it))
            except BaseException:
                pool.shutdown(wait=False, cancel_futures=True)
                for ran in self.running:
                    ran.terminate()
                self.say("")
                raise


def main(words: collections.abc.Sequence[str]) -> int:
    crates = crates_of((TOP / "crates.txt").read_text())
    takes = len(words) == 3 and words[0] == "--take"
    *options, name = words or [""]
    if not takes and (options not in ([], ["--reached"]) or name not in crates or (options and not crates[name].is_program)):
        print(__doc__, file=sys.stderr)
        return 2
    PROVED.mkdir(parents=True, exist_ok=True)
    try:
        with (PROVED / "lock").open("w") as lock:
            # A second build waits, and then finds what the first one proved.
            fcntl.flock(lock, fcntl.LOCK_EX)
            if takes:
                began, said = map(pathlib.Path, words[1:])
                taken = Build(crates, toolchain()).take(began.stat().st_mtime, said.read_text(errors="replace"))
                print(f"taken over from rt ci: {', '.join(taken) or 'nothing'}")
            else:
                Build(what_it_reaches(name) if options else with_all_below(name, crates), toolchain()).run()
    except NotProved as why:
        print(why, file=sys.stderr)
        return 1
    return 0


if __name__ == "__main__":
    sys.exit(main(sys.argv[1:]))
