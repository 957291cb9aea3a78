#!/usr/bin/env python3
"""Tries wrong bodies: the prover has to refuse each, for what it does.

wrong_bodies.py [WORD..]: those in crates/*/wrong-bodies, which the gate does not try; only those with one of these words in their names or the
    names of their crates, where some are given. With --gate those in must-fail too.

Each crate is copied with those that it stands on, and checked as it is and then with each edit, over what the checks before kept. What
`rt check` has kept in this clone is not proved again.

An edit that takes a name away, as that of a branch, is refused by each proof that names it, whatever the body does. So what only
names what is gone does not count; nor does a goal without a proof that may be one whose answer has the name of before."""
from __future__ import annotations

import argparse
import collections
import collections.abc
import concurrent.futures
import dataclasses
import graphlib
import os
import pathlib
import re
import shutil
import subprocess
import sys
import tempfile

import build

TOP = build.TOP
PARTS = ("src", "specs", "proofs")
# An error in a proof. Some say no more than that a name is gone, or that what they cite has no proof.
ERROR = re.compile(r"(?:\./)?proofs/(\S+?)(?:/\w+)?\.antt:\d+:\d+: error: (.*)")
GONE = re.compile(r"has no field|is not in scope|has no `|was not admitted|is not a field of|\(nearest: ")
# An answer to a goal that is gone.
GOAL_GONE = re.compile(r"module `\S+\.Goals(?:\.\S+)?` has no `([^`]+)`")
# A goal that nothing proves; then comes the function that has it, and others.
OPEN = re.compile(r"(?:note: )?(src/\S+:\d+:\d+: it is not proved .*\(`([^`]+)`\).*)")
# Where in the body a goal is asked for, in its name.
PLACE = re.compile(r"-(?:then|else|in|clause)[-_].*")
FUNCTION = re.compile(r"fn (\S+): (?:not proved|no proof: (?!it calls)|proof)")
# What antt cannot read, where it stands in the code.
UNREAD = re.compile(r"(?:\./)?(?:src|specs)/\S+?:\d+:\d+: error: ")


@dataclasses.dataclass(frozen=True)
class Edit:
    """An edit of a crate: what it puts in place of what, in which files."""

    path: pathlib.Path
    crate: str

    @property
    def name(self) -> str:
        return f"{self.crate}/{self.path.name}"

    def texts(self, folder: pathlib.Path) -> dict[str, str]:
        """The files as the edit makes them, by their names in the crate. Nothing where it cannot be applied."""
        texts: dict[str, str] = {}
        file = old = ""
        for line in self.path.read_text(encoding="utf-8").split("\n"):
            word, _, text = line.partition(": ") if not line.startswith("new:") else ("new", "", line[4:].removeprefix(" "))
            if word == "file":
                file = text.strip()
                texts.setdefault(file, (folder / file).read_text(encoding="utf-8"))
            elif word == "old":
                old = text
            elif word == "new":
                if texts[file].count(old) != 1:
                    return {}
                texts[file] = texts[file].replace(old, text)
        return texts


def edits_of(words: collections.abc.Sequence[str], of_gate: bool) -> list[Edit]:
    """The edits that have one of these words in their names, as CRATE/FUNCTION.what_is_wrong.edit."""
    folders = ("wrong-bodies", "must-fail") if of_gate else ("wrong-bodies",)
    edits = [Edit(it, it.parent.parent.name) for folder in folders for it in sorted(TOP.glob(f"crates/*/{folder}/*.edit"))]
    return [it for it in edits if not words or any(word in it.name for word in words)]


@dataclasses.dataclass
class Refusal:
    """What a check says of a crate with an edit."""

    # By functions: goals without a proof, and errors that are about more than a name.
    reasons: dict[str, list[str]] = dataclasses.field(default_factory=dict)
    # What only names what is gone.
    gone: list[str] = dataclasses.field(default_factory=list)

    def add(self, function: str, reason: str) -> None:
        self.reasons.setdefault(function, []).append(reason)


def refusal_of(said: str) -> Refusal:
    """Reads what a check said."""
    found, open_goals = Refusal(), []
    lost: collections.defaultdict[str, set[str]] = collections.defaultdict(set)
    # A line that is indented goes on with the one before.
    for line in re.sub(r"\n +", " ", said).splitlines():
        if error := ERROR.match(line):
            function = error[1].replace("/", "::")
            if GONE.search(error[2]):
                found.gone.append(line)
                lost[function] |= {PLACE.sub("", goal) for goal in GOAL_GONE.findall(error[2])}
            else:
                found.add(function, line)
        elif goal := OPEN.match(line):
            open_goals.append((PLACE.sub("", goal[2]), goal[1]))
        elif at := FUNCTION.match(line):
            function = at[1].partition("::")[2]
            for name, goal_line in open_goals:
                if name in lost[function]:
                    found.gone.append(goal_line)
                else:
                    found.add(function, goal_line)
            open_goals = []
    return found


def judged(status: int, said: str) -> tuple[bool, str]:
    """Whether a check has refused an edit for what it does, and what there is to say."""
    if status == 0:
        return False, "NOT REFUSED: the crate is still proved"
    unread = next((line for line in said.splitlines() if UNREAD.match(line)), "")
    if unread or not re.search(r"(?m)^logic=not-proved", said):
        return False, f"BAD EDIT: it did not reach the prover: {unread or said[:400]}"
    found = refusal_of(said)
    if not found.reasons:
        return False, f"refused for a name alone: {found.gone[0] if found.gone else said[-400:]}"
    function, reasons = next(iter(found.reasons.items()))
    return True, f"refused at {', '.join(found.reasons)}: {reasons[0]}"


class Room:
    """A copy of a crate, with those that it stands on, in which edits are tried."""

    def __init__(self, folder: pathlib.Path, name: str, libraries: pathlib.Path) -> None:
        self.name, self.folder = name, folder / "crates" / name
        begin(folder, {name})
        copy_crate(TOP, folder, name, "out/incremental")
        for it in below({name}):
            copy_crate(libraries, folder, it, "out/rlib")

    def check(self) -> tuple[int, str]:
        """The status of a check, and what it said."""
        command = ["rt", "check", "--jobs", "1"]
        how = {"cwd": self.folder, "stdin": subprocess.DEVNULL, "stdout": subprocess.PIPE, "stderr": subprocess.STDOUT}
        ran = subprocess.run(command, text=True, errors="replace", check=False, **how)  # type: ignore[call-overload]
        return ran.returncode, ran.stdout

    def tried(self, edit: Edit) -> tuple[bool, str]:
        """Whether the edit is refused for what it does, and what there is to say."""
        texts = edit.texts(self.folder)
        if not texts:
            return False, "BAD EDIT: an `old:` text is not in its file just once"
        before = {name: (self.folder / name).read_text(encoding="utf-8") for name in texts}
        for name, text in texts.items():
            (self.folder / name).write_text(text, encoding="utf-8")
        try:
            return judged(*self.check())
        finally:
            for name, text in before.items():
                (self.folder / name).write_text(text, encoding="utf-8")

    def try_all(self, edits: collections.abc.Sequence[Edit]) -> list[str]:
        """The names of edits that are not refused for what they do. The crate itself has to be proved before and after them."""
        left = []
        if not self.is_proved():
            return [it.name for it in edits]
        for edit in edits:
            is_refused, said = self.tried(edit)
            print(f"{edit.name}: {said}", flush=True)
            left += [] if is_refused else [edit.name]
        return left if self.is_proved() else [it.name for it in edits]

    def is_proved(self) -> bool:
        status, said = self.check()
        if status:
            print(f"{self.name} is not proved as it is:\n{said[-2000:]}", file=sys.stderr, flush=True)
        return status == 0


def copied(source: str, to: str) -> None:
    shutil.copy2(source, to)


def link(source: str, to: str) -> None:
    """A second name for a file, or a copy where that cannot be."""
    try:
        os.link(source, to)
    except OSError:
        copied(source, to)


def below(names: collections.abc.Collection[str]) -> list[str]:
    """The crates on which these stand, each after those on which it stands."""
    crates = build.crates_of((TOP / "crates.txt").read_text())
    found = {it: crate.below for name in names for it, crate in build.with_all_below(name, crates).items() if it != name}
    return [*graphlib.TopologicalSorter(found).static_order()]


def begin(folder: pathlib.Path, names: collections.abc.Collection[str]) -> None:
    """Makes a workspace for these crates and those on which they stand."""
    folder.mkdir()
    shutil.copy(TOP / "HANDLES", folder)
    lines = (TOP / "crates.txt").read_text().splitlines(keepends=True)
    wanted = {*names, *below(names)}
    (folder / "crates.txt").write_text("".join(it for it in lines if it.partition(":")[0].split(" ")[0] in wanted))


def copy_crate(top: pathlib.Path, to: pathlib.Path, name: str, kept: str) -> None:
    """Copies the sources of a crate, and this of what checks have kept."""
    crate, copy = top / "crates" / name, to / "crates" / name
    for part in (*PARTS, kept):
        if (crate / part).is_dir():
            shutil.copytree(crate / part, copy / part, copy_function=link if part == "out/rlib" else copied)


def build_libraries(folder: pathlib.Path, names: collections.abc.Collection[str]) -> None:
    """Copies the libraries on which these crates stand, and builds those that are not built as they are."""
    begin(folder, below(names))
    for name in below(names):
        copy_crate(TOP, folder, name, "out/rlib")
    for name in below(names):
        command = ["rt", "lib", "--jobs", str(build.most_jobs())]
        subprocess.run(command, cwd=folder / "crates" / name, stdin=subprocess.DEVNULL, stdout=subprocess.DEVNULL, check=True)


def main() -> int:
    parser = argparse.ArgumentParser(description=__doc__, formatter_class=argparse.RawDescriptionHelpFormatter)
    parser.add_argument("words", metavar="WORD", nargs="*", help="only those whose names have one of these words")
    parser.add_argument("--gate", action="store_true", help="those of the gate too")
    parser.add_argument("--jobs", type=int, default=build.most_jobs(), help="how many crates are tried side by side")
    given = parser.parse_args()
    edits = edits_of(given.words, given.gate)
    names = sorted({it.crate for it in edits})
    with tempfile.TemporaryDirectory(prefix="wrong-bodies-") as folder, concurrent.futures.ThreadPoolExecutor(given.jobs) as pool:
        top = pathlib.Path(folder)
        build_libraries(top / "libraries", names)

        def left_of(name: str) -> list[str]:
            room = Room(top / name, name, top / "libraries")
            return room.try_all([it for it in edits if it.crate == name])

        left = [it for found in pool.map(left_of, names) for it in found]
    for name in left:
        print(f"wrong_bodies.py: {name} was not refused for what it does", file=sys.stderr)
    print(f"{len(edits) - len(left)} refused, {len(left)} not")
    return 1 if left or not edits else 0


if __name__ == "__main__":
    sys.exit(main())
