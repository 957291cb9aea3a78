#!/usr/bin/env python3
"""Copies a program and the crates below it without what tools/left_out.txt names, so that a first run proves the rest and no more.

reached.py PROGRAM TO: writes TO/crates and TO/crates.txt, in place of what is there.
reached.py --check PROGRAM: fails where the checker's front end or its definitions refuse the copy; it proves nothing.

The list names crates, files and items; its head says how. The proofs of a function go with it. So do lines that declare a module
which is gone or pass it on, and names in a `use` of items that are gone. All other lines stay as they are. What is refused: a name in
the list that names nothing, and a line of definitions, lemmas or proofs that cites a file or a proof which is gone."""
from __future__ import annotations

import pathlib
import re
import shutil
import subprocess
import sys
import tempfile
from collections.abc import Iterable, Iterator
from dataclasses import dataclass

sys.path.insert(0, str(pathlib.Path(__file__).resolve().parent / "pages"))

from rattle import Item, items_of, paths_of, split_impl, words_of  # noqa: E402
from sources import CRATES, ORDER  # noqa: E402

LIST = pathlib.Path(__file__).resolve().parent / "left_out.txt"
ROOMS = ("src", "specs", "proofs")
ROOTS = ("lib", "main", "Lib")
# A line of antt, or a ghost item, that brings what is in a module or passes it on; a line of antt that declares one.
BRINGS = re.compile(r" *(pub |ghost )?use Rattle\.(\w+)\.(specs|proofs)\.(?:(declared|contracts)\.)?([\w.+]+)")
DECLARES = re.compile(r"(?:pub )?mod (\w+)$")
# Where that stands of which the checker makes definitions.
ROOM_OF = {"declared": "src", "contracts": "proofs"}


class Refused(Exception):
    """A list that does not fit the sources."""


@dataclass(frozen=True)
class Found:
    """An item that the list names, and the impl around it."""

    item: Item
    around: Item | None = None

    @property
    def name(self) -> str:
        """How the list names it."""
        if self.around:
            return f"{words_of(split_impl(self.around.head)[1])[0]}::{self.item.name}"
        return " ".join(self.item.head.split()) if self.item.kind == "impl" else self.item.name

    def functions(self) -> Iterator[tuple[str, str]]:
        """The functions that it is or has, each with the folder that is around that of its proof."""
        head = self.around or self.item
        if head.kind != "impl":
            yield "", self.item.name
            return
        trait, kind = split_impl(head.head)
        folder = words_of(kind)[0] + (words_of(trait.partition("<")[0]) or [""])[-1]
        yield from ((folder, it.name) for it in ([self.item] if self.around else self.item.items) if it.kind == "fn")


def listed(text: str) -> dict[pathlib.Path, list[str]]:
    """The crates and files that the list names, each with the items of it that go; with none all of it goes."""
    found: dict[pathlib.Path, list[str]] = {}
    for line in (it for it in text.splitlines() if it and not it.startswith("#")):
        if line.startswith(" "):
            found[[*found][-1]].append(line.strip())
        else:
            found[CRATES / line] = []
    return found


def with_all_below(crate: str) -> list[str]:
    """The crate and those that it stands on, in the order of crates.txt."""
    found = {crate}
    for name in reversed(ORDER):
        found |= set(ORDER[name]) if name in found else set()
    return [name for name in ORDER if name in found]


def all_items(items: Iterable[Item]) -> Iterator[Found]:
    """Items, and those in impls of types without a trait."""
    for item in items:
        yield Found(item)
        if item.kind == "impl" and not split_impl(item.head)[0]:
            yield from (Found(it, item) for it in item.items)


def crate_of(path: pathlib.Path) -> pathlib.Path:
    return CRATES / path.relative_to(CRATES).parts[0]


def module_of(path: pathlib.Path) -> pathlib.Path:
    """The folder of a module's inside: what a module `a` declares stands in `a`, and what the root of a crate declares beside it."""
    return path.parent if path.stem in ROOTS else path.with_suffix("")


def proofs_of(path: pathlib.Path, found: Found) -> Iterator[pathlib.Path]:
    """The folders of the proofs of an item of a file of code; those of methods stand with their types."""
    room = crate_of(path) / "proofs"
    for folder, name in found.functions():
        inside = room / module_of(path).relative_to(crate_of(path) / "src")
        yield from room.rglob(f"{folder}/{name}") if folder else [inside / name]


class Copy:
    """The files of the crates, each with the lines that stay."""

    def __init__(self, program: str, left_out: dict[pathlib.Path, list[str]]) -> None:
        self.left_out = left_out
        below = with_all_below(program)
        files = [it for name in below for room in ROOMS for it in sorted((CRATES / name / room).rglob("*")) if it.is_file()]
        self.items = {it: items_of(it.read_text().splitlines()) for it in files if it.suffix == ".rt"}
        there = {*files, *(CRATES / name for name in below)}
        self.refuse(str(it.relative_to(CRATES)) for it in left_out if it not in there)
        # Crates, files and folders that go, also where no folder is there, and the names of items that do.
        self.gone: set[pathlib.Path] = set()
        self.names: set[str] = set()
        for path, names in left_out.items():
            self.leave_out(path, names)
        self.crates = [name for name in below if CRATES / name not in self.gone]
        self.files = [it for it in files if not self.is_gone(it)]
        # The names that items of each crate have which stay: there they are not those that go.
        self.kept: dict[pathlib.Path, set[str]] = {}
        for path, items in self.items.items():
            if not self.is_gone(path):
                left = self.left_out.get(path, [])
                plain = [it for it in all_items(items) if not it.around and it.item.kind not in ("impl", "use", "mod")]
                self.kept.setdefault(crate_of(path), set()).update(it.name for it in plain if it.name not in left)

    def refuse(self, names: Iterable[str]) -> None:
        if left := [*names]:
            raise Refused(f"{LIST.name}: nothing is named {', '.join(left)}")

    def is_gone(self, path: pathlib.Path) -> bool:
        return not self.gone.isdisjoint([path, *path.parents])

    def leave_out(self, path: pathlib.Path, names: list[str]) -> None:
        """Notes what goes with a crate or a file, or with items of it."""
        if not names:
            self.gone |= {path, path.with_suffix("")}
        for file in (it for it in self.items if it == path or not names and {path, path.with_suffix("")} & {*it.parents}):
            found = [it for it in all_items(self.items[file]) if not names or it.name in names]
            self.refuse(f"{it} in {file.relative_to(CRATES)}" for it in names if it not in [its.name for its in found])
            self.gone |= {proof for it in found for proof in proofs_of(file, it)}
            plain = [it.item for it in found if not it.around and it.item.kind not in ("impl", "use")]
            self.names |= {it.name for it in plain if names or it.is_public}

    def texts(self) -> Iterator[tuple[pathlib.Path, str]]:
        """Each file of the copy, and its text."""
        for path in self.files:
            lines: list[str | None] = [*path.read_text().splitlines()]
            if path.suffix == ".rt":
                self.edit(path, self.items[path], lines)
            left = [it for it in lines if it is not None and not self.goes(path, it)]
            yield "crates" / path.relative_to(CRATES), "".join(f"{line}\n" for line in left)
        below = {name: [it for it in ORDER[name] if it in self.crates] for name in self.crates}
        yield pathlib.Path("crates.txt"), "".join(f"{' '.join([f'{name}:', *names])}\n" for name, names in below.items())

    def goes(self, path: pathlib.Path, line: str) -> bool:
        """Whether a line declares a module of antt that is gone, or passes it on."""
        if path.suffix == ".antt" and (found := DECLARES.match(line)):
            return module_of(path) / f"{found[1]}.antt" in self.gone
        if not (found := BRINGS.match(line)):
            return False
        kind, crate, room, made, words = found.groups()
        is_gone = self.is_gone(CRATES.joinpath(crate, ROOM_OF.get(made, room), *words.strip(".").split(".")))
        if is_gone and kind != "pub ":
            raise Refused(f"{path.relative_to(CRATES)} cites what {LIST.name} names: {line.strip()}")
        return is_gone

    def edit(self, path: pathlib.Path, items: list[Item], lines: list[str | None]) -> None:
        """Takes what goes of these items of a file out of its lines."""
        for found in all_items(items):
            item = found.item
            declares = item.kind == "mod" and not item.has_body and (module_of(path) / f"{item.name}.rt") in self.gone
            if declares or found.name in self.left_out.get(path, []):
                take_out(item, lines)
            elif item.kind == "use":
                self.edit_use(item, self.names - self.kept.get(crate_of(path), set()), lines)
            elif item.kind == "mod" and item.has_body:
                self.edit(path, item.items, lines)

    def edit_use(self, item: Item, gone: set[str], lines: list[str | None]) -> None:
        """Takes the names of items that are gone out of a `use`."""
        head, _, tree = " ".join(it.strip() for it in item.lines).partition("use ")
        paths = paths_of(tree)
        left = [it for it in paths if it[-1].partition(" as ")[0] not in gone]
        if left != paths:
            indent = item.lines[0][: len(item.lines[0]) - len(item.lines[0].lstrip())]
            take_out(item, lines)
            lines[item.line - 1] = "\n".join(f"{indent}{head}use {'::'.join(it)};" for it in left) or None


def take_out(item: Item, lines: list[str | None]) -> None:
    """Takes an item out of lines, with comments and attributes above it."""
    first = item.line - 1
    while first and (text := (lines[first - 1] or "").strip()).startswith(("//", "#[")) and not text.startswith("//!"):
        first -= 1
    for at in range(first, item.line - 1 + len(item.lines)):
        lines[at] = None


def copy(program: str, to: pathlib.Path) -> None:
    """Writes the copy, in place of an older one."""
    files = dict(Copy(program, listed(LIST.read_text())).texts())
    shutil.rmtree(to / "crates", ignore_errors=True)
    for path, text in files.items():
        (to / path).parent.mkdir(parents=True, exist_ok=True)
        (to / path).write_text(text)


def check(program: str) -> int:
    """What the checker says of the copy before it proves anything."""
    said = subprocess.run(["rt", "doc"], capture_output=True, text=True, check=True)
    kit = pathlib.Path(said.stdout.strip()).parent
    words = ["rattle", "check", "--crate-name", program, "src/main.rt", "--extern", f"std={kit}/rlibs/std.rlib"]
    words += ["-L", f"dependency={kit}/rlibs", "--antt-project", f"{kit}/rattle/logic/antt-project.json"]
    words += ["--logic-built", f"{kit}/logic_built", "--only", ""]
    with tempfile.TemporaryDirectory() as folder:
        copy(program, pathlib.Path(folder))
        for line in pathlib.Path(folder, "crates.txt").read_text().splitlines():
            name, below = line.split(":")
            words += ["--lib", f"{name}:{','.join(['std', *below.split()])}=../{name}/src/lib.rt"] if name != program else []
        ran = subprocess.run(words, cwd=pathlib.Path(folder, "crates", program), capture_output=True, text=True, check=False)
    if ran.returncode:
        print(ran.stdout + ran.stderr, file=sys.stderr)
    return ran.returncode


def main(words: list[str]) -> int:
    is_check = words[:1] == ["--check"]
    program = words[-2 + is_check] if len(words) == 2 else ""
    if not (CRATES / program / "src" / "main.rt").is_file():
        print(__doc__, file=sys.stderr)
        return 2
    try:
        if is_check:
            return check(program)
        copy(program, pathlib.Path(words[1]))
    except Refused as why:
        print(why, file=sys.stderr)
        return 1
    return 0


if __name__ == "__main__":
    sys.exit(main(sys.argv[1:]))
