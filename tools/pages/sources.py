"""Where the sources stand, and how the written text of a made page takes up what is made of them."""
from __future__ import annotations

import pathlib
import re
from collections.abc import Callable, Iterable, Mapping

TOP = pathlib.Path(__file__).resolve().parents[2]
CRATES = TOP / "crates"
DOCS = TOP / "docs"
# The library's root; the library for C; the program, and the crate of it that says what it does.
ROOT = "rectangle_pack"
FOR_C = "rectangle_pack_c"
MAIN = "packrun"
PROGRAM = ("packrun_lines",)

# The crates, lower ones first, each with those that it stands on; and those of the library.
CRATE = re.compile(r"(?m)^(\w+)(?: staticlib)?:(.*)$")
ORDER = {name: below.split() for name, below in CRATE.findall((TOP / "crates.txt").read_text())}
LAYERS = [ROOT, *ORDER[ROOT]]


def files_of(crates: Iterable[str], folder: str, ending: str) -> list[pathlib.Path]:
    """The files below this folder of each of the crates, a module before those inside it."""
    found = ((CRATES / crate / folder).rglob(f"*{ending}") for crate in crates)
    return [path for paths in found for path in sorted(paths, key=lambda it: it.with_suffix("").parts)]


def shown(path: pathlib.Path) -> str:
    """A path as pages and faults name it."""
    return str(path.relative_to(TOP))


def fill(text: str, words: Mapping[str, Callable[[str], str]]) -> str:
    """A written text in which each `{{word argument}}` is what the word makes of the argument, from the first to the last."""
    return re.sub(r"\{\{(\w+)(?: (.*?))?\}\}", lambda it: words[it[1]](it[2] or ""), text)


def fill_page(name: str, *words: Callable[[str], str]) -> str:
    """A made page: its written text, filled by functions that go by their names."""
    return fill((DOCS / "templates" / name).read_text(), {it.__name__: it for it in words})


def coded(text: str) -> list[str]:
    """What stands between backticks."""
    return re.findall(r"`([^`\n]*)`", text)


def fenced(lines: Iterable[str], language: str = "") -> str:
    """Lines as a block of code."""
    return "\n".join([f"```{language}", *lines, "```"])
