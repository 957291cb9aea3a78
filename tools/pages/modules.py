"""The page docs/MAP.md: trees of the modules of crates, each with the first sentence that its file says of itself."""
from __future__ import annotations

import pathlib
import re
from collections.abc import Iterator, Mapping, Sequence

from definitions import known_names
from library import module_of_file
from sources import CRATES, DOCS, FOR_C, LAYERS, ORDER, PROGRAM, ROOT, TOP, coded, fenced, files_of, shown

# A module: its crate, and the modules that it is in, down to its own name.
Words = tuple[str, ...]
# A place for the modules of crates in the written text, and a name there that a source has, as `try_bin` or `Session::pack`.
PLACE = re.compile(r"\{\{modules (.*)\}\}")
NAME = re.compile(r"(?=\w*[A-Z_])[A-Za-z]\w*(?:::\w+)*")


def words_of(path: pathlib.Path) -> Words:
    """The module of a file; that of `lib.rt` or `main.rt` is its crate."""
    return tuple(it for it in path.relative_to(CRATES).with_suffix("").parts if it not in ("src", "lib", "main"))


def sentence_of(text: str) -> str:
    """The first sentence of the comment at the head of a file, without its period."""
    said = " ".join(re.findall(r"(?m)^//! ?(.*)", text))
    return said.partition(". ")[0].removesuffix(".")


def is_last(at: int, depth: int, found: Sequence[Words]) -> bool:
    """Whether none of the modules further down stands beside this one, or beside the one of this depth that it is in."""
    here = found[at]
    return not any(it[:depth] == here[:depth] and it[depth : depth + 1] > here[depth : depth + 1] for it in found[at:])


def branch(at: int, found: Sequence[Words]) -> str:
    """The lines that lead to one of these modules, which are in order, and its name."""
    ends = [is_last(at, depth, found) for depth in range(1, len(found[at]))]
    lines = ["    " if it else "│   " for it in ends[:-1]] + ["└── " if it else "├── " for it in ends[-1:]]
    return "".join(lines) + found[at][-1]


def tree(says: Mapping[Words, str], public: set[str]) -> list[str]:
    """A line for each module with what it says. A star marks those of layers that are named as public modules of the library."""
    found = [*says]
    stars = ["*" if it[0] in LAYERS and len(it) == 2 and it[1] in public else "" for it in found]
    names = [branch(at, found) + star for at, star in enumerate(stars)]
    width = max(map(len, names))
    return [f"{name:{width}}  {said}" for name, said in zip(names, says.values())]


def modules(crates: str) -> str:
    """The modules of these crates, without those inside others."""
    paths = [path for crate in crates.split() for path in sorted(files_of([crate], "src", ".rt"), key=words_of) if len(words_of(path)) < 3]
    public = {it.words[-1] for it in module_of_file([ROOT]).all()}
    return fenced(tree({words_of(it): sentence_of(it.read_text()) for it in paths}, public), "text")


def faults() -> Iterator[str]:
    """Crates of the library and of the program without a place on the page, files that do not say what they have, and what the page names that is not there."""
    written, files = (DOCS / "templates/MAP.md").read_text(), files_of(ORDER, "src", ".rt")
    placed = " ".join(PLACE.findall(written)).split()
    yield from (f"docs/templates/MAP.md: has no place for the modules of `{it}`" for it in (*LAYERS, *PROGRAM, FOR_C) if it not in placed)
    yield from (f"{shown(it)}: does not begin with a `//!` that says what it has" for it in files if not it.read_text().startswith("//! "))
    known = known_names() | {it.stem for it in TOP.iterdir()}
    names = {name for span in coded(written) if NAME.fullmatch(span) for name in span.split("::")} - known
    names |= {*placed} - {*ORDER} | {it for it in coded(written) if it.endswith(".rt") and not any(shown(path).endswith(f"/{it}") for path in files)}
    yield from (f"docs/templates/MAP.md: there is no `{it}`" for it in sorted(names))
