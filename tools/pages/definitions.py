"""The definitions of specs/: that each says in a comment what it means."""
from __future__ import annotations

import re
from collections.abc import Iterator

from antt import definitions_of
from sources import CRATES, FOR_C, LAYERS, ORDER, PROGRAM, files_of, shown


def known_names() -> set[str]:
    """The words of the specs and of the code, without comments, and the names of crates and files."""
    paths = [*CRATES.glob("*/specs/**/*.antt"), *CRATES.glob("*/src/**/*.rt")]
    lines = (line for path in paths for line in path.read_text().splitlines() if not line.lstrip().startswith(("--", "//")))
    return {word for line in lines for word in re.findall(r"\w+", line)} | {it.stem for it in paths} | {*ORDER}


def faults() -> Iterator[str]:
    """Definitions that no comment explains."""
    for path in files_of([*LAYERS, *PROGRAM, FOR_C], "specs", ".antt"):
        for it in (it for it in definitions_of(path) if not it.meaning):
            yield f"{shown(path)}:{it.line}: `{it.name}` has no comment that says what it means"
