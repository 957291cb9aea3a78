#!/usr/bin/env python3
"""Fails where nothing names a lemma or a definition in proofs/ but itself: prints a line for each, with its file."""

import collections
import pathlib
import re
import sys

TOP = pathlib.Path(__file__).resolve().parent.parent
NAME = re.compile(r"[^\s(){}\[\],;.`]+")
# A name with its type, at the margin or in a module: what the line before the clauses of a lemma says.
STATEMENT = re.compile(r"(?m)^( *)(?:pub )?(?:abbrev )?(?:pub )?([^\s:(){}.,]+) : ")
# Names that the toolchain asks for, and answers and invariants, which it reads by their names.
ASKED_FOR = ("Answers.antt", "Invariants.antt", "Proof.antt", "Send.antt", "Sync.antt")


def texts() -> dict[pathlib.Path, str]:
    """What each crate has in words, without comments."""
    found = {}
    for path in sorted((TOP / "crates").glob("*/*/**/*")):
        if path.suffix in (".antt", ".rt") and "out" not in path.relative_to(TOP).parts:
            found[path] = re.sub(r"(?m)--.*$", "", path.read_text()) if path.suffix == ".antt" else path.read_text()
    return found


def statements(text: str) -> list[tuple[str, str]]:
    """The margin and the name of each lemma of a file."""
    return [(found[1], found[2]) for found in STATEMENT.finditer(text)]


def is_own(margin: str, name: str, text: str) -> int:
    """How many lines of a file are the statement of this lemma, and its clauses."""
    return len(re.findall(rf"(?m)^{margin}(?:pub )?(?:abbrev )?(?:pub )?{re.escape(name)}(?=[\s:])", text))


def unused(files: dict[pathlib.Path, str]) -> list[tuple[pathlib.Path, str]]:
    named = collections.Counter(name for text in files.values() for name in NAME.findall(text))
    return [
        (path, name)
        for path, text in files.items()
        if "proofs" in path.parts and path.suffix == ".antt" and path.name not in ASKED_FOR
        for margin, name in statements(text)
        if named[name] <= is_own(margin, name, text)
    ]


def main() -> int:
    found = unused(texts())
    for path, name in found:
        print(f"{path.relative_to(TOP)}: nothing names {name}")
    return 1 if found else 0


if __name__ == "__main__":
    sys.exit(main())
