"""Checks the examples of the doc comments and of the README: each stands word for word, in one piece, among the tests or in an
example program, those in other languages among the tests of the bindings; white space at the ends of a line aside."""
from __future__ import annotations

from collections.abc import Iterator

from sources import CRATES, TOP, shown

README = TOP / "README.md"
# The tests that have the blocks, by the fence that opens these. Those of the library stand in the crates of its tests, that of
# the README in a program of its own.
RATTLE = [*sorted(CRATES.glob("tests_of_*/src/examples.rt")), CRATES / "example_first/src/main.rt"]
TESTS = {
    "```": RATTLE,
    "```rust": RATTLE,
    "```c": [TOP / "bindings/c/tests/harness.c"],
    "```rust,ignore": [TOP / "bindings/rust/src/pack.rs"],
    "```python": [TOP / "bindings/python/tests/test_rectangle_pack.py"],
}


def blocks(lines: list[str]) -> Iterator[tuple[int, str, list[str]]]:
    """The fenced blocks of stripped lines: each with the number of its first line, its opening fence, and its lines."""
    fence, start = "", 0
    for number, line in enumerate([*lines, "```"], 1):
        if not fence and line.startswith("```"):
            fence, start = line, number
        elif fence and line == "```":
            yield start + 1, fence, lines[start : number - 1]
            fence = ""


def doc_lines(lines: list[str]) -> list[str]:
    """The lines of doc comments without their slashes; an empty one for each other line."""
    return [it[3:].strip() if it.startswith(("///", "//!")) else "" for it in lines]


def place_of(block: list[str], lines: list[str]) -> int:
    """From which of these lines on the block's lines stand, one after the other; -1 where they do not."""
    return next((i for i in range(len(lines) - len(block) + 1) if lines[i : i + len(block)] == block), -1)


def faults() -> Iterator[str]:
    paths = [README, *sorted(CRATES.glob("rectangle_pack*/src/**/*.rt")), *(it for paths in TESTS.values() for it in paths)]
    texts = {path: [line.strip() for line in path.read_text().splitlines()] for path in paths}
    tests = {path: [line.removeprefix("///").strip() for line in lines] for path, lines in texts.items()}
    for path in paths[: paths.index(RATTLE[0])]:
        for number, fence, block in blocks(texts[path] if path is README else doc_lines(texts[path])):
            # A block of the README without a language is text.
            where = TESTS.get(fence, []) if (path, fence) != (README, "```") else []
            if where and not any(place_of(block, tests[it]) >= 0 for it in where):
                yield f"{shown(path)}:{number}: this example is not in {' or '.join(map(shown, where))}"
