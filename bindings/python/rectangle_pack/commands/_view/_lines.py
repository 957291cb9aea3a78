"""The lines that packrun reads, as docs/COMMANDS.md has them."""
from __future__ import annotations

import re
from collections.abc import Iterator
from dataclasses import dataclass

__all__ = ["BadLine", "Line", "read_line", "split_lines"]

LONGEST = 4096

# What stands behind the first word of a line. Words in capitals that have a greatest value are numbers.
SHAPES = {
    "bin": "NAME W H D",
    "rect": "ID W H D",
    "exclude": "GROUP GROUP",
    "pack": "",
    "release": "N",
    "coalesce": "NAME I LO HI",
    "sweep": "NAME",
    "sections": "NAME",
    "stats": "NAME",
}
GREATEST = {**dict.fromkeys("WHD", 2**32 - 1), **dict.fromkeys(("N", "I", "LO", "HI"), 2**64 - 1)}

# Any other byte makes a line bad: words have printable ASCII, and between them stand spaces, tabs and carriage returns.
STRANGE = re.compile(rb"[^!-~ \t\r]")


class BadLine(Exception):
    """A line that packrun does not take. It says why."""


@dataclass(frozen=True)
class Line:
    """A command: its first word, and what follows that: names and numbers, each in order. The groups of a box are the names
    behind its own."""

    verb: str
    names: tuple[str, ...]
    numbers: tuple[int, ...]
    text: str


def split_lines(data: bytes) -> Iterator[tuple[int, bytes]]:
    """The lines, without their ends, each with its number. Nothing stands behind the last end of a line."""
    *ended, rest = data.split(b"\n")
    yield from enumerate([*ended, rest] if rest else ended, 1)


def read_line(line: bytes) -> Line | None:
    """What a line says, or None where it has no words. Raises BadLine."""
    words = _words(line)
    if not words:
        return None
    verb, *values = words
    if verb not in SHAPES:
        raise BadLine(f"there is no command {verb!r}")
    shape = SHAPES[verb].split()
    more = values[len(shape):]
    if len(values) < len(shape) or more and verb != "rect":
        groups = " [GROUP..]" if verb == "rect" else ""
        raise BadLine(f"{verb} takes {SHAPES[verb] + groups or 'no word'}")
    names = [value for kind, value in zip(shape, values) if kind not in GREATEST]
    if verb == "exclude" and names[0] == names[1]:
        raise BadLine("a group is not excluded with itself")
    numbers = tuple(_number(kind, value) for kind, value in zip(shape, values) if kind in GREATEST)
    return Line(verb, (*names, *more), numbers, " ".join(words))


def _words(line: bytes) -> list[str]:
    if len(line) > LONGEST:
        raise BadLine(f"it has {len(line)} bytes, and {LONGEST} are the most")
    strange = STRANGE.search(line)
    if strange:
        raise BadLine(f"the byte {strange.group()[0]} may not stand in it")
    return line.decode("ascii").split()


def _number(kind: str, value: str) -> int:
    if not value.isdigit():
        raise BadLine(f"{kind} is {value!r}, and must be a whole number")
    if int(value) > GREATEST[kind]:
        raise BadLine(f"{kind} is {value.lstrip('0')}, and {GREATEST[kind]} is the greatest")
    return int(value)
