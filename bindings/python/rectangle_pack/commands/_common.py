"""What the commands share: how they end, and how they refuse input."""
from __future__ import annotations

import importlib
import json
import os
import sys
from collections.abc import Iterable, Iterator
from pathlib import Path
from typing import Any, TypeVar

from .._files import write_whole

__all__ = [
    "DONE", "NO_ROOM", "WRONG_INPUT", "STOPPED", "Wrong", "NoRoom", "needs", "print_json", "progress",
    "refuse_over", "write",
]

DONE, NO_ROOM, WRONG_INPUT, STOPPED = 0, 1, 2, 130

_Item = TypeVar("_Item")


class Wrong(Exception):
    """Something is wrong with a file or with the words of the command. One line says what, with the file and the line."""

    def __init__(self, why: str, path: str | Path | None = None, line: int | None = None) -> None:
        where = "" if path is None else f"{path}: " if line is None else f"{path}:{line}: "
        super().__init__(where + why)


class NoRoom(Exception):
    """What is to be packed does not fit."""

    status = NO_ROOM


def needs(module: str, package: str, what: str) -> Any:
    """A library of others that only this command uses."""
    try:
        return importlib.import_module(module)
    except ImportError:
        raise Wrong(f"{what} needs {package}: install it with `pip install {package}`") from None


def refuse_over(path: Path | None, *read: Path | None) -> None:
    """Refuses to write a file that is read."""
    for it in read:
        if path and it and os.path.exists(path) and os.path.exists(it) and os.path.samefile(path, it):
            raise Wrong("is read, and would be lost: name another file to write", path)


def write(path: Path, content: bytes | str) -> None:
    """Writes a file whole or not at all, and with it the folders above it."""
    data = content.encode() if isinstance(content, str) else content
    try:
        path.parent.mkdir(parents=True, exist_ok=True)
        write_whole(path, data)
    except OSError as why:
        raise Wrong(f"cannot be written: {why.strerror}", path) from None


def print_json(value: Any) -> None:
    """Prints a value for programs."""
    json.dump(value, sys.stdout, indent=1, ensure_ascii=False)
    print()


def progress(items: Iterable[_Item], count: int, what: str) -> Iterator[_Item]:
    """The items, with a bar on standard error as they go, where that is a terminal."""
    shown, width = -1, 30
    is_shown = sys.stderr.isatty() and count > 0
    for done, item in enumerate(items):
        part = done * width // max(count, 1)
        if is_shown and part > shown:
            shown = part
            print(f"\r{what} [{'#' * part}{'.' * (width - part)}] {done}/{count}", end="", file=sys.stderr, flush=True)
        yield item
    if is_shown:
        print(f"\r{what} [{'#' * width}] {count}/{count}", file=sys.stderr)
