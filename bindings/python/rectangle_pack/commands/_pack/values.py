"""Values of a job. Each knows its path, so that it can be said what is wrong with it."""
from __future__ import annotations

import json
from collections.abc import Iterator, Mapping, Sequence
from decimal import Decimal
from typing import Any, NoReturn

from .._check.texts import printable, shown
from .._common import Wrong

__all__ = ["Value"]


def _step(key: str | int) -> str:
    """A step of a path: .width, [3] or ["own name"]"""
    if isinstance(key, int):
        return f"[{key}]"
    return f".{key}" if key.isidentifier() else f"[{printable(json.dumps(key, ensure_ascii=False))}]"


class Value:
    """A value, and where it stands: the name of the file, the value of which it is a part, and its key there."""

    __slots__ = ("_key", "_value", "_whole", "file")

    def __init__(self, file: str, value: Any, whole: Value | None = None, key: str | int = "") -> None:
        self.file, self._value, self._whole, self._key = file, value, whole, key

    @property
    def path(self) -> str:
        """The path from the root: $.boxes[3].width"""
        steps, it = list[str](), self
        while it._whole is not None:
            steps.append(_step(it._key))
            it = it._whole
        return "$" + "".join(reversed(steps))

    def wrong(self, why: str) -> Wrong:
        return Wrong(f"{self.path}: {why}", self.file)

    def refuse(self, why: str) -> NoReturn:
        """Refuses the value, which is told."""
        raise self.wrong(f"{why}: {shown(self._value)}")

    def whole(self, least: int, most: int) -> int:
        """A whole number in these bounds. It may be written as 5.0 or 5e0."""
        value = self._value
        if not isinstance(value, Decimal) or not least <= value <= most or value != int(value):
            self.refuse(f"not a whole number from {least} to {most}")
        return int(value)

    @property
    def is_null(self) -> bool:
        return self._value is None

    def text(self) -> str:
        if not isinstance(self._value, str):
            self.refuse("not a text")
        return self._value

    def word(self, words: Sequence[str]) -> str:
        """One of these words."""
        if not isinstance(self._value, str) or self._value not in words:
            self.refuse(f"not one of {', '.join(words)}")
        return self._value

    def truth(self) -> bool:
        if not isinstance(self._value, bool):
            self.refuse("not true or false")
        return self._value

    def items(self) -> Iterator[Value]:
        """The items of a list."""
        if not isinstance(self._value, list):
            self.refuse("not a list")
        return (Value(self.file, it, self, index) for index, it in enumerate(self._value))

    def names(self) -> list[str]:
        """A list of texts that differ."""
        known = dict[str, Value]()
        for it in self.items():
            if known.setdefault(it.text(), it) is not it:
                it.refuse(f"the same as {known[it.text()].path}")
        return list(known)

    def members(self, needed: Sequence[str], others: Sequence[str]) -> Mapping[str, Value]:
        """The members of an object that is to have these, may have others, and has no more."""
        if not isinstance(self._value, dict):
            self.refuse("not an object")
        for name in needed:
            if name not in self._value:
                raise Value(self.file, None, self, name).wrong("is missing")
        members = {name: Value(self.file, it, self, name) for name, it in self._value.items()}
        for name, it in members.items():
            if name not in needed and name not in others:
                raise it.wrong(f"not known here, where there are {', '.join((*needed, *others))}")
        return members
