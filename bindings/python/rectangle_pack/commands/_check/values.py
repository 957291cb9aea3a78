"""Values of JSON files. Each knows where it stands, so that it can be said what is wrong with it."""
from __future__ import annotations

from collections.abc import Iterator
from decimal import Decimal
from pathlib import Path
from typing import Any

from .._common import Wrong
from .._json import json_of
from .layout import why_not
from .texts import quoted, shown

__all__ = ["Value", "value_of"]


class Value:
    """A value, the file, and where it stands there: frames["hat"].frame.x"""

    def __init__(self, path: Path, value: Any, where: str = "") -> None:
        self.path, self._value, self._where = path, value, where

    def wrong(self, why: str) -> Wrong:
        return Wrong(f"{self._where} {why}".lstrip(), self.path)

    def _below(self, name: str) -> str:
        if name.isidentifier():
            return f"{self._where}.{name}".lstrip(".")
        return f"{self._where}[{quoted(name)}]"

    @property
    def _members(self) -> dict[str, Any]:
        if not isinstance(self._value, dict):
            raise self.wrong("is no object")
        return self._value

    def get(self, name: str) -> Value | None:
        """A member of an object; None where it is not there, or null."""
        value = self._members.get(name)
        return None if value is None else Value(self.path, value, self._below(name))

    def __getitem__(self, name: str) -> Value:
        """A member of an object, which has to be there."""
        found = self.get(name)
        if found is None:
            raise Wrong(f"{self._below(name)} is missing", self.path)
        return found

    def members(self) -> Iterator[tuple[str, Value]]:
        """The members of an object, each with its name."""
        for name, value in self._members.items():
            yield name, Value(self.path, value, self._below(name))

    @property
    def is_list(self) -> bool:
        return isinstance(self._value, list)

    def items(self) -> list[Value]:
        """The items of a list."""
        if not self.is_list:
            raise self.wrong("is no list")
        return [Value(self.path, value, f"{self._where}[{index}]") for index, value in enumerate(self._value)]

    def text(self) -> str:
        if not isinstance(self._value, str):
            raise self.wrong(f"is {shown(self._value)}, and must be a text")
        return self._value

    def name(self) -> str:
        """A text, or a number as a text."""
        return str(self._value) if isinstance(self._value, Decimal) else self.text()

    def truth(self) -> bool:
        if not isinstance(self._value, bool):
            raise self.wrong(f"is {shown(self._value)}, and must be true or false")
        return self._value

    def number(self, least: int = 0) -> Decimal:
        """A number, whole or with decimals, from this one on."""
        if not isinstance(self._value, Decimal):
            raise self.wrong(f"is {shown(self._value)}, and must be a number")
        why = why_not(self._value, least)
        if why:
            raise self.wrong(f"is {shown(self._value)}, and {why}")
        return self._value

    def numbers(self, *names: str, least: int = 0) -> tuple[Decimal, ...]:
        """Members of an object that are numbers."""
        return tuple(self[name].number(least) for name in names)

    def list_of(self, name: str) -> list[Value]:
        """The items of a member of an object; none where it is not there."""
        found = self.get(name)
        return [] if found is None else found.items()

    def parts(self, count: int) -> list[Value]:
        """The items of a list of this length."""
        items = self.items()
        if len(items) != count:
            raise self.wrong(f"must have {count} items, and has {len(items)}")
        return items


def value_of(path: Path, text: str) -> Value:
    """What the text of a JSON file says."""
    return Value(path, json_of(path, text))
