"""JSON as the commands read and write it."""
from __future__ import annotations

import json
from collections.abc import Sequence
from decimal import Decimal, InvalidOperation
from pathlib import Path
from typing import Any

from ._check.texts import quoted
from ._common import Wrong

__all__ = ["json_of", "lines_of"]


def _number(text: str) -> Decimal:
    try:
        return Decimal(text)
    except InvalidOperation:
        # Its exponent has more digits than any number that is taken.
        return Decimal("inf")


def _no_number(text: str) -> Decimal:
    raise ValueError(f"{text} is no number")


def _object(pairs: Sequence[tuple[str, Any]]) -> dict[str, Any]:
    members: dict[str, Any] = {}
    for name, value in pairs:
        if name in members:
            raise ValueError(f"an object has the key {quoted(name)} twice")
        members[name] = value
    return members


def json_of(path: str | Path, text: str) -> Any:
    """What the text of a JSON file says, with numbers to the last digit. No object has a key twice."""
    try:
        return json.loads(
            text, object_pairs_hook=_object, parse_int=_number, parse_float=_number, parse_constant=_no_number)
    except json.JSONDecodeError as why:
        raise Wrong(f"is no JSON: {why.msg}", path, why.lineno) from None
    except ValueError as why:
        raise Wrong(f"is no JSON: {why}", path) from None
    except RecursionError:
        raise Wrong("is nested too deeply", path) from None


def lines_of(value: Any, depth: int, *, ascii_only: bool = False) -> str:
    """JSON in which lists and objects have a line for each part, down to this depth."""
    if depth == 0 or not value or not isinstance(value, (dict, list)):
        return json.dumps(value, ensure_ascii=ascii_only)
    if isinstance(value, dict):
        names = [json.dumps(name, ensure_ascii=ascii_only) for name in value]
        parts = [lines_of(part, depth - 1, ascii_only=ascii_only) for part in value.values()]
        return "{\n" + ",\n".join(f"{name}: {part}" for name, part in zip(names, parts)) + "\n}"
    return "[\n" + ",\n".join(lines_of(part, depth - 1, ascii_only=ascii_only) for part in value) + "\n]"
