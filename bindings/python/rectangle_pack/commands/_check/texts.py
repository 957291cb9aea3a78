"""Texts of files, in what is printed; and files as texts."""
from __future__ import annotations

import json
from decimal import Decimal
from pathlib import Path

from .._common import Wrong

__all__ = ["printable", "quoted", "read_text", "shown"]

# So much is shown of a value that is wrong.
LONGEST = 40


def printable(text: str) -> str:
    """The text, with a question mark for each letter that cannot be printed."""
    return "".join(letter if letter.isprintable() else "?" for letter in text)


def quoted(name: str) -> str:
    """A name as it is told."""
    return f'"{printable(name)}"'


def shown(value: object) -> str:
    """A value of a JSON file as it is told: the beginning of it, where it is long."""
    if isinstance(value, (dict, list)):
        return "an object" if isinstance(value, dict) else "a list"
    text = printable(str(value) if isinstance(value, Decimal) else json.dumps(value, ensure_ascii=False))
    return text if len(text) <= LONGEST else f"{text[:LONGEST]}.."


def read_text(path: Path) -> str:
    """What is in a file."""
    try:
        return path.read_bytes().decode("utf-8-sig")
    except OSError as why:
        raise Wrong(f"cannot be read: {why.strerror}", path) from None
    except UnicodeDecodeError:
        raise Wrong("is no text in UTF-8", path) from None
