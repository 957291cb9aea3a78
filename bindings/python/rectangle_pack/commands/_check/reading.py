"""Reads a file: by its ending a table, by its first letter JSON, and else an .atlas."""
from __future__ import annotations

from collections.abc import Callable, Mapping
from pathlib import Path

from .._common import Wrong
from . import ours
from .atlases import phaser, texture_packer
from .layout import Told, Triple
from .libgdx import libgdx
from .tables import table
from .texts import read_text
from .values import Value, value_of

__all__ = ["read"]

# By a key that only they have. The second argument is the size of pages of which the file says none.
READERS: Mapping[str, Callable[[Value, Triple | None], Told]] = {
    "frames": texture_packer,
    "textures": phaser,
    "sprites": lambda root, _: ours.sheet(root),
    "sheets": lambda root, _: ours.cut(root),
    "containers": lambda root, _: ours.load(root),
    "scenes": lambda root, _: ours.view(root),
}


def _read_json(path: Path, text: str, fallback: Triple | None) -> Told:
    root = value_of(path, text)
    for key, reader in READERS.items():
        if root.get(key) is not None:
            return reader(root, fallback)
    raise Wrong(f"is no JSON that is known: it has none of the keys {', '.join(READERS)}", path)


def read(path: Path, fallback: Triple | None) -> Told:
    """What a file tells. Pages of which it says no size have this one."""
    if path.suffix.lower() in (".csv", ".tsv"):
        return table(path, fallback)
    text = read_text(path)
    if path.suffix.lower() == ".json" or text.lstrip().startswith("{"):
        return _read_json(path, text, fallback)
    return libgdx(path, text, fallback)
