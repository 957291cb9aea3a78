"""Which PNG files are read, and what their sprites are called."""
from __future__ import annotations

import os
import unicodedata
from collections.abc import Iterator, Sequence
from dataclasses import dataclass
from pathlib import Path

from .._common import Wrong

__all__ = ["Source", "find", "refuse_output_in"]


@dataclass(frozen=True)
class Source:
    """A PNG file: the name of its sprite, and the folder in that name, which is empty where the file lies in none."""

    path: Path
    name: str
    folder: str


def _refuse(why: OSError) -> None:
    raise Wrong(f"cannot be read: {why.strerror}", why.filename)


def _files_below(top: Path) -> Iterator[Path]:
    """The PNG files in a folder and in those below it. What begins with a dot is hidden. Links to folders are not followed."""
    for path, folders, files in os.walk(top, onerror=_refuse):
        folders[:] = [name for name in folders if not name.startswith(".")]
        for name in files:
            if not name.startswith(".") and name.lower().endswith(".png"):
                yield Path(path, name)


def _source(path: Path, top: Path, with_png: bool) -> Source:
    """A file as a sprite. Names are in the composed form of Unicode, as some machines have them in another one."""
    within = path.relative_to(top)
    try:
        str(path).encode()
    except UnicodeEncodeError:
        raise Wrong("the name is no text in UTF-8", path) from None
    folder = "/".join(within.parts[:-1])
    name = within.name if with_png else within.stem
    texts = (unicodedata.normalize("NFC", text) for text in (f"{folder}/{name}" if folder else name, folder))
    return Source(path, *texts)


def find(folders: Sequence[Path], with_png: bool) -> list[Source]:
    """The PNG files of the folders by the names of their sprites, which differ: so the order is the same on every machine."""
    sources: dict[str, Source] = {}
    for top in folders:
        for path in sorted(_files_below(top)):
            source = _source(path, top, with_png)
            other = sources.setdefault(source.name, source)
            if other is not source:
                raise Wrong(f"has the name {source.name!r}, as {other.path} has", path)
    if not sources:
        raise Wrong(f"no PNG files in: {', '.join(map(str, folders))}")
    return [sources[name] for name in sorted(sources)]


def refuse_output_in(folders: Sequence[Path], output: Path) -> None:
    """Refuses a place for pages where the next run would read them."""
    place = Path(os.path.realpath(output.parent))
    for top in folders:
        if Path(os.path.realpath(top)) in (place, *place.parents):
            raise Wrong(f"lies in the folder {top}, which is read: its pages would be sprites of the next run", output)
