"""Atlases in JSON: TexturePacker's, with a file for each page, and Phaser's, with all pages in one."""
from __future__ import annotations

import os
from collections.abc import Iterator
from pathlib import Path

from .._scale import MOST
from .layout import NONE, ONE, Bins, Claim, Layout, Told, Triple, without_aliases
from .texts import read_text
from .values import Value, value_of

__all__ = ["phaser", "texture_packer"]


def _size(page: Value, size: Value | None, fallback: Triple | None) -> Triple:
    """The size of a page: the one that the file says, or else that of the words of the command."""
    if size is not None:
        width, height = size.numbers("w", "h")
        return width, height, ONE
    if fallback is None:
        raise page.wrong("says no size of the page: say --size WxH")
    return fallback


def _frame(name: str, page: str, it: Value) -> Claim:
    """A sprite on a page. Where it is rotated the file has its width and height as they were before that."""
    frame, rotated = it["frame"], it.get("rotated")
    x, y = frame.numbers("x", "y", least=-MOST)
    width, height = frame.numbers("w", "h")
    is_turned = rotated is not None and rotated.truth()
    return Claim(name, name, page, (x, y, NONE), (width, height, ONE), is_turned)


def _frames(holder: Value, page: str) -> Iterator[Claim]:
    """The sprites of a page: an object with their names, or a list."""
    frames = holder["frames"]
    if frames.is_list:
        for it in frames.items():
            yield _frame(it["filename"].name(), page, it)
    else:
        for name, it in frames.members():
            yield _frame(name, page, it)


def _files(root: Value) -> Iterator[Value]:
    """A file, and those that it names as its other pages, and that these name."""
    waiting, known = [root], {os.path.abspath(root.path)}
    while waiting:
        value = waiting.pop(0)
        yield value
        meta = value.get("meta")
        for it in [] if meta is None else meta.list_of("related_multi_packs"):
            path = value.path.parent / it.text()
            if os.path.abspath(path) not in known:
                known.add(os.path.abspath(path))
                waiting.append(_read(path, it))


def _read(path: Path, name: Value) -> Value:
    """A file that another one names."""
    try:
        return value_of(path, read_text(path))
    except ValueError:
        raise name.wrong("is no name of a file") from None


def texture_packer(root: Value, fallback: Triple | None) -> Told:
    """The pages of TexturePacker's JSON, hash or array. Two files may be of one page."""
    bins, claims = Bins(), list[Claim]()
    for file in _files(root):
        meta = file.get("meta")
        image = None if meta is None else meta.get("image")
        page = file.path.name if image is None else image.text()
        bins.put(page, _size(file, None if meta is None else meta.get("size"), fallback), file.wrong)
        claims += _frames(file, page)
    return Told.of("page", Layout(bins, without_aliases(claims)))


def phaser(root: Value, fallback: Triple | None) -> Told:
    """The pages of a file for Phaser's multiatlas."""
    bins, claims = Bins(), list[Claim]()
    for texture in root["textures"].items():
        page = texture["image"].text()
        bins.put(page, _size(texture, texture.get("size"), fallback), texture.wrong)
        claims += _frames(texture, page)
    return Told.of("page", Layout(bins, without_aliases(claims)))
