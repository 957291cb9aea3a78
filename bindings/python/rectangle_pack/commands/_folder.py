"""Folders that a command writes files to, of which an earlier run may have left some."""
from __future__ import annotations

import re
from pathlib import Path

from ._common import Wrong

__all__ = ["earlier_files", "refuse_earlier", "remove"]


def earlier_files(folder: Path, ours: re.Pattern[str]) -> list[Path]:
    """The files of an earlier run, by their names."""
    try:
        return sorted(path for path in folder.iterdir() if ours.fullmatch(path.name)) if folder.is_dir() else []
    except OSError as why:
        raise Wrong(f"cannot be read: {why.strerror}", folder) from None


def refuse_earlier(folder: Path, ours: re.Pattern[str], is_replaced: bool) -> None:
    """Refuses what is no folder, and one with files of an earlier run, where these are not to be replaced."""
    if folder.exists() and not folder.is_dir():
        raise Wrong("is not a folder", folder)
    if not is_replaced:
        for path in earlier_files(folder, ours):
            raise Wrong("is there already, of an earlier run: --replace lets it go", path)


def remove(paths: list[Path]) -> None:
    """Removes files."""
    for path in paths:
        try:
            path.unlink()
        except OSError as why:
            raise Wrong(f"cannot be removed: {why.strerror}", path) from None
