"""The files of a run: what is in them, and which ones an earlier run left."""
from __future__ import annotations

import re
from collections import Counter
from collections.abc import Iterator
from pathlib import Path

from .._common import Wrong, write
from .draw import page_of
from .job import Job
from .pdf import pdf_of
from .result import Result, Results
from .svg import svg_of
from .text import plan_text, stem_of
from .written import buy_table, left_table, offcuts_table

__all__ = ["earlier", "files_of", "write_all"]

OFFCUTS, BUY, LEFT = "offcuts.csv", "buy.csv", "left.csv"

# What a run writes to its folder, and to those of materials in it.
PLANS = re.compile(r"sheet-[0-9]+(-to-[0-9]+)?\.(txt|svg)|plan\.pdf")
TABLES = re.compile(r"(offcuts|buy|left)\.csv")
FOLDER = re.compile(r"material-.+")


def _folders(results: Results) -> list[str]:
    """The folders of the results, with a slash, or nothing where no table names materials. No two of them differ only in the
    size of their letters."""
    if not (results.work.has_names or results.work.has_thicknesses):
        return ["" for _ in results.planned]
    counts: Counter[str] = Counter()
    folders = []
    for it in results.planned:
        name = _folder(it.job)
        counts[name.casefold()] += 1
        folders.append(f"{name}--{number}/" if (number := counts[name.casefold()]) > 1 else f"{name}/")
    return folders


def _folder(job: Job) -> str:
    """material-birch-18: what is no letter, digit, dot or underscore is a dash."""
    name = re.sub(r"[^\w.]+", "-", job.material.text).strip("-.")[:80]
    return f"material-{name or 'other'}"


def _of_result(result: Result, folder: str, has_pdf: bool) -> Iterator[tuple[str, bytes | str]]:
    """The plans of one material."""
    pages = [page_of(result, plan) for plan in result.plans]
    for plan, page in zip(result.plans, pages):
        yield f"{folder}{stem_of(plan)}.txt", plan_text(result, plan)
        yield f"{folder}{stem_of(plan)}.svg", svg_of(page)
    if has_pdf:
        yield f"{folder}plan.pdf", pdf_of(pages, result.job.title)


def files_of(results: Results, has_pdf: bool) -> dict[str, bytes | str]:
    """What is written, by name."""
    files: dict[str, bytes | str] = {}
    for it, folder in zip(results.planned, _folders(results)):
        files.update(_of_result(it, folder, has_pdf))
    left = {LEFT: left_table(results)} if results.left else {}
    return {**files, **left, BUY: buy_table(results), OFFCUTS: offcuts_table(results)}


def earlier(folder: Path) -> list[Path]:
    """The files of an earlier run."""
    try:
        inside = sorted(folder.iterdir()) if folder.is_dir() else []
        folders = [it for it in inside if FOLDER.fullmatch(it.name) and it.is_dir() and not it.is_symlink()]
        found = [it for it in inside if PLANS.fullmatch(it.name) or TABLES.fullmatch(it.name)]
        return found + [it for one in folders for it in sorted(one.iterdir()) if PLANS.fullmatch(it.name)]
    except OSError as why:
        raise Wrong(f"cannot be read: {why.strerror}", why.filename or folder) from None


def _remove(path: Path, folder: Path) -> None:
    """Removes a file, and its folder, where that is in the given one and empty then."""
    try:
        path.unlink()
        if path.parent != folder and not any(path.parent.iterdir()):
            path.parent.rmdir()
    except OSError as why:
        raise Wrong(f"cannot be removed: {why.strerror}", path) from None


def write_all(folder: Path, files: dict[str, bytes | str]) -> None:
    """Writes the files. Those of an earlier run go first, so that none stands beside a new one, whatever happens then; but the
    list of offcuts is there until the new one takes its place."""
    for path in earlier(folder):
        if path != folder / OFFCUTS:
            _remove(path, folder)
    for name, content in files.items():
        write(folder / name, content)
