"""The wheel for Python, with the shared library inside."""
from __future__ import annotations

import pathlib
import shutil

from common import DIST, PACKAGING, TOP, WORK, Release, at_commit, copied, emptied, glibc_of, run

# What the package is made of: the page of `view` and the schemas of `pack` are files of their own.
SOURCES = (".py", ".typed", ".html", ".css", ".js", ".json")
# The oldest glibc that has a tag.
OLDEST = (2, 5)


def tag(library: pathlib.Path) -> str:
    """The platforms that have the glibc which the library needs."""
    needed = max(glibc_of(library)[:2], OLDEST)
    names = [f"manylinux_{needed[0]}_{needed[1]}_x86_64"]
    if needed == OLDEST:
        # By this name old versions of pip know it.
        names.append("manylinux1_x86_64")
    return ".".join(names)


def source(folder: pathlib.Path) -> None:
    """What the wheel is built of."""
    parts, package = PACKAGING / "wheel", TOP / "bindings/python/rectangle_pack"
    for it in sorted(package.rglob("*")):
        if it.suffix in SOURCES:
            copied(it, folder / "rectangle_pack" / it.relative_to(package))
    for name in ("pyproject.toml", "hatch_build.py", "README.md"):
        copied(parts / name, folder / name)
    for name in ("LICENSE-MIT", "LICENSE-APACHE"):
        copied(TOP / name, folder / name)


def wheel(release: Release, python: str) -> None:
    """dist/*.whl."""
    folder = emptied(WORK / "wheel")
    source(folder)
    library = release.tree / "lib" / f"librectangle_pack.so.{release.version}"
    inside = {"RECTANGLE_PACK": str(library), "RECTANGLE_PACK_TAG": tag(library)}
    words = ["--wheel", "--no-isolation", "--skip-dependency-check", "--outdir", "out"]
    run([python, "-m", "build", *words], folder, **inside, **at_commit(release))
    for it in (folder / "out").glob("*.whl"):
        shutil.copyfile(it, DIST / it.name)
