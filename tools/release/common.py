"""What the parts of a release share: what is released, where it is made, and how other programs are run."""
from __future__ import annotations

import collections.abc
import dataclasses
import operator
import os
import pathlib
import re
import shutil
import subprocess

TOP = pathlib.Path(__file__).resolve().parents[2]
DIST = TOP / "dist"
# All that is made on the way. Nothing of it is kept from one release to the next.
WORK = TOP / "build" / "release"
PACKAGING = TOP / "packaging"
TRIPLE = "x86_64-linux-gnu"
SONAME = "librectangle_pack.so.0"


class Refused(Exception):
    """Why there is no release."""


@dataclasses.dataclass(frozen=True)
class Release:
    """A version, and the commit that it is made of."""

    version: str
    commit: str
    # The time of the commit: files in a release have no other.
    epoch: int
    # Who made the commit, for packages that name somebody.
    maintainer: str

    @property
    def name(self) -> str:
        return f"rectangle-pack-{self.version}-x86_64-linux"

    @property
    def tree(self) -> pathlib.Path:
        """What the archive has."""
        return WORK / self.name


def run(words: collections.abc.Sequence[str | pathlib.Path], within: pathlib.Path = TOP, **more: str) -> str:
    """What a program prints. It is told the time of the commit and no other place or language than any machine has."""
    env = {**os.environ, "LC_ALL": "C.UTF-8", "TZ": "UTC", **more}
    ran = subprocess.run([str(it) for it in words], cwd=within, env=env, capture_output=True, text=True)
    if ran.returncode:
        raise Refused(f"{' '.join(map(str, words))} ended with {ran.returncode}:\n{ran.stdout}{ran.stderr}")
    return ran.stdout


def at_commit(release: Release) -> dict[str, str]:
    """What tells a program the time of all that it writes."""
    return {"SOURCE_DATE_EPOCH": str(release.epoch)}


def emptied(folder: pathlib.Path) -> pathlib.Path:
    """The folder, without anything in it."""
    shutil.rmtree(folder, ignore_errors=True)
    folder.mkdir(parents=True)
    return folder


def copied(source: pathlib.Path, to: pathlib.Path, mode: int = 0o644) -> pathlib.Path:
    """A copy, readable by all."""
    to.parent.mkdir(parents=True, exist_ok=True)
    shutil.copyfile(source, to)
    to.chmod(mode)
    return to


def filled(template: pathlib.Path, to: pathlib.Path, **words: str) -> pathlib.Path:
    """The template with each @WORD@ replaced."""
    text = re.sub(r"@([A-Z]+)@", lambda found: words[found[1]], template.read_text())
    to.parent.mkdir(parents=True, exist_ok=True)
    to.write_text(text)
    return to


def needs_of_glibc(file: pathlib.Path) -> dict[str, tuple[int, ...]]:
    """The symbols of glibc that a file needs, each with its version."""
    found = re.findall(r"\*UND\*\s.*\(GLIBC_([\d.]+)\)\s+(\S+)", run(["objdump", "-T", file]))
    return {name: tuple(map(int, version.split("."))) for version, name in sorted(found, key=operator.itemgetter(1))}


def glibc_of(file: pathlib.Path) -> tuple[int, ...]:
    """The least glibc that a file runs on."""
    least: tuple[int, ...] = (2, 0)
    for version in needs_of_glibc(file).values():
        if version > least:
            least = version
    return least
