"""Whether a release can be made of this clone: it is clean, its parts name the version, its crates are proved and it passed
the gate."""
from __future__ import annotations

import collections.abc
import contextlib
import dataclasses
import graphlib
import importlib.util
import pathlib
import re
import shutil
import subprocess
import sys
import types

from common import TOP, Refused, Release, run

# The programs that a release is made with, each with the package of Debian that has it.
PROGRAMS = {
    "git": "git", "cc": "gcc", "ar": "binutils", "strip": "binutils", "objdump": "binutils", "tar": "tar", "gzip": "gzip",
    "pandoc": "pandoc", "man": "man-db", "cmake": "cmake", "dpkg-buildpackage": "dpkg-dev", "dh": "debhelper",
    "fakeroot": "fakeroot", "lintian": "lintian", "cargo": "cargo",
}
# What the wheel is built with.
MODULES = {"build": "python3-build", "hatchling": "python3-hatchling"}
# The first line of a file that names the version.
VERSIONS = {
    "CHANGELOG.md": r"^## ([^\s,]+)",
    "bindings/rust/Cargo.toml": r'^version = "(.*)"',
    "bindings/rust/Cargo.lock": r'^version = "(.*)"',
    "packaging/wheel/pyproject.toml": r'^version = "(.*)"',
}
# What is released.
CRATES = ("rectangle_pack_c", "packrun")


@dataclasses.dataclass(frozen=True)
class Gate:
    """What the gate said last."""

    passed: int
    edits_refused: int


def python_with(modules: dict[str, str]) -> str | None:
    """A Python that has these modules: the one in use, or that of the system."""
    wanted = f"import {', '.join(modules)}"
    for it in (sys.executable, "/usr/bin/python3"):
        # In a folder where no file hides a module.
        if subprocess.run([it, "-c", wanted], cwd="/", capture_output=True, check=False).returncode == 0:
            return it
    return None


def must_have_programs() -> str:
    """The Python that builds the wheel."""
    lacking = {package for program, package in PROGRAMS.items() if shutil.which(program) is None}
    python = python_with(MODULES)
    if python is None:
        lacking.update(MODULES.values())
    if lacking or python is None:
        raise Refused(f"this machine lacks what a release is made with: apt-get install {' '.join(sorted(lacking))}")
    return python


def must_be_clean() -> None:
    dirty = run(["git", "status", "--porcelain"])
    if dirty:
        raise Refused(f"the clone is not clean, so a release would not be made of its commit:\n{dirty}")


def must_name(version: str) -> None:
    """Each part that has a version of its own has this one."""
    others = []
    for file, line in VERSIONS.items():
        found = re.search(line, (TOP / file).read_text(), re.MULTILINE)
        if found is None or found[1] != version:
            others.append(f"{file} has {found[1] if found else 'none'}")
    if others:
        raise Refused(f"the version is to be {version}, but {', '.join(others)}")


def build_tool() -> types.ModuleType:
    """tools/build.py, which knows what is proved."""
    spec = importlib.util.spec_from_file_location("proving", TOP / "tools" / "build.py")
    assert spec and spec.loader
    module = importlib.util.module_from_spec(spec)
    sys.modules["proving"] = module
    spec.loader.exec_module(module)
    return module


def functions_proved() -> dict[str, int]:
    """Of each crate that is released or that one stands on, how many functions were proved in this clone."""
    tool = build_tool()
    crates = tool.crates_of((TOP / "crates.txt").read_text())
    wanted = {name: crate for it in CRATES for name, crate in tool.with_all_below(it, crates).items()}
    order = graphlib.TopologicalSorter({name: crate.below for name, crate in wanted.items()})
    build, counts, lacking = tool.Build(wanted, tool.toolchain()), {}, []
    for name in order.static_order():
        crate = wanted[name]
        build.sums[name] = build.sum_of(crate)
        is_proved = build.is_proved(crate) and crate.log.is_file()
        count = is_proved and re.search(r"^logic=proved functions=(\d+)", crate.log.read_text(), re.MULTILINE)
        if count:
            counts[name] = int(count[1])
        else:
            lacking.append(name)
    if lacking:
        raise Refused(f"not proved in this clone as it stands: {', '.join(lacking)}. Run tools/build_c.sh and tools/build.py packrun first")
    return counts


@contextlib.contextmanager
def kept(files: collections.abc.Iterable[pathlib.Path]) -> collections.abc.Iterator[None]:
    """These files are at the end what they are now: the gate builds some of them in its own way."""
    contents = {it: (it.read_bytes(), it.stat().st_mode) for it in files}
    yield
    for it, (content, mode) in contents.items():
        it.parent.mkdir(parents=True, exist_ok=True)
        it.write_bytes(content)
        it.chmod(mode)


def gate(release: Release) -> Gate:
    """What the gate said of this commit in this clone. It is run where it was not yet."""
    made = (TOP / "crates/packrun/out/packrun", TOP / "crates/rectangle_pack_c/out/librectangle_pack_c.a")
    log = TOP / "build" / "gate" / f"{release.commit}.log"
    if not log.is_file():
        log.parent.mkdir(parents=True, exist_ok=True)
        part = log.with_suffix(".part")
        print(f"the gate is run, which takes up to an hour; what it says goes to {part.relative_to(TOP)}", flush=True)
        with kept(made), part.open("wb") as to:
            ran = subprocess.run([TOP / ".ci" / "run"], cwd=TOP, stdin=subprocess.DEVNULL, stdout=to, stderr=to, check=False)
        if ran.returncode:
            last = (part.read_text(errors="replace").splitlines() or [""])[-1]
            raise Refused(f"the gate did not pass: {last!r}. {part.relative_to(TOP)} has all that it said")
        part.rename(log)
    said = log.read_text(errors="replace")
    passed, edits = re.search(r"(?m)^(\d+) passed, 0 failed$", said), re.findall(r"must-fail \S+\.edit: refused, as it must be", said)
    if not passed or not edits:
        raise Refused(f"{log.relative_to(TOP)} does not say what the gate proved. Delete it to run the gate again")
    return Gate(int(passed[1]), len(edits))


def release_of(version: str) -> Release:
    """The release of this commit under this version."""
    if not re.fullmatch(r"\d+\.\d+\.\d+", version):
        raise Refused(f"{version} is no version: it has three numbers, as in 0.2.0")
    commit, epoch, maintainer = run(["git", "log", "-1", "--format=%H%n%ct%n%an <%ae>"]).splitlines()
    return Release(version, commit, int(epoch), maintainer)
