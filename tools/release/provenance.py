"""PROVENANCE: of what a release was made, and what was proved of it."""
from __future__ import annotations

import pathlib
import re

from common import SONAME, TOP, WORK, Refused, Release, glibc_of, needs_of_glibc, run
from ready import Gate


# What writes other bytes of a release.
OTHERS = (
    ("pandoc", "--version"),
    ("cmake", "--version"),
    ("dpkg-query", "--show", "--showformat=${Package} ${Version}\\n", "dpkg-dev"),
    ("dpkg-query", "--show", "--showformat=${Package} ${Version}\\n", "debhelper"),
)


def first_line(*words: str) -> str:
    return run(words).splitlines()[0]


def dotted(version: tuple[int, ...]) -> str:
    return ".".join(map(str, version))


def needs(name: str, file: pathlib.Path) -> list[str]:
    """A line on what a file needs of glibc, and each of these symbols."""
    libraries = re.findall(r"NEEDED\s+(\S+)", run(["objdump", "-p", file]))
    if libraries != ["libc.so.6"]:
        raise Refused(f"{name} needs other libraries than libc: {', '.join(libraries)}")
    found = sorted((version, symbol) for symbol, version in needs_of_glibc(file).items())
    lines = [f"  GLIBC_{dotted(version)} {symbol}" for version, symbol in found]
    return [f"{name} needs glibc {dotted(glibc_of(file))} or later, and nothing else:", *lines]


def provenance(release: Release, functions: dict[str, int], gate: Gate, python: str) -> pathlib.Path:
    """The file, which has no time, no path and nothing else that differs from run to run."""
    lines = [
        f"rectangle_pack {release.version}",
        f"commit: {release.commit}",
        f"proved and compiled by: {first_line('rt', 'version')}",
        f"the shared library linked by: {first_line('cc', '--version')}, {first_line('ld', '--version')}",
        f"the wheel and the crate by: {first_line(python, '--version')}, {first_line('cargo', '--version')}",
        f"the rest by: {', '.join(first_line(*it) for it in OTHERS)}",
        "",
        f"proved in the clone that this was made in: {sum(functions.values())} functions",
        *(f"  {name}: {count}" for name, count in sorted(functions.items())),
        f"the gate: {gate.passed} passed, 0 failed; {gate.edits_refused} wrong bodies refused",
        "",
        "processor: x86-64-v2",
        *needs("the library", TOP / "build" / SONAME),
        *needs("packrun", TOP / "crates/packrun/out/packrun"),
    ]
    file = WORK / "PROVENANCE"
    file.write_text("\n".join(lines) + "\n")
    return file
