"""The archive: a folder that works where it is unpacked."""
from __future__ import annotations

import os
import pathlib
import re
import subprocess

from common import DIST, PACKAGING, SONAME, TOP, WORK, Refused, Release, at_commit, copied, emptied, filled, run

EXAMPLES = tuple(f"c{end}/examples/{name}.c{end}" for end in ("", "pp") for name in ("atlas", "session", "collection", "panels"))
NO_DEBUG = ("--remove-section=.comment", "--remove-section=.note")
MAN_HEAD = """# NAME

packrun - pack boxes into bins, by lines of commands

# SYNOPSIS

printf \'*COMMAND*\\\\n*COMMAND*\\\\n*...*\' | **packrun**

# DESCRIPTION

"""


def man_page(release: Release, to: pathlib.Path) -> None:
    """The page of packrun, made of docs/COMMANDS.md, of which each part is a section. man has nothing to warn of."""
    text = (TOP / "docs" / "COMMANDS.md").read_text().split("\n", 1)[1]
    text = re.sub(r"^##", "#", text, flags=re.MULTILINE)
    source = WORK / "packrun.md"
    source.write_text(MAN_HEAD + text.lstrip())
    words = ["--from=markdown-smart", "--to=man", f"--lua-filter={PACKAGING / 'man.lua'}"]
    words += [f"--template={PACKAGING / 'packrun.1.template'}", f"--metadata=footer:rectangle_pack {release.version}"]
    to.parent.mkdir(parents=True)
    run(["pandoc", *words, f"--output={to}", source])
    env = {**os.environ, "MANWIDTH": "80", "LC_ALL": "C.UTF-8"}
    shown = subprocess.run(["man", "--warnings", "-Tutf8", "-l", to], env=env, capture_output=True)
    if shown.returncode or shown.stderr:
        raise Refused(f"the page of packrun: {shown.stderr.decode()}")


def libraries(lib: pathlib.Path, release: Release) -> None:
    """The library, static and shared, without what only a debugger reads."""
    static = copied(TOP / "build" / "librectangle_pack.a", lib / "librectangle_pack.a")
    run(["strip", "--strip-debug", *NO_DEBUG, "--enable-deterministic-archives", static])
    shared = copied(TOP / "build" / SONAME, lib / f"librectangle_pack.so.{release.version}")
    run(["strip", "--strip-unneeded", *NO_DEBUG, shared])
    (lib / SONAME).symlink_to(shared.name)
    (lib / "librectangle_pack.so").symlink_to(SONAME)


def found_by_others(lib: pathlib.Path, release: Release, prefix: str, libdir: str, include: str) -> None:
    """What pkg-config and CMake read. include is the folder of the headers as seen from lib."""
    filled(
        PACKAGING / "rectangle_pack.pc.in", lib / "pkgconfig" / "rectangle_pack.pc",
        PREFIX=prefix, LIBDIR=libdir, VERSION=release.version,
    )
    to = lib / "cmake" / "rectangle_pack"
    to.mkdir(parents=True)
    words = [f"-DVERSION={release.version}", f"-DINCLUDE={include}", f"-DTO={to}"]
    run(["cmake", *words, "-P", PACKAGING / "cmake" / "make.cmake"])


def parts(root: pathlib.Path, lib: pathlib.Path, release: Release) -> None:
    """What the archive and the packages of Debian share."""
    program = copied(TOP / "crates/packrun/out/packrun", root / "bin" / "packrun", 0o755)
    run(["strip", "--strip-all", *NO_DEBUG, program])
    libraries(lib, release)
    for it in ("rectangle_pack.h", "rectangle_pack.hpp"):
        copied(TOP / "include" / it, root / "include" / it)
    man_page(release, root / "share" / "man" / "man1" / "packrun.1")
    for it in EXAMPLES:
        copied(TOP / "bindings" / it, root / "share/doc/rectangle-pack/examples" / pathlib.Path(it).name)


def archive(release: Release, provenance: pathlib.Path) -> None:
    """dist/NAME.tar.gz: sorted, of nobody, and of the time of the commit."""
    tree = emptied(release.tree)
    parts(tree, tree / "lib", release)
    found_by_others(tree / "lib", release, "${pcfiledir}/../..", "${prefix}/lib", "../include")
    copied(PACKAGING / "README.md", tree / "README.md")
    copied(provenance, tree / "PROVENANCE")
    for it in ("LICENSE-MIT", "LICENSE-APACHE", "CHANGELOG.md"):
        copied(TOP / it, tree / it)
    packed = WORK / f"{release.name}.tar"
    words = ["--sort=name", f"--mtime=@{release.epoch}", "--owner=0", "--group=0", "--numeric-owner", "--format=gnu"]
    run(["tar", *words, "--mode=u+rwX,go+rX,go-w", "-cf", packed, release.name], WORK)
    run(["gzip", "-n", "-9", packed], WORK, **at_commit(release))
    os.replace(f"{packed}.gz", DIST / f"{packed.name}.gz")
