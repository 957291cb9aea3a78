"""The packages of Debian: the program, the library, and what programs are compiled with."""
from __future__ import annotations

import email.utils
import pathlib
import shutil

from common import DIST, PACKAGING, TOP, TRIPLE, WORK, Release, at_commit, emptied, filled, run
from tree import found_by_others, parts


def changelog(release: Release) -> str:
    """The change that Debian's tools ask for. What changed stands in CHANGELOG.md."""
    day = email.utils.formatdate(release.epoch)
    text = f"rectangle-pack ({release.version}-1) unstable; urgency=medium\n\n"
    return text + f"  * Release {release.version}.\n\n -- {release.maintainer}  {day}\n"


def rules(folder: pathlib.Path, release: Release) -> None:
    """The folder debian: what is packed how."""
    shutil.copytree(PACKAGING / "debian", folder)
    (folder / "rules").chmod(0o755)
    filled(folder / "control.in", folder / "control", MAINTAINER=release.maintainer)
    (folder / "control.in").unlink()
    licence = "\n".join(f" {line}" if line else " ." for line in (TOP / "LICENSE-MIT").read_text().rstrip().splitlines())
    filled(folder / "copyright", folder / "copyright", MIT=licence)
    (folder / "changelog").write_text(changelog(release))


def packages(release: Release) -> None:
    """dist/*.deb, of which lintian has no error."""
    folder = emptied(WORK / "debian") / "rectangle-pack"
    root = folder / "staged" / "usr"
    rules(folder / "debian", release)
    parts(root, root / "lib" / TRIPLE, release)
    found_by_others(root / "lib" / TRIPLE, release, "/usr", f"${{prefix}}/lib/{TRIPLE}", "../../include")
    shutil.copyfile(TOP / "CHANGELOG.md", folder / "CHANGELOG.md")
    # One thread, since what xz writes depends on their number.
    run(["dpkg-buildpackage", "-b", "-us", "-uc"], folder, DPKG_DEB_THREADS_MAX="1", **at_commit(release))
    made = sorted(folder.parent.glob("*.deb"))
    run(["lintian", "--fail-on", "error", "--allow-root", *made], folder.parent)
    for it in made:
        shutil.copyfile(it, DIST / it.name)
