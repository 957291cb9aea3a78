"""make.py VERSION: makes dist/, as tools/release.sh says."""
from __future__ import annotations

import collections.abc
import hashlib
import shutil
import subprocess
import sys

import ready
from common import DIST, TOP, WORK, Refused, Release, emptied
from crate import crate
from debian import packages
from provenance import provenance
from tree import archive
from wheel import wheel


def build() -> None:
    """The library and the program. What is proved is not proved again."""
    for words in (["tools/build_c.sh"], ["tools/build.py", "packrun"]):
        if subprocess.run(words, cwd=TOP, stdin=subprocess.DEVNULL, check=False).returncode:
            raise Refused(f"{words[0]} did not end well")


def sums() -> str:
    """SHA256SUMS, which `sha256sum --check` reads."""
    files = sorted(it for it in DIST.iterdir() if it.name != "SHA256SUMS")
    return "".join(f"{hashlib.sha256(it.read_bytes()).hexdigest()}  {it.name}\n" for it in files)


def make(release: Release) -> None:
    python = ready.must_have_programs()
    ready.must_be_clean()
    ready.must_name(release.version)
    functions, gate = ready.functions_proved(), ready.gate(release)
    build()
    ready.must_be_clean()
    emptied(WORK)
    emptied(DIST)
    try:
        said = provenance(release, functions, gate, python)
        archive(release, said)
        packages(release)
        wheel(release, python)
        crate(release)
        shutil.copyfile(said, DIST / said.name)
    finally:
        # The archive has links, and rt takes none in a workspace.
        shutil.rmtree(WORK)
    (DIST / "SHA256SUMS").write_text(sums())


def main(words: collections.abc.Sequence[str]) -> int:
    if len(words) != 1:
        print(__doc__, file=sys.stderr)
        return 2
    try:
        make(ready.release_of(words[0]))
    except Refused as why:
        print(f"no release: {why}", file=sys.stderr)
        return 1
    for it in sorted(DIST.iterdir()):
        print(f"{it.stat().st_size:>9} {it.name}")
    return 0


if __name__ == "__main__":
    sys.exit(main(sys.argv[1:]))
