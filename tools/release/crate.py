"""The crate for Cargo, with the static library inside."""
from __future__ import annotations

import pathlib
import shutil

from common import DIST, TOP, WORK, Refused, Release, at_commit, copied, emptied, run


def cargo(words: list[str], package: pathlib.Path, target: pathlib.Path, release: Release) -> None:
    """Runs cargo, which is to have nothing to warn of."""
    # Cargo tells its warnings on standard error, which a shell gives as what it printed.
    told = ["--offline", "--target-dir", str(target), "--manifest-path", str(package / "Cargo.toml")]
    strict = {"RUSTFLAGS": "-D warnings", "RUSTDOCFLAGS": "-D warnings", **at_commit(release)}
    said = run(["sh", "-c", 'exec cargo "$@" 2>&1', "cargo", *words, *told], package, **strict)
    if "warning" in said:
        raise Refused(f"cargo {words[0]} warns:\n{said}")


def package_of(release: Release, package: pathlib.Path) -> None:
    """What cargo packs."""
    rust = TOP / "bindings" / "rust"
    for it in ("Cargo.toml", "Cargo.lock", "README.md", "build.rs"):
        copied(rust / it, package / it)
    for room in ("src", "examples"):
        shutil.copytree(rust / room, package / room)
    for it in ("LICENSE-MIT", "LICENSE-APACHE"):
        copied(TOP / it, package / it)
    copied(release.tree / "lib" / "librectangle_pack.a", package / "lib" / "librectangle_pack.a")


def crate(release: Release) -> None:
    """dist/*.crate, which cargo has packed, unpacked, built and documented."""
    folder = emptied(WORK / "crate")
    package, target = folder / "package", folder / "target"
    package_of(release, package)
    cargo(["package", "--allow-dirty"], package, target, release)
    cargo(["doc", "--no-deps"], package, target, release)
    for it in (target / "package").glob("*.crate"):
        shutil.copyfile(it, DIST / it.name)
