"""Puts the shared library into the wheel, and says by the wheel's tag which glibc it needs.

tools/release.sh names both: the library by RECTANGLE_PACK, the tag, which it made of what it read in the library, by
RECTANGLE_PACK_TAG."""
import os

from hatchling.builders.config import BuilderConfig
from hatchling.builders.hooks.plugin.interface import BuildHookInterface


class LibraryInside(BuildHookInterface[BuilderConfig]):
    """The hook that hatchling calls."""

    def initialize(self, version: str, build_data: dict[str, object]) -> None:
        build_data["force_include"] = {os.environ["RECTANGLE_PACK"]: "rectangle_pack/librectangle_pack.so"}
        build_data["tag"] = f"py3-none-{os.environ['RECTANGLE_PACK_TAG']}"
        build_data["pure_python"] = False
