"""What the tests of the command check share: files in a folder of their own, and the command, run in this process or alone."""
from __future__ import annotations

import contextlib
import io
import json
import os
import subprocess
import sys
import tempfile
import unittest
from pathlib import Path
from typing import Any, NamedTuple

from rectangle_pack.commands import main

__all__ = ["CheckCase", "PYTHON", "Run", "changed", "frame"]

PYTHON = Path(__file__).resolve().parents[2]


class Run(NamedTuple):
    """How a run of the command ended, and what it printed."""

    status: int
    out: str
    err: str


def frame(x: int, y: int, width: int, height: int, **more: object) -> dict[str, Any]:
    """A sprite as TexturePacker has it."""
    return {"frame": {"x": x, "y": y, "w": width, "h": height}, "rotated": False, "trimmed": False, **more}


def changed(value: Any, place: str, new: object) -> Any:
    """JSON with another value at this place, which is told by keys with blanks between them."""
    whole = json.loads(json.dumps(value))
    *above, last = [int(key) if key.isdigit() else key for key in place.split()]
    part = whole
    for key in above:
        part = part[key]
    assert part[last] != new
    part[last] = new
    return whole


class CheckCase(unittest.TestCase):
    """A test with a folder of its own."""

    def setUp(self) -> None:
        folder = tempfile.TemporaryDirectory()
        self.addCleanup(folder.cleanup)
        self.folder = Path(folder.name)

    def file(self, name: str, content: object) -> Path:
        """A file of text, of bytes, or of JSON."""
        path = self.folder / name
        if not isinstance(content, bytes):
            content = (content if isinstance(content, str) else json.dumps(content)).encode()
        path.write_bytes(content)
        return path

    def command(self, *words: object) -> Run:
        """Runs a command in this process."""
        out, err = io.StringIO(), io.StringIO()
        with contextlib.redirect_stdout(out), contextlib.redirect_stderr(err):
            try:
                status = main([*map(str, words)])
            except SystemExit as end:
                status = int(end.code or 0)
        return Run(status, out.getvalue(), err.getvalue())

    def check(self, *words: object) -> Run:
        return self.command("check", *words)

    def check_alone(self, *words: object, **environment: str) -> Run:
        """Runs the command as a user does, in the folder."""
        command = [sys.executable, "-m", "rectangle_pack", "check", *map(str, words)]
        inside = {**os.environ, "PYTHONPATH": str(PYTHON), **environment}
        it = subprocess.run(command, cwd=self.folder, capture_output=True, text=True, env=inside)
        return Run(it.returncode, it.stdout, it.stderr)

    def assert_sound(self, path: Path, count: str, *words: object) -> None:
        self.assertEqual(self.check(path, *words), (0, f"{path}: nothing is wrong: {count}\n", ""))

    def assert_fault(self, path: Path, text: str, *words: object) -> None:
        self.assertEqual(self.check(path, *words), (1, f"{path}: {text}\n", ""))

    def assert_refused(self, path: Path, why: str, *words: object) -> None:
        """Refused with this line; the path stands before it."""
        self.assertEqual(self.check(path, *words), (2, "", f"{path}{why}\n"))
