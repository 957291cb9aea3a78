#!/usr/bin/env python3
"""The types of the module, the examples and typed_use.py, by mypy where it is there."""
import shutil
import subprocess
import unittest
from pathlib import Path

PYTHON = Path(__file__).resolve().parents[1]
CHECKED = ["rectangle_pack", "tests/typed_use.py", *sorted(f"examples/{path.name}" for path in PYTHON.glob("examples/*.py"))]


class Types(unittest.TestCase):
    @unittest.skipUnless(shutil.which("mypy"), "no mypy")
    def test_mypy_finds_nothing(self):
        for version in ("3.9", "3.11"):
            command = ["mypy", "--strict", "--cache-dir=/dev/null", f"--python-version={version}", *CHECKED]
            run = subprocess.run(command, cwd=PYTHON, capture_output=True, text=True)
            self.assertEqual((run.returncode, run.stderr), (0, ""), run.stdout)


if __name__ == "__main__":
    unittest.main()
