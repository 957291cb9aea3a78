"""What mypy says of the tools, where it is there."""
import os
import pathlib
import shutil
import subprocess
import unittest

TOOLS = pathlib.Path(__file__).resolve().parents[1]


@unittest.skipUnless(shutil.which("mypy"), "no mypy")
class Types(unittest.TestCase):
    def finds_nothing(self, *files: str) -> None:
        env = {**os.environ, "MYPYPATH": f"pages:{TOOLS.parent}/bindings/python"}
        words = ["mypy", "--strict", "--cache-dir=/dev/null", *files]
        said = subprocess.run(words, cwd=TOOLS, env=env, capture_output=True, text=True, check=False)
        self.assertEqual(said.returncode, 0, said.stdout + said.stderr)

    def test_mypy_finds_nothing(self) -> None:
        self.finds_nothing(*sorted(path.name for path in TOOLS.glob("*.py")), "tests")

    def test_mypy_finds_nothing_in_what_makes_releases(self) -> None:
        self.finds_nothing("release")


if __name__ == "__main__":
    unittest.main()
