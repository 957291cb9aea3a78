"""What ruff and mypy say of the package, where they are there."""
import pathlib
import shutil
import subprocess
import unittest

FOLDER = pathlib.Path(__file__).resolve().parents[1]


class Types(unittest.TestCase):
    def finds_nothing(self, *command: str) -> None:
        said = subprocess.run(command, cwd=FOLDER, capture_output=True, text=True, check=False)
        self.assertEqual(said.returncode, 0, said.stdout + said.stderr)

    @unittest.skipUnless(shutil.which("mypy"), "no mypy")
    def test_mypy_finds_nothing(self) -> None:
        self.finds_nothing("mypy", "--strict", "--cache-dir=/dev/null", ".")

    @unittest.skipUnless(shutil.which("ruff"), "no ruff")
    def test_ruff_finds_nothing(self) -> None:
        self.finds_nothing("ruff", "check", "--no-cache", ".")


if __name__ == "__main__":
    unittest.main()
