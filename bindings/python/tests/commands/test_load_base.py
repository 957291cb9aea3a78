"""What the tests of load share: tables in a folder of their own, and the command, run in this process or as users run it."""
import contextlib
import importlib.util
import io
import json
import os
import subprocess
import sys
import tempfile
import unittest
from pathlib import Path

try:
    from rectangle_pack.commands import main
except OSError as why:
    raise unittest.SkipTest(f"the shared library cannot be loaded: {why}") from None

PYTHON = Path(__file__).resolve().parents[2]


def example():
    """The script that writes the example."""
    path = PYTHON / "examples" / "commands" / "load.py"
    spec = importlib.util.spec_from_file_location("example_of_load", path)
    module = importlib.util.module_from_spec(spec)
    spec.loader.exec_module(module)
    return module


class LoadCase(unittest.TestCase):
    """A test with a folder of its own."""

    def setUp(self):
        folder = tempfile.TemporaryDirectory()
        self.addCleanup(folder.cleanup)
        self.folder = Path(folder.name)

    def table(self, name, *lines):
        """Writes a table, and says where it is."""
        path = self.folder / name
        path.write_text("".join(f"{line}\n" for line in lines), encoding="utf-8")
        return path

    def crates(self, *lines):
        return self.table("crates.csv", *lines)

    def containers(self, *lines):
        return self.table("containers.csv", *lines)

    def run_load(self, *words):
        """The exit status, and what is printed to standard output and to standard error."""
        out, error = io.StringIO(), io.StringIO()
        with contextlib.redirect_stdout(out), contextlib.redirect_stderr(error):
            try:
                status = main(["load", *map(str, words)])
            except SystemExit as end:
                status = end.code
        return status, out.getvalue(), error.getvalue()

    def loaded(self, *words):
        """The answer in JSON of a load that is done."""
        status, out, error = self.run_load(*words, "--json")
        self.assertEqual((status, error), (0, ""))
        return json.loads(out)

    def run_as_user(self, *words, **environment):
        """The same by a process of its own."""
        command = [sys.executable, "-m", "rectangle_pack", "load", *map(str, words)]
        inside = {**os.environ, "PYTHONPATH": str(PYTHON), **environment}
        return subprocess.run(command, capture_output=True, text=True, env=inside, cwd=self.folder)
