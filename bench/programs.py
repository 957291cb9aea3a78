"""Builds the programs that are measured, and measures them."""
from __future__ import annotations

import json
import pathlib
import shlex
import subprocess
import tempfile
from collections.abc import Iterable, Sequence

BENCH = pathlib.Path(__file__).resolve().parent
TOP = BENCH.parent
MADE = TOP / "build" / "bench"
COMPILE = ("cc", "-O3", "-march=x86-64-v2")
RUNS = 7


def proved(name: str) -> str:
    """A program in Rattle, proved and built where it is not yet."""
    subprocess.run([TOP / "tools" / "build.py", name], check=True, stdout=subprocess.DEVNULL)
    return str(TOP / "crates" / name / "out" / name)


def compiled(source: str, *flags: str) -> str:
    """A program in C, built."""
    MADE.mkdir(parents=True, exist_ok=True)
    program = str(MADE / pathlib.Path(source).stem)
    subprocess.run([*COMPILE, BENCH / "c" / source, "-o", program, *flags], check=True)
    return program


def printed(program: str | Sequence[str], text: str) -> str:
    """What a program, or one with its arguments, prints on this input."""
    return subprocess.run([program] if isinstance(program, str) else program, input=text, stdout=subprocess.PIPE, text=True, check=True).stdout


def seconds(programs: Sequence[str], lines: Iterable[str], runs: int = RUNS) -> list[float]:
    """How long each program takes on the lines: the best of the runs."""
    with tempfile.TemporaryDirectory() as room:
        given, said = pathlib.Path(room, "lines"), pathlib.Path(room, "said.json")
        given.write_text("".join(f"{line}\n" for line in lines))
        words = ["hyperfine", "--shell=none", "--style=none", "--warmup=1", f"--runs={runs}", f"--export-json={said}"]
        on = compiled("on.c", "-static")
        subprocess.run([*words, *(shlex.join([on, str(given), it]) for it in programs)], check=True)
        return [float(it["min"]) for it in json.loads(said.read_text())["results"]]


def peak(program: str, lines: Iterable[str]) -> int:
    """The most memory that a program has on the lines, in bytes."""
    words, text = ["time", "-f", "%M", program], "".join(f"{line}\n" for line in lines)
    ran = subprocess.run(words, input=text, stdout=subprocess.DEVNULL, stderr=subprocess.PIPE, text=True, check=True)
    return 1024 * int(ran.stderr)


def table(heads: Sequence[str], rows: Iterable[Sequence[str]]) -> None:
    """Prints a table in markdown, each row once it is there. All columns but the first have numbers."""
    for cells in (heads, ["---", *["---:"] * (len(heads) - 1)]):
        print(f"| {' | '.join(cells)} |", flush=True)
    for cells in rows:
        print(f"| {' | '.join(cells)} |", flush=True)
    print()
