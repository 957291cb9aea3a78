"""Times of the judge, and of sessions that are made of saved parts, by the calls for C."""
from __future__ import annotations

import subprocess

from programs import TOP, compiled, printed, table


def checks() -> None:
    """How long it takes to judge 100,000 boxes, and to make a session of them: in one process, without reading a file."""
    subprocess.run([TOP / "tools" / "build_c.sh"], check=True, stdout=subprocess.DEVNULL)
    program = compiled("check_times.c", f"-I{TOP}/build", f"{TOP}/build/librectangle_pack.a")
    rows = (line.split("|") for line in printed(program, "").splitlines())
    table(["100,000 boxes in one bin", "Judged", "Restored"], ([it[0], *it[2:]] for it in rows))
