#!/usr/bin/env python3
"""beside_rust.py RUST PACKRUN [INPUTS] [SEED] [single]: where the Rust crate and packrun put the same boxes.

RUST is a program over the crate rectangle-pack 0.4.2 that reads the lines `bin`, `rect` and `pack` of packrun and
prints `ID BIN X Y Z W H D` for each box that its packing names, then `packed K`, or `refused: ..`.
Both get the same random inputs: bins, single boxes and groups, several packings. Compared is where each packing puts
each id (the crate names one place an id, the last). An input ends where both refuse. With `single` each input has one
bin and single boxes.
"""
from __future__ import annotations

import random
import subprocess
import sys


def lines(r: random.Random, single: bool) -> str:
    """The lines of one input: one bin and single boxes in a third of them, else several bins and groups."""
    single = r.random() < 0.33 or single
    deep = r.random() < 0.4
    side = 16 if deep else 64
    out = []
    for n in range(1 if single else r.randint(1, 5)):
        out.append(f"bin b{n} {r.randint(4, side)} {r.randint(4, side)} {r.randint(1, 12) if deep else 1}")
    box = 0
    for _ in range(r.randint(1, 4)):
        most = max(1, (9 if deep else 30) // r.choice([1, 2, 3, 5]))
        for _ in range(r.randint(1, 14)):
            groups = []
            if not single and r.random() < 0.5:
                groups = [f"g{r.randint(0, 3)}" for _ in range(r.choice([1, 1, 1, 2, 3]))]
            size = (r.randint(1, most), r.randint(1, most), r.randint(1, 6) if deep else 1)
            out.append(" ".join(["rect", f"r{box}", *map(str, size), *groups]))
            box += 1
        out.append("pack")
    return "\n".join(out) + "\n"


def answers(text: str, numbered: bool) -> list[dict[str, list[str]] | None]:
    """What each packing answered: where it put each id, or None where it was refused."""
    found: list[dict[str, list[str]] | None] = []
    places: dict[str, list[str]] = {}
    for line in text.splitlines():
        words = line.split()
        if words[0] == "packed":
            found.append(places)
            places = {}
        elif words[0] == "refused:":
            found.append(None)
        elif words[0] != "ok":
            words = words[1:] if numbered else words
            places[words[0]] = words[1:]
    return found


def run(program: str, text: str) -> str:
    return subprocess.run([program], input=text, capture_output=True, text=True, check=True).stdout


def main() -> None:
    rust, packrun = sys.argv[1:3]
    inputs = int(sys.argv[3]) if len(sys.argv) > 3 else 1000
    seed = sys.argv[4] if len(sys.argv) > 4 else "1"
    single = sys.argv[5:] == ["single"]
    differ = packings = boxes = refused = 0
    for case in range(inputs):
        text = lines(random.Random(f"{seed}/{case}"), single)
        for theirs, ours in zip(answers(run(rust, text), False), answers(run(packrun, text), True), strict=True):
            if theirs != ours:
                differ += 1
                print(f"input {case} differs:\n{text}{theirs}\n{ours}")
                break
            if ours is None:
                refused += 1
                break
            packings += 1
            boxes += len(ours)
    print(f"{differ} of {inputs} inputs differ; {packings} packings of {boxes} boxes are the same, {refused} inputs end refused by both")
    sys.exit(1 if differ else 0)


if __name__ == "__main__":
    main()
