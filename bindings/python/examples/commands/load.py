#!/usr/bin/env python3
"""Writes the tables of the example for load into a folder: python3 bindings/python/examples/commands/load.py FOLDER

With --table it reads what `load --json` printed, and prints the lines that tools/draw.py --table draws."""
from __future__ import annotations

import argparse
import json
import sys
from pathlib import Path
from typing import Any

CRATES = """\
name,count,length,width,height,customer,down,stackable
pallet of milk,8,120,80,105,Dairy,upright,yes
pallet of cheese,5,120,80,120,Dairy,upright,yes
pallet of paint,6,120,100,95,Paintworks,upright,yes
drum,8,60,60,90,Paintworks,upright,yes
lathe,1,210,110,160,Tool shop,upright,no
case of tools,14,80,60,45,Tool shop,bottom side,yes
roll of cloth,18,200,35,35,Weaver,bottom side,yes
bale,12,90,60,55,Weaver,any,yes
spare parts,6,40,30,25,,any,yes
"""

CONTAINERS = """\
name,count,length,width,height,cost
20 ft,4,589.8,235.2,239.3,950
40 ft,2,1203.2,235.2,239.3,1600
"""

APART = """\
customer,other
Dairy,Paintworks
"""

TABLES = {"crates.csv": CRATES, "containers.csv": CONTAINERS, "apart.csv": APART}


def write(folder: Path) -> None:
    """Writes the tables."""
    folder.mkdir(parents=True, exist_ok=True)
    for name, text in TABLES.items():
        (folder / name).write_text(text, encoding="utf-8")


def word(text: str) -> str:
    return text.replace(" ", "-")


def lines(load: dict[str, Any]) -> list[str]:
    """The load as tools/draw.py reads it: in whole millimetres, and names without blanks."""
    found = []
    for container in load["containers"]:
        sides = [str(round(container[side] * 10)) for side in ("wide", "high", "long")]
        found.append(" ".join(["bin", word(container["name"]), *sides]))
        for step in container["steps"]:
            places = [str(round(step[name] * 10)) for name in ("x", "y", "z", "wide", "high", "long")]
            names = [word(step["crate"]), word(container["name"])]
            found.append(" ".join([str(step["step"]), *names, *places, word(step["customer"])]))
    return found


def main() -> None:
    parser = argparse.ArgumentParser(description=__doc__, formatter_class=argparse.RawDescriptionHelpFormatter)
    parser.add_argument("folder", nargs="?", type=Path, metavar="FOLDER")
    parser.add_argument("--table", action="store_true")
    given = parser.parse_args()
    if given.table:
        print("\n".join(lines(json.load(sys.stdin))))
    elif given.folder:
        write(given.folder)
    else:
        parser.error("name a folder, or say --table")


if __name__ == "__main__":
    main()
