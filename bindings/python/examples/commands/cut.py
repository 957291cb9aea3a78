#!/usr/bin/env python3
"""Writes the example of the command `cut` into a folder: the cutting list of a sideboard, the sheets of a timber merchant, and
two offcuts from the rack: python3 bindings/python/examples/commands/cut.py FOLDER"""
import sys
from pathlib import Path

TABLES = {
    "panels.csv": """\
name,count,width,height,grain
side,2,780,450,keep
partition,2,744,420,keep
top,1,1800,470,keep
bottom,1,1764,450,keep
shelf,2,572,415,free
door,2,716,441,keep
drawer front,3,572,178.5,keep
drawer side,6,400,140,free
drawer back,3,520,122,free
rail,4,572,90,free
wedge,12,60,45,free
""",
    "sheets.csv": """\
name,count,width,height,cost
birch 18,,2500,1250,68.50
birch 18 short,2,1525,1525,49.90
""",
    "offcuts.csv": """\
name,count,width,height,cost
birch 18 7-1,1,1210,396.8,0
birch 18 7-2,1,640,305.6,0
""",
}


def write_example(folder: Path) -> None:
    """Writes the tables."""
    folder.mkdir(parents=True, exist_ok=True)
    for name, table in TABLES.items():
        (folder / name).write_text(table, encoding="utf-8")


if __name__ == "__main__":
    if len(sys.argv) != 2:
        sys.exit("name the folder to write to")
    write_example(Path(sys.argv[1]))
