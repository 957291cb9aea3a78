#!/usr/bin/env python3
"""Packs the panels of a bookcase into a sheet and prints how it is cut, part by part:
PYTHONPATH=bindings/python python3 bindings/python/examples/sheet_plan.py"""
from rectangle_pack import Bin, Box, CutNode, Session

PANELS = {
    "left side": Box(600, 800), "right side": Box(600, 800), "top": Box(600, 400), "bottom": Box(600, 400),
    "upper shelf": Box(560, 380), "lower shelf": Box(560, 380), "plinth": Box(600, 80),
}

with Session({"sheet": Bin(1250, 2500)}) as session:
    panels = {panel.section: panel.name for panel in session.pack(PANELS)}
    tree = session.cut_tree("sheet")

# Where no sections were joined, there is a plan. It is gone through with a stack, as it may be deep.
assert tree is not None
cuts, parts = 0, [(0, tree)]
while parts:
    depth, part = parts.pop()
    if isinstance(part, CutNode):
        cuts += 1
        print("   " * depth + f"{cuts}. cut across {part.axis} at {part.place}")
        # The lower part comes next, so it goes on top.
        parts += [(depth + 1, part.upper), (depth + 1, part.lower)]
    else:
        print("   " * depth + f"{panels.get(part, 'left over')}: {part.width}x{part.height}")
