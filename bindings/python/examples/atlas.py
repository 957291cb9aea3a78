#!/usr/bin/env python3
"""Packs a few sprites into two sheets and prints where they stand:
PYTHONPATH=bindings/python python3 bindings/python/examples/atlas.py"""
from rectangle_pack import Bin, Box, pack

SHEETS = [Bin(64, 64), Bin(128, 128)]
# The hat and the shoe are drawn together, so they are to be on one sheet.
SPRITES = {
    "hat": Box(10, 20, group="player"), "shoe": Box(5, 50, group="player"),
    "tree": Box(60, 60), "sun": Box(32, 32), "moon": Box(16, 16),
}

for it in pack(SHEETS, SPRITES):
    print(f"{it.name} on sheet {it.bin} at {it.x} {it.y}")
