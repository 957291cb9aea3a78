#!/usr/bin/env python3
"""Cuts 20 equal shelves from few sheets, by a search that shows how far it is, first as they stand, then turned too:
PYTHONPATH=bindings/python python3 bindings/python/examples/panels.py"""
from __future__ import annotations

import sys

from rectangle_pack import Bin, Box, Progress, Turn, pack

# In tenths of a millimetre. A saw takes 3.2 mm: each shelf is larger by that, and so is what the trim of 10 mm leaves of a sheet.
SAW = 32
SHEETS = {"sheet": Bin(28000 - 2 * 100 + SAW, 20700 - 2 * 100 + SAW, count=None)}
SHELVES = [Box(8000 + SAW, 6000 + SAW)] * 20


def show(now: Progress) -> None:
    print(f"\r{now.tries} tries, {now.bins} sheets ", end="", file=sys.stderr, flush=True)


def cut(name: str, turn: Turn) -> None:
    packing = pack(SHEETS, SHELVES, tries=20_000, turn=turn, progress=show)
    print(file=sys.stderr)
    print(f"{name}: {packing.used} sheets{', and no packer needs fewer' if packing.optimal else ''}")


cut("as they stand", "none")
cut("turned", "flat")
