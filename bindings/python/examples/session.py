#!/usr/bin/env python3
"""An atlas that is filled while a program runs: sprites come to one sheet and go from it:
PYTHONPATH=bindings/python python3 bindings/python/examples/session.py"""
from __future__ import annotations

from rectangle_pack import Bin, Box, Outstanding, Session

SHEET = 7
# The hat and the shoe are drawn together, so they are to be on one sheet.
SPRITES = {"map": Box(64, 40), "hat": Box(10, 24, group="player"), "shoe": Box(20, 24, group="player")}


def print_place(it: Outstanding[str, int]) -> None:
    print(f"{it.name} is placement {it.number}, on sheet {it.bin} at {it.x} {it.y}")


def print_stats(session: Session[int]) -> None:
    it = session.stats(SHEET)
    print(f"{it.bin_volume} cells: {it.free_volume} free (sections: {it.free_sections}), "
          f"{it.placed_volume} placed (placements: {it.placements})")


with Session({SHEET: Bin(64, 64)}) as session:
    sprites = session.pack(SPRITES)
    for sprite in sprites:
        print_place(sprite)
    print_stats(session)

    session.release(sprites["shoe"].number)
    print("the shoe is released")
    print_stats(session)

    # What the shoe leaves and what was free beside it become one section. The banner needs both.
    session.coalesce_all(SHEET)
    print_place(session.pack({"banner": Box(50, 20)})["banner"])
    print_stats(session)
