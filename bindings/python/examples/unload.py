#!/usr/bin/env python3
"""An atlas that is unloaded sprite by sprite; here it becomes one free section again, with other sprites it may stay in several:
PYTHONPATH=bindings/python python3 bindings/python/examples/unload.py"""
from rectangle_pack import Bin, Box, Session

SPRITES = {
    "hat": Box(32, 32), "bridge": Box(64, 16), "door": Box(24, 40), "coin": Box(16, 16), "house": Box(48, 48),
    "lamp": Box(8, 56), "fish": Box(20, 12),
}

with Session({"atlas": Bin(128, 128)}) as session:
    session.pack(SPRITES)
    print(f"{len(session.outstanding())} sprites, {len(session.free_sections('atlas'))} free sections")
    # The last that came goes first: so each finds most of the pieces again that it was cut from.
    for sprite in reversed(session.outstanding()):
        session.release(sprite.number)
        # What it leaves is the last of the list, and may join any of the others.
        count = len(session.free_sections("atlas"))
        session.coalesce("atlas", count - 1, 0, count)
        print(f"the {sprite.name} is gone, {len(session.free_sections('atlas'))} free sections")
    print("free again:", *session.free_sections("atlas"))
