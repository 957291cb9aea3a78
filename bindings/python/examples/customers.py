#!/usr/bin/env python3
"""Loads the crates of two customers, who may not share a container:
PYTHONPATH=bindings/python python3 bindings/python/examples/customers.py"""
from rectangle_pack import Bin, Box, NotEnoughBinSpace, pack

# The inside of a container in decimetres: wide, high, long.
CONTAINER = Bin(23, 23, 58)
CRATES = {
    "milk": Box(11, 10, 12, group="dairy"), "butter": Box(7, 9, 8, group="dairy"), "cheese": Box(11, 11, 20, group="dairy"),
    "varnish": Box(11, 8, 12, group="paint"), "thinner": Box(7, 7, 6, group="paint"), "straps": Box(4, 4, 6),
}
# Each customer gets straps: a box in two groups is placed twice, once for each.
SHARED = {"dairy": ["straps"], "paint": ["straps"]}
APART = [("dairy", "paint")]

try:
    pack({"first": CONTAINER}, CRATES, groups=SHARED, exclude=APART)
except NotEnoughBinSpace:
    print("one container is not enough")

containers = {"first": CONTAINER, "second": CONTAINER}
packing = pack(containers, CRATES, groups=SHARED, exclude=APART)
for container in containers:
    print(f"the {container} container:")
    for it in packing:
        if it.bin == container:
            print(f"    {it.name} of {it.group} at {it.x} {it.y} {it.z}")
