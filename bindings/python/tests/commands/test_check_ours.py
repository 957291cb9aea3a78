"""The command check on what the other commands print as JSON."""
from __future__ import annotations

import unittest
from typing import Any

from .check_cases import CheckCase, changed


def sprite(name: str, page: int, x: int, y: int, width: int, height: int) -> dict[str, Any]:
    return {"name": name, "page": page, "x": x, "y": y, "width": width, "height": height, "stored_as": name}


SHEET = {
    "pages": [{"image": f"atlas-{number}.png", "width": 20, "height": 30, "stored": 1} for number in range(2)],
    "sprites": [
        sprite("hat", 0, 0, 0, 10, 20), sprite("cap", 0, 10, 0, 10, 8), sprite("cap again", 0, 10, 0, 10, 8),
        sprite("wig", 1, 10, 8, 10, 22)],
    "files": [],
}


def part(role: str, name: str, x: float, y: float, width: float, height: float) -> dict[str, Any]:
    return {"role": role, "name": name, "x": x, "y": y, "width": width, "height": height}


# Between parts the blade takes 3.2.
CUT = {"unit": "mm", "kerf": 3.2, "sheets": [
    {"number": 1, "name": "birch", "width": 1000, "height": 500.5,
     "panels": [part("panel", "side #1", 10, 10, 90, 200), part("panel", "side #2", 10, 213.2, 90, 200)],
     "offcuts": [part("offcut", "birch 1-1", 103.2, 10, 886.8, 480)]},
    {"number": 2, "name": "birch", "width": 1000, "height": 500.5, "panels": [part("panel", "side #3", 0, 0, 90, 200)],
     "offcuts": []},
]}


def step(line: int, piece: int, customer: str, *places: float) -> dict[str, Any]:
    sides = dict(zip(("x", "y", "z", "wide", "high", "long"), places))
    return {"crate": {2: "milk", 3: "paint"}[line], "line": line, "piece": piece, "customer": customer, **sides, "on": []}


LOAD: dict[str, Any] = {"unit": "cm", "together": False, "apart": [["Dairy", "Paintworks"]], "containers": [
    {"name": name, "kind": name, "wide": 235.2, "high": 239.3, "long": 589.8, "steps": steps} for name, steps in (
        ("van 1", [step(2, 1, "Dairy", 0, 0, 0, 120, 105, 80), step(2, 2, "Dairy", 0, 105, 0, 120, 105, 80),
                   step(3, 3, "", 0, 0, 80, 100, 95, 120)]),
        ("van 2", [step(3, 1, "Paintworks", 0, 0, 0, 120, 95, 100), step(3, 2, "", 135.2, 0, 0, 100, 95, 120)]))]}


def item(number: int | str, name: str, bin: str, *at: int) -> dict[str, Any]:
    return {"number": number, "name": name, "bin": bin, "at": list(at)}


# Hat is released, and cap takes its place.
VIEW = {"page": "session.html", "scenes": [
    {"title": "one", "unit": "cells", "rooms": [{"name": "page", "size": [20, 30, 1]}], "steps": [
        {"text": "bin page 20 30 1"},
        {"text": "pack", "placed": [item(0, "hat", "page", 0, 0, 0, 10, 20, 1), item(1, "wig", "page", 10, 8, 0, 10, 22, 1)]},
        {"text": "release 0", "released": [0]},
        {"text": "pack", "placed": [item(2, "cap", "page", 0, 5, 0, 10, 20, 1)]},
        {"text": "release 2", "released": [2]},
    ]},
    {"title": "two", "unit": "cells", "rooms": [{"name": "van", "size": [9, 9, 9]}], "steps": [
        {"text": "pack", "placed": [
            item(str(2**53), "milk", "van", 0, 0, 0, 9, 9, 4), item(7, "rope", "van", 0, 0, 4, 9, 9, 5)]},
    ]},
]}


class OurJson(CheckCase):
    def judge(self, whole: Any, count: str, cases: dict[tuple[str, object], str]) -> None:
        """Nothing is wrong with the whole. With a value changed this is wrong."""
        self.assert_sound(self.file("a.json", whole), count)
        for (place, new), text in cases.items():
            with self.subTest(place):
                self.assert_fault(self.file("a.json", changed(whole, place, new)), text)

    def test_sheet(self) -> None:
        self.judge(SHEET, "3 boxes on 2 pages", {
            ("sprites 0 width", 11): '"hat" and "cap" share a cell of page "atlas-0.png": (0, 0) 11x20 and (10, 0) 10x8',
            ("sprites 3 y", 9): '"wig" is not inside page "atlas-1.png" of 20x30: (10, 9) 10x22',
            ("sprites 3 page", 2): '"wig" is on page "2", which is not there: (10, 8) 10x22',
            ("sprites 2 x", 9): '"hat" and "cap again" share a cell of page "atlas-0.png": (0, 0) 10x20 and (9, 0) 10x8',
            ("pages 1 height", 29): '"wig" is not inside page "atlas-1.png" of 20x29: (10, 8) 10x22',
        })

    def test_cut(self) -> None:
        self.judge(CUT, "4 boxes on 2 sheets", {
            ("sheets 0 panels 1 y", 213.1):
                '"side #1" and "side #2" are not 3.2 apart on sheet "1: birch": (10, 10) 90x200 and (10, 213.1) 90x200',
            ("sheets 0 panels 1 y", 209.9):
                '"side #1" and "side #2" share a cell of sheet "1: birch": (10, 10) 90x200 and (10, 209.9) 90x200',
            ("sheets 0 offcuts 0 x", 103):
                '"side #1" and "birch 1-1" are not 3.2 apart on sheet "1: birch": (10, 10) 90x200 and (103, 10) 886.8x480',
            ("kerf", 3.3):
                '"side #1" and "side #2" are not 3.3 apart on sheet "1: birch": (10, 10) 90x200 and (10, 213.2) 90x200',
            ("sheets 1 width", 89.5): '"side #3" is not inside sheet "2: birch" of 89.5x500.5: (0, 0) 90x200',
            ("sheets 1 panels 0 name", "side #1"):
                '"side #1" is placed twice: (10, 10) 90x200 on sheet "1: birch" and (0, 0) 90x200 on sheet "2: birch"',
        })
        path = self.file("a.json", CUT)
        self.assert_sound(path, "4 boxes on 2 sheets", "--padding", 3)
        text = '"side #1" and "side #2" are not 4 apart on sheet "1: birch": (10, 10) 90x200 and (10, 213.2) 90x200'
        self.assert_fault(path, text, "--padding", 4)

    def test_offcuts_of_one_name(self) -> None:
        """Sheets that are cut alike have them. Panels differ by their names."""
        offcut = part("offcut", "birch 1-1", 103.2, 10, 886.8, 480)
        self.assert_sound(self.file("a.json", changed(CUT, "sheets 1 offcuts", [offcut])), "5 boxes on 2 sheets")

    def test_load(self) -> None:
        together = {**LOAD, "together": True}
        self.judge(LOAD, "5 boxes in 2 containers", {
            ("containers 0 steps 1 y", 104.9):
                '"milk #1" and "milk #2" share a cell of container "van 1": (0, 0, 0) 120x105x80 and (0, 104.9, 0) 120x105x80',
            ("containers 1 steps 1 x", 135.3):
                '"paint #2" is not inside container "van 2" of 235.2x239.3x589.8: (135.3, 0, 0) 100x95x120',
            ("containers 1 steps 1 piece", 1):
                '"paint #1" has two sizes: (0, 0, 0) 120x95x100 in container "van 2" and (135.2, 0, 0) 100x95x120 in '
                'container "van 2"',
            ("containers 1 steps 1 customer", "Dairy"):
                '"paint #1" and "paint #2" may not share a container, and are in container "van 2"',
        })
        self.judge(together, "5 boxes in 2 containers", {
            ("containers 0 steps 1 customer", "Paintworks"):
                '"milk #1" and "milk #2" may not share a container, and are in container "van 1"',
            ("containers 1 steps 1 customer", "Dairy"):
                '"milk #1" and "paint #2" belong together, and are in container "van 1" and container "van 2"',
        })

    def test_a_customer_in_two_containers(self) -> None:
        """It may be, where customers are not kept together. They may not share one with those that are apart."""
        both = changed({**LOAD, "apart": []}, "containers 1 steps 1 customer", "Dairy")
        self.assert_sound(self.file("a.json", both), "5 boxes in 2 containers")

    def test_view(self) -> None:
        self.judge(VIEW, "5 boxes in 2 bins", {
            # At that time hat stood there. At the end nothing does.
            ("scenes 0 steps 1 placed 1 at 0", 9):
                '"hat" and "wig" share a cell of bin "page": (0, 0) 10x20 and (9, 8) 10x22',
            ("scenes 0 steps 3 placed 0 at 0", 1):
                '"wig" and "cap" share a cell of bin "page": (10, 8) 10x22 and (1, 5) 10x20',
            ("scenes 0 steps 2 released 0", 1):
                '"hat" and "cap" share a cell of bin "page": (0, 0) 10x20 and (0, 5) 10x20',
            ("scenes 0 steps 3 placed 0 bin", "pages"): '"cap" is in bin "pages", which is not there: (0, 5) 10x20',
            ("scenes 0 steps 3 placed 0 number", 1):
                '"cap" has two sizes: (10, 8) 10x22 in bin "page" and (0, 5) 10x20 in bin "page"',
            ("scenes 1 steps 0 placed 1 at 5", 6): '"rope" is not inside bin "van" of 9x9x9: (0, 0, 4) 9x9x6',
            ("scenes 1 steps 0 placed 1 at 2", 3):
                '"milk" and "rope" share a cell of bin "van": (0, 0, 0) 9x9x4 and (0, 0, 3) 9x9x5',
        })


if __name__ == "__main__":
    unittest.main()
