"""Judges a load by the tables and the answer in JSON alone, crate by crate; and tests that the judge finds what is wrong."""
import copy
import csv
import tempfile
import unittest
from collections import Counter
from dataclasses import dataclass
from decimal import Decimal
from itertools import combinations
from pathlib import Path

FACES = ("bottom", "side", "end")


def exact(number):
    """A number of the answer, to the digit."""
    return Decimal(str(number))


def read(path):
    with open(path, newline="", encoding="utf-8") as file:
        return list(csv.DictReader(file))


@dataclass
class Box:
    """A crate of the answer: from where to where it reaches along x, y and z."""

    step: dict
    low: tuple
    high: tuple

    def shares(self, other, axes):
        return all(self.low[axis] < other.high[axis] and other.low[axis] < self.high[axis] for axis in axes)


def box_of(step):
    low = tuple(exact(step[axis]) for axis in "xyz")
    return Box(step, low, tuple(at + exact(step[side]) for at, side in zip(low, ("wide", "high", "long"))))


def faces_of(row):
    """The faces that the list lets be down."""
    words = (row.get("down") or "upright").split()
    return {"any": FACES, "upright": ("bottom",)}.get(words[0], words)


def is_turned_as_allowed(row, step):
    length, width, height = (Decimal(row[side]) for side in ("length", "width", "height"))
    upright, floor = {
        "bottom": (height, [length, width]), "side": (width, [length, height]), "end": (length, [width, height]),
    }[step["down"]]
    sides = sorted((exact(step["wide"]), exact(step["long"])))
    return step["down"] in faces_of(row) and exact(step["high"]) == upright and sides == sorted(floor)


def faults_of_crates(rows, steps):
    """Each line's crates are there, each once, turned as they may be."""
    faults = []
    # The first line of the table names the columns.
    wanted = Counter({(number, piece): 1 for number, row in enumerate(rows, start=2)
                      for piece in range(1, int(row.get("count") or 1) + 1)})
    if Counter((step["line"], step["piece"]) for step in steps) != wanted:
        faults.append("not each crate once")
    for step in steps:
        row = rows[step["line"] - 2]
        if (step["crate"], step["customer"]) != (row["name"], row.get("customer") or ""):
            faults.append("another name")
        if not is_turned_as_allowed(row, step):
            faults.append("turned as it may not be")
    return faults


def faults_of_places(room, boxes):
    """All are inside, and no two share a cell."""
    faults = []
    for box in boxes:
        if not all(0 <= low < high <= side for low, high, side in zip(box.low, box.high, room)):
            faults.append("not inside")
    if any(one.shares(other, range(3)) for one, other in combinations(boxes, 2)):
        faults.append("overlap")
    return faults


def supported(box, boxes):
    """The area of the bottom that is on tops, and the steps of these."""
    area, steps = Decimal(0), []
    for other in boxes:
        if other.high[1] == box.low[1] and other.shares(box, (0, 2)):
            area += (min(box.high[0], other.high[0]) - max(box.low[0], other.low[0])) * (
                min(box.high[2], other.high[2]) - max(box.low[2], other.low[2]))
            steps.append(other.step["step"])
    return area, steps


def faults_of_support(rows, boxes):
    """Each bottom is whole on the floor or on tops, and nothing is on what may not bear it."""
    faults = []
    for box in boxes:
        area, steps = supported(box, boxes)
        bottom = (box.high[0] - box.low[0]) * (box.high[2] - box.low[2])
        if box.low[1] and area != bottom:
            faults.append("not on its whole bottom")
        if box.step["on"] != steps:
            faults.append("on others than it says")
        for number in steps:
            if rows[boxes[number - 1].step["line"] - 2].get("stackable") == "no":
                faults.append("on what may not bear it")
    return faults


def faults_of_loading(boxes):
    """Loads the crates one by one: each goes straight in from the door, at its height and its place across."""
    faults, loaded = [], []
    for number, box in enumerate(boxes, start=1):
        if box.step["step"] != number:
            faults.append("steps are not counted")
        for other in loaded:
            if other.shares(box, (0, 1)) and other.high[2] > box.low[2]:
                faults.append("no way in")
            if other.shares(box, (0, 2)) and other.low[1] >= box.high[1]:
                faults.append("below what stands already")
        if any(on > number for on in box.step["on"]):
            faults.append("on what is not there yet")
        loaded.append(box)
    return faults


def faults_of_customers(answer, apart, together):
    faults, homes = [], {}
    for container in answer["containers"]:
        inside = {step["customer"] for step in container["steps"]}
        if any(set(pair) <= inside for pair in apart):
            faults.append("customers that are apart share a container")
        for customer in inside - {""}:
            homes.setdefault(customer, []).append(container["name"])
    if together and any(len(names) > 1 for names in homes.values()):
        faults.append("a customer is in two containers")
    return faults


def faults_of_weights(rows, containers, answer):
    """What each container carries is no more than it may, and what is said of it is so."""
    faults, payloads = [], {row["name"]: row.get("payload") for row in containers}
    for it in answer["containers"]:
        weight = sum((Decimal(rows[step["line"] - 2].get("weight") or 0) for step in it["steps"]), Decimal(0))
        payload = payloads[it["kind"]]
        if payload and weight > Decimal(payload):
            faults.append("over the payload")
        if it["weight"] is not None and exact(it["weight"]) != weight:
            faults.append("weight is wrong")
        if it["payload"] is not None and exact(it["payload"]) != Decimal(payload):
            faults.append("another payload")
    return faults


def faults_of_sums(rows, containers, answer):
    """The containers are those of the table, not too many, and what is said of them is so."""
    faults, by_name = [], {row["name"]: row for row in containers}
    volume = sum((Decimal(row["length"]) * Decimal(row["width"]) * Decimal(row["height"]) * int(row.get("count") or 1)
                  for row in rows), Decimal(0))
    whole = Decimal(0)
    for it in answer["containers"]:
        row = by_name[it["kind"]]
        room = tuple(exact(it[side]) for side in ("wide", "high", "long"))
        if room != (Decimal(row["width"]), Decimal(row["height"]), Decimal(row["length"])):
            faults.append("another container")
        whole += room[0] * room[1] * room[2]
        if exact(it["length_in_use"]) != max(box_of(step).high[2] for step in it["steps"]):
            faults.append("another length in use")
    used = Counter(it["kind"] for it in answer["containers"])
    if any(count > int(by_name[name].get("count") or 1) for name, count in used.items()):
        faults.append("more containers than there are")
    if len({it["name"] for it in answer["containers"]}) != len(answer["containers"]):
        faults.append("two containers of one name")
    if not 0 <= 100 * volume / whole - exact(answer["filled"]) < Decimal("0.1"):
        faults.append("filled is wrong")
    costs = [by_name[it["kind"]].get("cost") for it in answer["containers"]]
    if answer["cost"] is not None and exact(answer["cost"]) != sum(map(Decimal, costs)):
        faults.append("cost is wrong")
    return faults


def faults_of(crates, containers, answer, apart=(), together=False):
    """All that is wrong with a load."""
    rows = read(crates)
    faults = faults_of_crates(rows, [step for it in answer["containers"] for step in it["steps"]])
    for it in answer["containers"]:
        boxes = [box_of(step) for step in it["steps"]]
        room = tuple(exact(it[side]) for side in ("wide", "high", "long"))
        faults += faults_of_places(room, boxes) + faults_of_support(rows, boxes) + faults_of_loading(boxes)
    rooms = read(containers)
    return (faults + faults_of_customers(answer, apart, together) + faults_of_weights(rows, rooms, answer)
            + faults_of_sums(rows, rooms, answer))


ROWS = (
    "name,count,length,width,height,customer,down,stackable,weight", "plank,2,4,2,1,Miller,upright,,20.5",
    "cube,1,2,2,2,Smith,any,no,9")
ROOMS = "name,count,length,width,height,cost,payload", "van,1,4,2,4,7.5,50"


def step(number, line, piece, place, sides, on=()):
    name, customer = {2: ("plank", "Miller"), 3: ("cube", "Smith")}[line]
    x, y, z = place
    wide, high, long = sides
    return {"step": number, "crate": name, "line": line, "piece": piece, "customer": customer, "x": x, "y": y, "z": z,
            "wide": wide, "high": high, "long": long, "down": "bottom", "on": list(on)}


# Two planks on each other, and a cube on them: 24 of 32.
GOOD = {"cost": 7.5, "filled": 75, "containers": [{
    "name": "van", "kind": "van", "wide": 2, "high": 4, "long": 4, "length_in_use": 4, "weight": 50, "payload": 50,
    "steps": [
        step(1, 2, 1, (0, 0, 0), (2, 1, 4)), step(2, 2, 2, (0, 1, 0), (2, 1, 4), [1]),
        step(3, 3, 1, (0, 2, 1), (2, 2, 2), [2])]}]}


class Judge(unittest.TestCase):
    """The judge finds what is wrong."""

    def setUp(self):
        folder = tempfile.TemporaryDirectory()
        self.addCleanup(folder.cleanup)
        self.tables = []
        for name, lines in (("crates.csv", ROWS), ("containers.csv", ROOMS)):
            self.tables.append(Path(folder.name) / name)
            self.tables[-1].write_text("\n".join(lines), encoding="utf-8")

    def faults(self, change=None, **asked):
        answer = copy.deepcopy(GOOD)
        if change:
            change(answer["containers"][0]["steps"], answer)
        return faults_of(*self.tables, answer, **asked)

    def test_a_good_load_has_no_faults(self):
        self.assertEqual(self.faults(), [])
        self.assertEqual(self.faults(apart=[("Miller", "Other")], together=True), [])

    def test_each_fault_is_found(self):
        changes = {
            "not each crate once": lambda steps, _: steps[1].update(piece=1),
            "another name": lambda steps, _: steps[2].update(customer="Miller"),
            "turned as it may not be": lambda steps, _: steps[0].update(down="side"),
            "not inside": lambda steps, _: steps[2].update(y=3),
            "overlap": lambda steps, _: steps[2].update(y=1),
            "not on its whole bottom": lambda steps, _: steps[2].update(x=0.5),
            "on others than it says": lambda steps, _: steps[2].update(on=[1]),
            "steps are not counted": lambda steps, _: steps[2].update(step=4),
            "below what stands already": lambda steps, _: steps.reverse(),
            "another container": lambda _, answer: answer["containers"][0].update(high=5),
            "another length in use": lambda _, answer: answer["containers"][0].update(length_in_use=3),
            "filled is wrong": lambda _, answer: answer.update(filled=75.1),
            "weight is wrong": lambda _, answer: answer["containers"][0].update(weight=49),
            "another payload": lambda _, answer: answer["containers"][0].update(payload=51),
            "over the payload": lambda steps, _: steps.append(steps[2]),
            "cost is wrong": lambda _, answer: answer.update(cost=7),
        }
        for fault, change in changes.items():
            with self.subTest(fault):
                self.assertIn(fault, self.faults(change))

    def test_what_may_not_bear_bears_nothing(self):
        def swap(steps, answer):
            steps[:] = [step(1, 2, 1, (0, 0, 0), (2, 1, 4)), step(2, 3, 1, (0, 1, 0), (2, 2, 2), [1]),
                        step(3, 2, 2, (0, 3, 0), (2, 1, 4), [2])]

        self.assertEqual(set(self.faults(swap)), {"not on its whole bottom", "on what may not bear it"})

    def test_the_way_in_is_looked_at(self):
        def behind(steps, answer):
            steps[:] = [step(1, 2, 1, (0, 0, 0), (2, 1, 4)), step(2, 2, 2, (0, 1, 0), (2, 1, 4), [1]),
                        step(3, 3, 1, (0, 2, 2), (2, 2, 2), [2])]
            steps.append({**step(4, 3, 2, (0, 2, 0), (2, 2, 2), [2])})
            answer["containers"][0].update(weight=None)
            self.tables[1].write_text(ROOMS[0] + "\nvan,1,4,2,4,7.5,59\n", encoding="utf-8")
            answer["containers"][0].update(payload=59)

        self.assertEqual(set(self.faults(behind)), {"not each crate once", "no way in"})

    def test_customers_are_looked_at(self):
        self.assertEqual(self.faults(apart=[("Smith", "Miller")]), ["customers that are apart share a container"])

        def part(steps, answer):
            answer["containers"].append({**copy.deepcopy(answer["containers"][0]), "name": "other"})

        self.assertIn("a customer is in two containers", self.faults(part, together=True))
        self.assertIn("more containers than there are", self.faults(part))


if __name__ == "__main__":
    unittest.main()
