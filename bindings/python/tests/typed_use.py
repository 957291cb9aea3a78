"""Uses of the module for a type checker, which test_types.py runs. Each line that is marked is wrong, and has to be found."""
from __future__ import annotations

from typing import Optional

from rectangle_pack import (
    AnyHeuristic, Bin, Box, CutNode, CutStep, Fault, FaultKind, Heuristic, Left, Outstanding, Packing, Placement, Progress, Refusal,
    Section, Session, Step, StepRefused, Turn, WrongBoxes, check, least_bins, pack, pack_told, straight_cuts,
)

sheets = {"small": Bin(64, 64), "large": Bin(128, 128)}
sprites = {("hat", 1): Box(10, 20, group="hats"), ("tree", 1): Box(60, 60, group=3)}
groups = {"hats": [("tree", 1)]}

packing: Packing[tuple[str, int], Placement[tuple[str, int], str]] = pack(sheets, sprites, groups=groups, exclude=[("hats", 3)])
heuristic: Optional[Heuristic] = packing.heuristic
asked: AnyHeuristic = heuristic or "best"
hat: tuple[str, int] = packing["hat", 1].name
sheet: str = packing["hat", 1].bin
corners: list[int] = [it.x for it in packing]
index: int = pack([Bin(1, 1)], sprites, heuristic="best")["hat", 1].bin
first: Placement[int, str] = pack(sheets, [Box(1, 1)], groups={"hats": [0]})[0]
listed = pack(sheets, sprites, groups=[[("tree", 1), ("hat", 1)]])["hat", 1]
both: Placement[int, int] = pack([Bin(1, 1)], [Box(1, 1)], heuristic=asked)[0]
fits: Packing[tuple[str, int], Placement[tuple[str, int], str]] = pack(sheets, sprites, groups=groups, partial=True)
left: tuple[Left, ...] = fits.left
left_names: list[str] = [f"{it.name} of {it.group}" for it in pack([Bin(1, 1)], sprites, partial=bool(left)).left]
fitting: list[int] = [it.bin for it in pack([Bin(1, 1)], [Box(1, 1)], partial=True)]
fits_in: list[str] = [it.bin for it in pack(sheets, [Box(1, 1)], partial=True)]

pages = {"page": Bin(64, 64, count=None, cost=3), "more": Bin(64, 64, 1, 5)}


def is_to_go_on(it: Progress) -> bool:
    return it.tries + it.bins + it.cost + it.left_cells < 9


found: Packing[tuple[str, int], Placement[tuple[str, int], str]] = pack(pages, sprites, tries=9, seed=1, turn={("hat", 1): "flat"})
copies: list[int] = [it.copy for it in found]
are_turned: list[bool] = [it.turned for it in pack([Bin(1, 1)], [Box(1, 1)], tries=9, turn=["flat"], progress=is_to_go_on)]
pack(sheets, sprites, tries=9, turn="any", heuristic="best", progress=lambda it: None, partial=True)
pack(sheets, sprites, heuristic=found.heuristic)
is_optimal, least, used = found.optimal, found.least, found.used
needed: Optional[int] = least_bins(pages, sprites, groups=groups, exclude=[("hats", 3)], turn={("hat", 1): "flat"})
fewest: Optional[int] = least_bins([Bin(1, 1)], [Box(1, 1)]) if is_optimal and least == used else needed
try:
    plan: Packing[tuple[str, int], Placement[tuple[str, int], str]] = pack_told(
        sheets, sprites, [("hats", "large"), (3, "small", "height"), Step(3, "small", copy=2)], groups=groups)
    by_indices: Placement[int, int] = pack_told([Bin(1, 1)], [Box(1, 1)], [(0, 0)])[0]
except StepRefused as error:
    reason: Refusal = error.reason
    place: int = error.index
    refused_bin = error.step.bin

pack(sheets, sprites, tries="9")  # type: ignore
pack(sheets, sprites, turn="about")  # type: ignore
pack(sheets, sprites, turn={"hat": "flat"})  # type: ignore
pack(sheets, sprites, progress=is_optimal)  # type: ignore
pack(sheets, sprites, progress=lambda it: it.time)  # type: ignore
Bin(64, 64, count="all")  # type: ignore
found.optimal = True  # type: ignore
least_bins(sheets, sprites, turn=4)  # type: ignore
pack_told(sheets, sprites)  # type: ignore
pack_told(sheets, sprites, [("hats", "large", "best")])  # type: ignore
pack_told(sheets, sprites, ["hats"])  # type: ignore
pack(sheets, sprites, heuristic="weight")  # type: ignore
pack(sheets, sprites, groups={"hats": 3})  # type: ignore
pack(sheets, sprites, exclude=["hats", 3])  # type: ignore
pack({"small": 64}, sprites)  # type: ignore
pack(sheets, sprites, partial="yes")  # type: ignore
pack(sheets, sprites, True)  # type: ignore
fits.left = ()  # type: ignore
left[0].box  # type: ignore
left[0].group = None  # type: ignore
packing["hat"]  # type: ignore
packing.heuristic = "height"  # type: ignore
packing["hat", 1].x = 3  # type: ignore
large: int = packing["hat", 1].bin  # type: ignore
Box("10", 20)  # type: ignore
Box(10, 20, group=["hats"])  # type: ignore

fault: Fault[tuple[str, int], str] | None = check(sheets, sprites, packing, groups=groups, exclude=[("hats", 3)])
turn: Turn = "flat"
if fault is not None and fault.first is not None:
    kind: FaultKind = fault.kind
    where: str = fault.first.bin
check(sheets, sprites, iter(packing), turn=turn)
check([Bin(1, 1)], [Box(1, 1)], [], turn=["flat"])
check(sheets, sprites, packing.placements, turn={("hat", 1): "any"})

check(sheets, sprites, packing, turn="about")  # type: ignore
check(sheets, sprites, sprites)  # type: ignore
check(sheets, sprites)  # type: ignore
check(sheets, sprites, packing, turn={("hat", 1): 4})  # type: ignore

steps: list[CutStep] | None = straight_cuts(Bin(10, 10), [Section(0, 0, 0, 4, 10, 1)])
try:
    straight_cuts(sheets["small"], (it for it in packing if it.bin == "small"))
    straight_cuts(sheets["small"], [hat_place.section for hat_place in packing])
except WrongBoxes as error:
    wrong_box: int = error.first
    other_box: int | None = error.second

straight_cuts("small", packing)  # type: ignore
straight_cuts(sheets, packing)  # type: ignore
straight_cuts(sheets["small"], sprites)  # type: ignore
straight_cuts(sheets["small"], [Box(1, 1)])  # type: ignore
straight_cuts(sheets["small"])  # type: ignore

with Session(sheets) as session:
    standing: Outstanding[tuple[str, int], str] = session.pack(sprites, heuristic="best")["hat", 1]
    number: int = session.pack([Box(1, 1)])[0].number
    fitted: Packing[tuple[str, int], Outstanding[tuple[str, int], str]] = session.pack(sprites, partial=True)
    numbers: list[int] = [it.number for it in session.pack([Box(1, 1)], partial=True)]
    session.pack({name: sprites[name] for name, _ in fitted.left})
    session.release(standing.number)
    searched: Packing[tuple[str, int], Outstanding[tuple[str, int], str]] = session.pack(sprites, tries=9, turn="flat", seed=3)
    searched_for: Packing[int, Outstanding[int, str]] = session.pack([Box(1, 1)], turn=["flat"], progress=is_to_go_on)
    told: Outstanding[tuple[str, int], str] = session.pack_told(sprites, [("hats", "small")], groups=groups)["hat", 1]
    told_numbers: list[int] = [it.number for it in session.pack_told([Box(1, 1)], [(0, "small")])]
    standing_here: list[str] = [it.bin for it in session.outstanding_in("small")]
    session.add_bin("dear", 1, 1, cost=5)
    names: list[str] = session.bins()
    standing_in: list[tuple[str, Section]] = [(it.bin, it.section) for it in session.outstanding()]
    tree = session.cut_tree("small")
    if isinstance(tree, CutNode):
        axis, lower = tree.axis, tree.lower
        height: int = 0 if isinstance(lower, CutNode) else lower.height
        session.grow_bin("small", axis, 3)
    knot: Outstanding[tuple[str, int], str] = session.place_at("small", ("knot", 1), Section(4, 3, 0, 2, 2, 1))
    shelf: Outstanding[str, str] = session.place_best("shelf", 9, 5, bin="small", heuristic="height")
    wall: Outstanding[int, str] = session.place_best(7, 9, 5, 1)
    session.release_all([shelf.number, wall.number])
    session.recut("small")
    session.clear_bin("small")
    session.remove_bin("small")

    session.pack(sprites, turn=["flat"], tries="many")  # type: ignore
    session.pack(sprites, progress=3)  # type: ignore
    session.pack_told(sprites, [("hats",)])  # type: ignore
    session.outstanding_in(7)  # type: ignore
    session.add_bin("dear", 1, 1, cost="5")  # type: ignore
    session.stats(7)  # type: ignore
    session.add_bin(7, 1, 1)  # type: ignore
    session.pack(sprites, heuristic="weight")  # type: ignore
    session.pack(sprites, partial=1.5)  # type: ignore
    fitted.left[0].number  # type: ignore
    session.release("hat")  # type: ignore
    session.grow_bin("small", "width", 3)  # type: ignore
    session.grow_bin("small", "x", "3")  # type: ignore
    session.place_at("small", "knot", Box(2, 2))  # type: ignore
    session.place_best("shelf", "9", 5)  # type: ignore
    session.place_best("shelf", 9, 5, bin=7)  # type: ignore
    session.place_best("shelf", 9, 5, heuristic="best")  # type: ignore
    session.release_all(["hat"])  # type: ignore
    session.recut(7)  # type: ignore
    session.clear_bin(7)  # type: ignore
    session.remove_bin(7)  # type: ignore
    tree.axis  # type: ignore

by_index: Session[int] = Session([Bin(1, 1)])
later = Session[str]()
later.add_bin("sheet", 1, 1)
later.add_bin(7, 1, 1)  # type: ignore
