"""What the commands of this program print with --json."""
from __future__ import annotations

from collections.abc import Hashable, Iterator

from .._scale import MOST
from .layout import NONE, ONE, Bin, Claim, Layout, Told, Triple, without_aliases
from .values import Value

__all__ = ["cut", "load", "sheet", "view"]


def _flat(it: Value) -> tuple[Triple, Triple]:
    """The corner and the size of what lies flat."""
    x, y = it.numbers("x", "y", least=-MOST)
    width, height = it.numbers("width", "height")
    return (x, y, NONE), (width, height, ONE)


def sheet(root: Value) -> Told:
    """The pages of sheet, which names them by their indices."""
    bins: dict[Hashable, Bin] = {}
    for index, page in enumerate(root["pages"].items()):
        width, height = page.numbers("width", "height")
        bins[index] = Bin(page["image"].text(), (width, height, ONE))
    claims = [
        Claim(it["name"].text(), it["name"].text(), it["page"].number(), *_flat(it)) for it in root["sprites"].items()]
    return Told.of("page", Layout(bins, without_aliases(claims)))


def cut(root: Value) -> Told:
    """The sheets of cut, with panels and offcuts. Between two of them the blade goes through."""
    bins: dict[Hashable, Bin] = {}
    claims = list[Claim]()
    for index, it in enumerate(root["sheets"].items()):
        width, height = it.numbers("width", "height")
        bins[index] = Bin(f"{it['number'].name()}: {it['name'].text()}", (width, height, ONE))
        for part in (*it["panels"].items(), *it["offcuts"].items()):
            name, role = part["name"].text(), part["role"].text()
            # Offcuts of sheets that are cut alike have one name.
            claims.append(Claim(name, (role, name, index if role == "offcut" else None), index, *_flat(part)))
    return Told.of("sheet", Layout(bins, claims, root["kerf"].number()))


def _crate(step: Value, container: int, together: bool) -> Claim:
    """A crate. Those of a customer are one group in each container, or in all where they are kept together."""
    name, piece, customer = step["crate"].text(), step["piece"].name(), step["customer"].text()
    x, y, z = step.numbers("x", "y", "z", least=-MOST)
    wide, high, long = step.numbers("wide", "high", "long")
    group = (customer, None if together else container) if customer else None
    box = step["line"].name(), piece
    return Claim(f"{name} #{piece}", box, container, (x, y, z), (wide, high, long), group=group)


def load(root: Value) -> Told:
    """The containers of load. Customers that are apart may not share one."""
    bins: dict[Hashable, Bin] = {}
    claims, together = list[Claim](), root["together"].truth()
    for index, it in enumerate(root["containers"].items()):
        wide, high, long = it.numbers("wide", "high", "long")
        bins[index] = Bin(it["name"].text(), (wide, high, long))
        claims += [_crate(step, index, together) for step in it["steps"].items()]
    excluded = list[tuple[Hashable, Hashable]]()
    for pair in root["apart"].items():
        one, other = (it.text() for it in pair.parts(2))
        if one == other:
            raise pair.wrong("names one customer twice")
        excluded += [((one, it), (other, it)) for it in ([None] if together else bins)]
    return Told.of("container", Layout(bins, claims, excluded=excluded))


def _item(it: Value) -> Claim:
    """A box of a scene, which has a number of its own."""
    at = it["at"].parts(6)
    x, y, z = (side.number(-MOST) for side in at[:3])
    width, height, depth = (side.number() for side in at[3:])
    return Claim(it["name"].text(), it["number"].name(), it["bin"].text(), (x, y, z), (width, height, depth))


def _moments(scene: Value) -> Iterator[list[Claim]]:
    """What stands before boxes are released, each time, and what stands at the end."""
    standing, is_new = list[Claim](), True
    for step in scene.list_of("steps"):
        gone = {it.name() for it in step.list_of("released")}
        if gone:
            if is_new:
                yield list(standing)
            standing, is_new = [it for it in standing if it.box not in gone], False
        placed = [_item(it) for it in step.list_of("placed")]
        standing += placed
        is_new |= bool(placed)
    yield standing


def view(root: Value) -> Told:
    """The scenes of view. At no time two boxes that stand share a cell."""
    layouts, boxes, count = list[Layout](), 0, 0
    for scene in root["scenes"].items():
        bins: dict[Hashable, Bin] = {}
        for room in scene.list_of("rooms"):
            width, height, depth = (side.number() for side in room["size"].parts(3))
            name = room["name"].text()
            bins[name] = Bin(name, (width, height, depth))
        moments = list(_moments(scene))
        layouts += [Layout(bins, moment) for moment in moments]
        boxes += len({it.box for moment in moments for it in moment})
        count += len(bins)
    return Told("bin", layouts, boxes, count)
