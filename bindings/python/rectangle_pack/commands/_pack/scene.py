"""The page to look at: a bin after the other, with its boxes."""
from __future__ import annotations

from collections.abc import Iterable
from math import prod

from .._filled import filled_text
from .._scene import Item, Room, Scene, Step
from .packing import Packed

__all__ = ["scene_of"]

# A kind of bins, and which of them it is.
_Home = tuple[int, int]


def _counted(count: int, one: str, many: str) -> str:
    return f"{count} {one if count == 1 else many}"


def _bin_names(packed: Packed, homes: Iterable[_Home]) -> dict[_Home, str]:
    """A name of its own for each bin: the one that the job gives, a number where there are several, and its path where another bin
    has the same name then."""
    names: dict[str, _Home] = {}
    for number, copy in homes:
        kind = packed.job.bins[number]
        name = f"bins[{number}]" if kind.name is None else kind.name
        if kind.bin.count != 1:
            name = f"{name} {copy + 1}"
        while name in names:
            name = f"{name} (bins[{number}])"
        names[name] = number, copy
    return {home: name for name, home in names.items()}


def _items(packed: Packed, names: dict[_Home, str]) -> dict[_Home, list[Item]]:
    """The boxes of each bin."""
    items: dict[_Home, list[Item]] = {home: [] for home in names}
    for number, it in enumerate(packed.packing):
        kind, home = packed.kind_of(it.name), (it.bin, it.copy)
        name = kind.path.removeprefix("$.") if kind.name is None else kind.name
        items[home].append(Item(
            number, name, names[home], (it.x, it.y, it.z), (it.width, it.height, it.depth), str(it.group or ""),
            "turned" if it.turned else ""))
    return items


def scene_of(packed: Packed, title: str) -> Scene:
    """The bins that have a box, and a step for each."""
    packing = packed.packing
    names = _bin_names(packed, sorted({(it.bin, it.copy) for it in packing}))
    sizes = {home: packed.job.bins[home[0]].bin[:3] for home in names}
    steps = []
    for home, items in _items(packed, names).items():
        part = filled_text(sum(prod(it.size) for it in items), prod(sizes[home]))
        steps.append(Step(f"{names[home]}: {_counted(len(items), 'box', 'boxes')}, {part} filled", items))
    facts = [("boxes", str(len(packing))), ("bins", str(packing.used)), ("left", str(len(packing.left)))]
    return Scene(title, [Room(name, sizes[home]) for home, name in names.items()], steps, facts=facts)
