"""Scenes as JSON, for the page and for programs; and back.

A scene is an object with `title`, `unit`, `facts`, `rooms`, `steps` and `cuts`, as in _scene.py. What is empty is left out. A
part is a list of six numbers: corner and size. What is free in a bin is told as a change of what was told last of this bin: the
indices that are gone, and the parts that follow. A number that is too great for a program that reads all numbers as floats is a
text. So are the numbers of a cut, as they are written in its step."""
from __future__ import annotations

from collections.abc import Iterable, Sequence
from typing import Any

from .._sawing import Piece, SawStep
from .._scene import Item, Part, PartCut, Room, Scene, Step

__all__ = ["from_json", "to_json"]

# The greatest whole number up to which floats have all.
EXACT = 2**53

Json = dict[str, Any]


def _filled(values: Json) -> Json:
    """The values that are not empty. The corner of a box and the text of a step are never left out."""
    return {name: value for name, value in values.items() if value or name == "text"}


def _flat(part: Part) -> list[int]:
    return [*part[0], *part[1]]


def _part(flat: Sequence[int]) -> Part:
    x, y, z, width, height, depth = flat
    return (x, y, z), (width, height, depth)


def _number(number: int) -> int | str:
    return number if number < EXACT else str(number)


def _item_to_json(it: Item) -> Json:
    where = {"number": _number(it.number), "name": it.name, "bin": it.bin, "at": [*it.at, *it.size]}
    return {**where, **_filled({"group": it.group, "note": it.note})}


def _item_from_json(it: Json) -> Item:
    return Item(int(it["number"]), it["name"], it["bin"], *_part(it["at"]), it.get("group", ""), it.get("note", ""))


def _room_to_json(room: Room) -> Json:
    return {"name": room.name, "size": [*room.size], **_filled({"image": room.image, "since": room.since})}


def _room_from_json(room: Json) -> Room:
    width, height, depth = room["size"]
    return Room(room["name"], (width, height, depth), room.get("image", ""), room.get("since", 0))


def _change(old: Sequence[Part], new: Sequence[Part]) -> Json:
    """What leads from one list to the other. Most often parts leave the list, and new ones stand at its end."""
    staying = set(new)
    gone = [index for index, part in enumerate(old) if part not in staying]
    kept = [part for part in old if part in staying]
    if kept != new[:len(kept)]:
        gone, kept = list(range(len(old))), []
    return _filled({"gone": gone, "new": [_flat(part) for part in new[len(kept):]]})


def _changed(old: Sequence[Part], change: Json) -> list[Part]:
    gone = set(change.get("gone", ()))
    return [part for index, part in enumerate(old) if index not in gone] + [_part(flat) for flat in change.get("new", ())]


def _steps_to_json(steps: Iterable[Step]) -> list[Json]:
    known: dict[str, Sequence[Part]] = {}
    made = []
    for step in steps:
        free = {name: _change(known.get(name, ()), list(parts)) for name, parts in step.free.items()}
        known.update((name, list(parts)) for name, parts in step.free.items())
        made.append(_filled({
            "text": step.text, "placed": [_item_to_json(it) for it in step.placed],
            "released": [_number(number) for number in step.released], "free": free,
            "answer": list(step.answer), "refused": step.refused, "note": step.note,
        }))
    return made


def _steps_from_json(steps: Iterable[Json]) -> list[Step]:
    known: dict[str, list[Part]] = {}
    made = []
    for step in steps:
        free = {name: _changed(known.get(name, []), change) for name, change in step.get("free", {}).items()}
        known.update(free)
        placed, released = [_item_from_json(it) for it in step.get("placed", ())], [int(it) for it in step.get("released", ())]
        answer, refused, note = step.get("answer", []), step.get("refused", False), step.get("note", "")
        made.append(Step(step["text"], placed, released, free, answer, refused, note))
    return made


def _piece_to_json(it: Piece) -> Json:
    return _filled({"role": it.role, "name": it.name, "width": it.width, "height": it.height, "turned": it.is_turned})


def _piece_from_json(it: Json) -> Piece:
    return Piece(it["role"], it.get("name", ""), it["width"], it["height"], it.get("turned", False))


def _cut_to_json(cut: PartCut) -> Json:
    it = cut.step
    step = _filled({
        "number": it.number, "piece": _piece_to_json(it.piece), "axis": it.axis, "at": it.at, "kerf": it.kerf,
        "leaves": [_piece_to_json(piece) for piece in it.leaves], "edge": it.edge, "off": it.off,
    })
    return {"step": step, "blade": [*cut.blade], "part": _flat(cut.part)}


def _cut_from_json(cut: Json) -> PartCut:
    it, (near, far) = cut["step"], cut["blade"]
    leaves = [_piece_from_json(piece) for piece in it["leaves"]]
    step = SawStep(
        it["number"], _piece_from_json(it["piece"]), it["axis"], it.get("at", ""), it["kerf"], leaves, it.get("edge", ""),
        it.get("off", ""))
    return PartCut(step, (near, far), _part(cut["part"]))


def _check(scene: Scene) -> None:
    """Raises ValueError where the scene of a command says what cannot be: so that no page is written that shows nothing."""
    names = {room.name for room in scene.rooms}
    if len(names) < len(scene.rooms):
        raise ValueError("two bins have one name")
    standing: set[int] = set()
    for step in scene.steps:
        standing.difference_update(step.released)
        for it in step.placed:
            if it.bin not in names or it.number in standing:
                raise ValueError(f"box {it.name!r} has a bin that is not there, or the number of another box")
            standing.add(it.number)
    if not {*scene.cuts, *(name for step in scene.steps for name in step.free)} <= names:
        raise ValueError("cuts or free sections are of a bin that is not there")


def to_json(scene: Scene) -> Json:
    """The scene as JSON has it. Raises ValueError where it names a bin that is not there, or two things alike."""
    _check(scene)
    return {"title": scene.title, "unit": scene.unit, **_filled({
        "facts": [list(fact) for fact in scene.facts],
        "rooms": [_room_to_json(room) for room in scene.rooms],
        "steps": _steps_to_json(scene.steps),
        "cuts": {name: [_cut_to_json(cut) for cut in cuts] for name, cuts in scene.cuts.items()},
    })}


def from_json(value: Json) -> Scene:
    """The scene that to_json has made this of."""
    cuts = {name: [_cut_from_json(cut) for cut in cuts] for name, cuts in value.get("cuts", {}).items()}
    facts = [(what, how) for what, how in value.get("facts", ())]
    rooms = [_room_from_json(room) for room in value.get("rooms", ())]
    return Scene(value["title"], rooms, _steps_from_json(value.get("steps", ())), cuts, value["unit"], facts)
