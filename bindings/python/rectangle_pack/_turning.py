"""How boxes may be turned: words become the numbers that the library knows."""
from __future__ import annotations

from collections.abc import Hashable, Iterable, Mapping, Sequence
from typing import Any

from ._errors import UnknownBox, UnknownTurn
from ._types import Turning

# The library's numbers add up: by 1 height and depth may change places, by 2 width and depth, by 4 width and height.
_TURNS: Mapping[str, int] = {"none": 0, "flat": 4, "upright": 2, "any": 1 + 2 + 4}


def _number_of(turn: str, *box: Hashable) -> int:
    """The number of a turn, of one box or of all."""
    try:
        return _TURNS[turn]
    except (KeyError, TypeError):
        raise UnknownTurn(turn, *box) from None


def turn_numbers(names: Iterable[Any], turn: Turning[Any]) -> dict[Any, int]:
    """For each box, by its name, the number of how it may be turned. Raises UnknownTurn or UnknownBox."""
    if isinstance(turn, str) or not isinstance(turn, Iterable):
        return dict.fromkeys(names, _number_of(turn))
    turns = dict.fromkeys(names, 0)
    for name, it in turn.items() if isinstance(turn, Mapping) else enumerate(turn):
        if name not in turns:
            raise UnknownBox(name)
        turns[name] = _number_of(it, name)
    return turns


def turns_in_order(names: Sequence[Any], turn: Turning[Any]) -> list[int]:
    """The same as a list, in the order of the boxes."""
    turns = turn_numbers(names, turn)
    return [turns[name] for name in names]
