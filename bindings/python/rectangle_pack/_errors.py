"""Why a call was refused."""
from __future__ import annotations

from collections.abc import Hashable


class PackError(Exception):
    """A call was refused. Nothing was packed, and a session is as it was."""

    text = ""

    def __str__(self) -> str:
        """The text, and behind it what it is about, where that is known."""
        return ": ".join([self.text, *map(repr, self.args)]) if self.args else f"{self.text}."


class NotEnoughBinSpace(PackError):
    """For some group each bin is excluded or does not take all of its boxes, as the groups before it left the bins. With the
    heuristic "best" this is so with each heuristic, and so it is with a search that found no way. With partial such a group is left
    instead. Or no free section holds a box of place_best."""

    text = "Not enough space to place all of the rectangles"


class OutOfMemory(PackError, MemoryError):
    """Memory was refused."""

    text = "Out of memory"


class TooMany(PackError, ValueError):
    """There are 2**32 bins or boxes, or more; or, where a packing is judged, of placements."""

    text = "Too many bins or boxes"


class UnknownHeuristic(PackError, ValueError):
    """There is no heuristic of this name."""

    text = "There is no such heuristic"


class _OfAnother(PackError):
    """What is wrong may be said in something that has a name too: then that is the second argument."""

    owner = ""

    def __str__(self) -> str:
        if len(self.args) < 2:
            return super().__str__()
        name, of = self.args
        return f"{self.text}: {name!r}, of {self.owner} {of!r}"


class UnknownBox(_OfAnother, ValueError):
    """A group names a box that is not packed; or turn names one that is not there."""

    text, owner = "There is no such box", "group"


class UnknownGroup(PackError, ValueError):
    """A group is excluded that neither a box nor the mapping of groups names; or a step names what is no group and no box."""

    text = "There is no such group"


class EqualGroups(PackError, ValueError):
    """A group is excluded with itself."""

    text = "A group is excluded with itself"


class UnknownAxis(PackError, ValueError):
    """There is no axis of this name."""

    text = "There is no such axis"


class UnknownTurn(_OfAnother, ValueError):
    """Boxes cannot be turned in the way of this name."""

    text, owner = "There is no such turn", "box"


class DuplicateBin(PackError):
    """The session has a bin of this name already."""

    text = "The bin is there already"


class UnknownBin(PackError):
    """The session has no bin of this name."""

    text = "There is no such bin"


class UnknownPlacement(PackError):
    """No placement of this number is outstanding in the session."""

    text = "No placement of this number is outstanding"


class NumbersUsedUp(PackError):
    """The numbers of the session's placements would reach 2**64 - 1, which is never given."""

    text = "The numbers of placements are used up"


class BinInUse(PackError):
    """Placements are outstanding in the bin of the session."""

    text = "Placements are outstanding in the bin"


class TooLarge(PackError):
    """A side of the bin would exceed 2**32 - 1."""

    text = "A side of the bin would exceed the greatest number of 32 bits"


class NotFree(PackError):
    """No free section of the bin holds the box there."""

    text = "No free section holds the box there"


class NotFromCuts(PackError):
    """No straight cuts part the boxes that stand in the bin."""

    text = "No straight cuts part the boxes that stand in the bin"


class NotASession(PackError, ValueError):
    """A file is no saved session: it cannot be read as one, or no session has what it says."""

    text = "This is no saved session"

    def __str__(self) -> str:
        return f"{self.text}: {self.args[0]}" if self.args else f"{self.text}."


class naming:
    """Says in an error of these kinds which bin or which placement it is about, or which place."""

    def __init__(
        self, name: Hashable,
        kinds: tuple[type[PackError], ...] = (DuplicateBin, UnknownBin, UnknownPlacement, BinInUse, TooLarge, NotFromCuts),
    ) -> None:
        self._name, self._kinds = name, kinds

    def __enter__(self) -> None:
        pass

    def __exit__(self, kind: object, error: BaseException | None, trace: object) -> None:
        if error is not None and isinstance(error, self._kinds):
            error.args = (self._name,)
