"""The handle of a session: how its calls are made."""
from __future__ import annotations

import ctypes
import functools
import threading
import weakref
from collections.abc import Callable
from itertools import islice
from typing import Any, TypeVar, cast

from . import _library

_Method = TypeVar("_Method", bound=Callable[..., Any])


def alone(method: _Method) -> _Method:
    """Has a call of a session's method wait until no other thread calls one of the same session."""
    @functools.wraps(method)
    def waiting(self: Handle, *arguments: Any, **named: Any) -> Any:
        with self._lock:
            return method(self, *arguments, **named)

    return cast(_Method, waiting)


class Handle:
    """A session of the library, and what the calls with it share."""

    def __init__(self) -> None:
        self._handle = _library.RpSession()
        # Only one thread at a time may call the library with the handle.
        self._lock = threading.RLock()
        # How long the list was that each call wrote last.
        self._lengths: dict[str, int] = {}
        _library.check(_library.call("session_new", self._handle))
        self._keep()

    def _keep(self) -> None:
        """From now on the handle has a session, which is to be freed."""
        self._free = weakref.finalize(self, _library.call, "session_free", self._handle)
        # At the end of the process all memory goes anyway.
        self._free.atexit = False

    def _restore(self, saved: _library.RpSaved, wrong: _library.RpWrong) -> int:
        """Makes a session of saved parts in place of the one that is there, and answers the status."""
        self._free()
        status = _library.call("session_restore", self._handle, saved, wrong)
        if not status:
            self._keep()
        return status

    @alone
    def close(self) -> None:
        """Gives the memory back. To close a session again does nothing."""
        self._free()

    def _check_open(self) -> None:
        if not self._free.alive:
            raise ValueError("the session is closed")

    def _call(self, name: str, *arguments: object) -> None:
        self._check_open()
        _library.check(_library.call(f"session_{name}", self._handle, *arguments))

    def _ask(self, name: str, kind: type[_library.Entry], *arguments: object) -> tuple[int, list[tuple[int, ...]]]:
        """The status of a call that writes a list, and the list, each entry as its numbers. A list is most often as long as it
        was, so that one call is enough; where it is longer, the call has said how long, and is made again."""
        self._check_open()
        count, status = ctypes.c_size_t(self._lengths.get(name, 0)), _library.SHORT_ARRAY
        while status == _library.SHORT_ARRAY:
            length = count.value
            room, first = _library.room_of(kind, length)
            status = _library.call(f"session_{name}", self._handle, *arguments, first, length, count)
        if status:
            return status, []
        self._lengths[name] = count.value
        return status, [*islice(_library.row_of(kind).iter_unpack(room), count.value)]

    def _read(self, name: str, kind: type[_library.Entry], *arguments: object) -> list[tuple[int, ...]]:
        status, rows = self._ask(name, kind, *arguments)
        _library.check(status)
        return rows
