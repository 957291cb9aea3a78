"""Lines as crates/session_lines has them, obeyed by a session of the library for C."""
from __future__ import annotations

import ctypes
import itertools
from typing import Any

from answers_in_c import Obeying, bound, corner, fitted, searched, sides
from asked_in_c import Numbers, c, call, empty
from searches_in_c import IN_SESSION, Search, find
from what_fits import words

UNKNOWN_BIN = 5
LEFT_NUMBER = 2**64 - 1


class InSession(Obeying):
    """A session of the library for C."""

    def __init__(self, seed: int = 0) -> None:
        super().__init__(seed)
        self.session = c.RpSession()
        c.check(call("session_new", self.session))
        self.ids: set[int] = set()
        self.numbers: list[int] = []

    def close(self) -> None:
        call("session_free", self.session)

    def done(self, name: str, *numbers: object) -> str:
        """1 where the call of this name is done, else 0."""
        return str(int(call(name, self.session, *numbers) == 0))

    def next(self) -> int:
        return call("session_next_number", self.session)

    def bin(self, *size: int) -> str:
        id = next(id for id in itertools.count() if id not in self.ids)
        c.check(call("session_add_bin", self.session, id, *size))
        self.ids.add(id)
        return str(id)

    # What packs or places.

    def pack(self, heuristic: int) -> str:
        asked, chosen = self.ends(), ctypes.c_uint32()
        places = empty(c.RpOutstanding, asked.count())
        status = call("session_pack_collection", self.session, asked.collection(), heuristic, places, asked.count(), chosen)
        if status == c.NOT_ENOUGH_SPACE:
            return "-1"
        c.check(status)
        return str(chosen.value)

    def fitting(self, heuristic: int) -> str:
        asked, told, first = self.ends(), c.RpFitted(), self.next()
        places = empty(c.RpOutstanding, asked.count())
        c.check(call("session_pack_fitting", self.session, asked.collection(), heuristic, places, asked.count(), told))
        left = [entry for entry in range(asked.count()) if places[entry].number == LEFT_NUMBER]
        return fitted(asked, told, left, first)

    def told(self) -> str:
        asked, refused, first = self.ends(), c.RpRefused(), self.next()
        places = empty(c.RpOutstanding, asked.count())
        status = call("session_pack_told", self.session, asked.collection(), *asked.told(), places, asked.count(), refused)
        if status == c.STEP_REFUSED:
            return words([-1, refused.step, refused.fault])
        c.check(status)
        return words([first, sum(places[entry].number != LEFT_NUMBER for entry in range(asked.count()))])

    def search(self, tries: int, seed: int, may_leave: int) -> str:
        asked, first = self.ends(), self.next()
        found = find(Search(IN_SESSION, (self.session,), asked, (tries, seed, may_leave)), self.r)
        return searched(asked, found, [entry for entry, it in enumerate(found.places) if it.number == LEFT_NUMBER], first)

    def least(self) -> str:
        return bound(self.ends(), self.sizes())

    def sizes(self) -> list[Numbers]:
        """Of the bins, in the order of their ids."""
        _, ids = self.read("session_bins", c.BinId)
        sizes = [c.RpBin() for _ in ids]
        for it, size in zip(ids, sizes):
            c.check(call("session_bin_size", self.session, it.bin, size))
        return [sides(it) for it in sizes]

    def place(self, bin: int, x: int, y: int, z: int) -> str:
        width, height, depth, _ = self.ends().first_box()
        number = ctypes.c_uint64()
        status = call("session_place_at", self.session, bin, c.RpSection(x, y, z, width, height, depth), number)
        return "-1" if status else str(number.value)

    def fit(self, bin: int, heuristic: int) -> str:
        return self.best_place("session_place_best", bin, heuristic=heuristic)

    def find(self, heuristic: int) -> str:
        return self.best_place("session_place_best_anywhere", heuristic=heuristic)

    def best_place(self, name: str, *bin: int, heuristic: int) -> str:
        place = c.RpOutstanding()
        status = call(name, self.session, *bin, c.RpBox(*self.ends().first_box()), heuristic, place)
        at = place.placement
        return "-1" if status else words([place.number, at.bin, at.x, at.y, at.z])

    # What keeps the bins.

    def number(self, number: int) -> None:
        self.numbers.append(number)

    def releases(self) -> str:
        numbers, self.numbers = self.numbers, []
        array = (ctypes.c_uint64 * max(len(numbers), 1))(*numbers)
        return self.done("session_release_all", array, len(numbers))

    def release(self, number: int) -> str:
        return self.done("session_release", number)

    def join(self, bin: int, index: int, low: int, high: int) -> str:
        return self.done("session_coalesce", bin, index, low, high)

    def sweep(self, bin: int) -> str:
        return self.done("session_coalesce_all", bin)

    def clear(self, bin: int) -> str:
        return self.done("session_clear_bin", bin)

    def remove(self, bin: int) -> str:
        done = self.done("session_remove_bin", bin)
        self.ids -= {bin} if done == "1" else set()
        return done

    def grow(self, bin: int, axis: int, by: int) -> str:
        return self.done("session_grow_bin", bin, axis, by)

    def recut(self, bin: int) -> str:
        return self.done("session_recut", bin)

    # What reads.

    def read(self, name: str, kind: type[c.Entry], *arguments: object) -> tuple[int, list[Any]]:
        """The status of a call that writes a list, and the list."""
        count, array = ctypes.c_size_t(), empty(kind, 0)
        status = call(name, self.session, *arguments, array, 0, count)
        if status == c.SHORT_ARRAY:
            array = empty(kind, count.value)
            status = call(name, self.session, *arguments, array, count.value, count)
        return status, list(array[:count.value])

    def plan(self, bin: int) -> str:
        status, steps = self.read("session_cut_plan", c.RpCutStep, bin)
        if status in (c.NO_PLAN, UNKNOWN_BIN):
            return "-1"
        c.check(status)
        return words(itertools.chain(*((step.axis, step.place) for step in steps)))

    def free(self, bin: int) -> str:
        status, sections = self.read("session_free_sections", c.RpSection, bin)
        if status != UNKNOWN_BIN:
            c.check(status)
        return words(itertools.chain(*((*corner(it), *sides(it)) for it in sections)))

    def placed(self) -> str:
        return self.shown("session_outstanding")

    def placed_in(self, bin: int) -> str:
        return self.shown("session_outstanding_in", bin)

    def shown(self, name: str, *bin: int) -> str:
        status, rows = self.read(name, c.RpStanding, *bin)
        if status == UNKNOWN_BIN:
            return "-1"
        c.check(status)
        return words(itertools.chain(*((it.number, it.index, it.bin, *corner(it.section)) for it in rows)))

    @property
    def standing(self) -> list[Numbers]:
        """The entry, the bin, the corner and the sides of each box that stands."""
        _, rows = self.read("session_outstanding", c.RpStanding)
        return sorted((it.index, it.bin, *corner(it.section), *sides(it.section)) for it in rows)
