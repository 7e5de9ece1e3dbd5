"""Which places could serve, and which ones could reach each other, by the log of a nemesis."""

from __future__ import annotations

import bisect
from typing import Dict, FrozenSet, List, NamedTuple, Sequence, Set, Tuple

from .case import LOSSES
from .history import Event

#: A message that is later than this, in milliseconds, is as good as none.
LATE_MS = 100

Pair = Tuple[int, int]


class Reach(NamedTuple):
    """The facts that held during a whole period."""

    #: Places that served, with whole disks that were neither full nor slow
    well: FrozenSet[int]
    #: Places that did nothing: they were paused, or had no process
    dead: FrozenSet[int]
    #: Pairs of places, each in both orders, whose messages were in time, and such that had none in one direction
    linked: FrozenSet[Pair]
    apart: FrozenSet[Pair]

    def can(self, one: int, other: int) -> bool:
        """Returns true if a place could reach another one, which served."""
        return other in self.well and (one, other) in self.linked

    def cannot(self, one: int, other: int) -> bool:
        """Returns true if a place could get nothing done at another one."""
        return other in self.dead or (one, other) in self.apart


class Times:
    """The time of a run, in parts between two changes."""

    def __init__(self, events: Sequence[Event], places: Sequence[int]) -> None:
        self._begins: List[float] = []
        self._reaches: List[Reach] = []
        self._known: Dict[Tuple[int, int], Reach] = {}
        state = _State(places)
        for event in events:
            if state.add(event):
                self._begins.append(event.at)
                self._reaches.append(state.reach())

    def between(self, begin: float, end: float) -> Reach:
        """Returns the facts that held during a whole period."""
        first, last = bisect.bisect(self._begins, begin) - 1, bisect.bisect(self._begins, end)
        if first < 0:
            return Reach(frozenset(), frozenset(), frozenset(), frozenset())
        if (first, last) not in self._known:
            parts = zip(*self._reaches[first:last])
            self._known[first, last] = Reach(*(frozenset.intersection(*sets) for sets in parts))
        return self._known[first, last]


class _State:
    """The faults that are in force."""

    def __init__(self, places: Sequence[int]) -> None:
        self._places = places
        self._running: Set[int] = set()
        self._ready: Set[int] = set()
        self._paused: Set[int] = set()
        self._bad_disks: Set[int] = set()
        #: Places that may not have again what they lost
        self._lossy: Set[int] = set()
        self._dropped: Set[Pair] = set()
        self._late: Set[Pair] = set()

    def add(self, event: Event) -> bool:
        """Adds a deed of the nemesis. Returns false if it changes nothing."""
        place, op = event.place, event.op
        if op == "start":
            self._running.add(place)
        elif op == "ready":
            self._ready.add(place)
        elif op == "life":
            self._ready.discard(place)
        elif op in ("kill", "cut", "end"):
            for them in (self._running, self._ready, self._paused):
                them.discard(place)
        elif op == "pause":
            self._paused.add(place)
        elif op == "resume":
            self._paused.discard(place)
        elif op in ("slow", "full", "failing"):
            self._bad_disks.add(place)
        elif op == "free":
            self._bad_disks.discard(place)
        elif op == "disks":
            self._bad_disks.clear()
        elif op in LOSSES:
            self._lossy.add(place)
        elif op == "work" and event.members.get("settled"):
            self._lossy.clear()
        elif op == "links":
            self._set_links(event)
        else:
            return False
        return True

    def reach(self) -> Reach:
        """Returns the facts now."""
        well = self._ready - self._paused - self._bad_disks - self._lossy
        dead = {place for place in self._places if place not in self._running} | self._paused
        pairs = {(one, other) for one in self._places for other in self._places if one != other}
        linked = {pair for pair in pairs if not {pair, pair[::-1]} & (self._dropped | self._late)}
        apart = {pair for pair in pairs if {pair, pair[::-1]} & self._dropped}
        return Reach(frozenset(well), frozenset(dead), frozenset(linked), frozenset(apart))

    def _set_links(self, event: Event) -> None:
        members = event.members
        self._dropped = {(one, other) for one, other in members.get("drop", ())}
        slow = {int(place) for place, late_ms in members.get("slow", {}).items() if late_ms > LATE_MS}
        self._late = {(one, other) for one, other, _, most_ms in members.get("late", ()) if most_ms > LATE_MS}
        self._late |= {(one, other) for one in slow for other in self._places}
