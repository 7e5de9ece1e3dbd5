"""A run as the rules of its judge see it: by keys, by the versions seen of them, and by the state of disks."""

from __future__ import annotations

import bisect
from dataclasses import dataclass
from typing import Callable, Dict, Iterator, List, NamedTuple, Optional, Sequence, Set, Tuple

from .history import Dump, Event, Get, History, Line, Replica, Version, Write
from .overwrites import Overwrites

#: The cluster's promises: replicas of a range, responses that a read needs, and nodes that have a put.
COPIES, READS, WRITES = 3, 2, 2

#: The nemesis' deeds that take something from a disk.
LOSSES = ("destroy", "damage", "old")

FOREVER = float("inf")

#: Maximum delay in seconds until a node and the log show that its disk is full, or has space again. (A busy node may be
#: later: the log says when it takes puts again.)
LATE_S = 5.0


@dataclass(frozen=True)
class Breach:
    """A broken rule, and the lines that show it."""

    what: str
    lines: Sequence[Line] = ()


Rule = Callable[["Case"], Iterator[Breach]]


class Row(NamedTuple):
    """The versions of a key that a place showed or held, when it was asked between two times."""

    key: str
    place: int
    versions: Tuple[Version, ...]
    begin: float
    end: float
    line: Line


class Case:
    """A run, by its keys."""

    def __init__(self, history: History) -> None:
        self.history = history
        #: Notes of the report
        self.notes: List[str] = []
        self.replicas = history.replicas()
        self.writes: Dict[str, List[Write]] = {}
        self._puts: Dict[Tuple[str, Optional[str]], List[Write]] = {}
        self.gets: Dict[str, List[Get]] = {}
        #: The ranges that hold a key
        self.ranges: Dict[str, Set[int]] = {}
        for write in history.writes:
            self.writes.setdefault(write.key, []).append(write)
            self._puts.setdefault((write.key, write.mark), []).append(write)
        for get in history.gets:
            self.gets.setdefault(get.key, []).append(get)
        for dump in [*history.dumps.values(), *(it.dump for it in history.held)]:
            for number, replica in dump.ranges.items():
                for key in replica.rows:
                    self.ranges.setdefault(key, set()).add(number)
        self.keys = sorted({*self.writes, *self.gets, *self.ranges})
        #: Losses of disks that had more than they have now
        self.losses = [event for event in history.events if event.op in LOSSES]
        self._lost = _lost(history.events)
        self._full = _full(history.events)
        #: Each version of a key that was seen, its clocks, and its first appearance under each of them
        self.versions: Dict[str, Dict[str, Dict[str, Line]]] = {}
        for key, mark, clock, line in self._seen():
            self.versions.setdefault(key, {}).setdefault(mark, {}).setdefault(clock, line)
        self.overwrites = {key: self._overwrites(key, is_certain=False) for key in self.keys}
        #: The same without uncertain overwrites
        self.certain = {
            key: self._overwrites(key, is_certain=True) if self._has_unknown(key) else self.overwrites[key]
            for key in self.keys
        }

    def replicas_of(self, key: str) -> List[Replica]:
        """Returns the replicas of a key's range in the end: none if no node holds the key."""
        return [replica for number in self.ranges.get(key, ()) for replica in self.replicas.get(number, ())]

    def rows_shown(self, key: str) -> List[Row]:
        """Returns the rows of a key that gets showed."""
        return [Row(key, it.by, it.versions, it.begin, it.end, it.line) for it in self.gets.get(key, ())]

    def rows_held(self, key: str) -> Iterator[Row]:
        """Returns the rows of a key that its holders had in the end, and in dumps of single nodes after a kill."""
        for replica in self.replicas_of(key):
            yield _row(replica, key, FOREVER, FOREVER)
        for held in self.history.held:
            for replica in self.held_of(held.dump, key):
                yield _row(replica, key, held.since, held.at)

    def held_of(self, dump: Dump, key: str) -> List[Replica]:
        """Returns the replica of a key's range in a dump, if it has that range."""
        return [dump.ranges[number] for number in self.ranges.get(key, ()) if number in dump.ranges]

    def puts_of(self, key: str, mark: str) -> List[Write]:
        """Returns the puts of a mark."""
        return self._puts.get((key, mark), [])

    def seen(self) -> Iterator[Tuple[str, str, str, Line]]:
        """Returns each version that was seen: its key, its mark, each of its clocks, and its first appearance."""
        for key, versions in self.versions.items():
            for mark, clocks in versions.items():
                for clock, line in clocks.items():
                    yield key, mark, clock, line

    def losses_before(self, place: int, at: float) -> int:
        """Returns the number of losses of a place's disk, and of its further lives, before a time."""
        return bisect.bisect(self._lost.get(place, []), at)

    def has_lost(self, place: int, begin: float, end: float) -> bool:
        """Returns true if a place lost a part of its disk, or began another life, between two times."""
        return self.losses_before(place, begin) != self.losses_before(place, end)

    def was_full(self, place: int, begin: float, end: float) -> bool:
        """Returns true if the disk of a place may have been full at some time between two times."""
        return any(since - LATE_S <= end and begin <= until + LATE_S for since, until in self._full.get(place, ()))

    def _seen(self) -> Iterator[Tuple[str, str, str, Line]]:
        for write in self.history.writes:
            if write.acknowledged and write.mark is not None:
                yield write.key, write.mark, write.clock, write.line
        for get in self.history.gets:
            for version in get.versions:
                yield get.key, version.mark, version.clock, get.line
        for key in self.ranges:
            for row in self.rows_held(key):
                for version in row.versions:
                    yield key, version.mark, version.clock, row.line

    def _overwrites(self, key: str, is_certain: bool) -> Overwrites:
        return Overwrites(self.writes.get(key, ()), self.gets.get(key, ()), is_certain)

    def _has_unknown(self, key: str) -> bool:
        return any(it.mark is None for it in self.writes.get(key, ()))


def shown(replica: Replica, key: str) -> Line:
    """Returns the part of a dump with a replica's versions of a key."""
    row = "; ".join(f"{it.mark} at {it.clock}" for it in replica.rows.get(key, ())) or "nothing"
    return Line(replica.line.file, replica.line.number, f"place {replica.place} holds of {key}: {row}")


def short(line: Line) -> Line:
    """Returns the beginning of a line."""
    return Line(line.file, line.number, line.text[:80])


def _row(replica: Replica, key: str, begin: float, end: float) -> Row:
    return Row(key, replica.place, replica.rows.get(key, ()), begin, end, shown(replica, key))


def _lost(events: Sequence[Event]) -> Dict[int, List[float]]:
    """Returns the times at which each place lost a part of its disk, or began another life."""
    lost: Dict[int, List[float]] = {}
    last: Dict[int, int] = {}
    for event in events:
        if event.op in LOSSES or (event.op == "life" and last.get(event.place, event.life) != event.life):
            lost.setdefault(event.place, []).append(event.at)
        if event.op == "life":
            last[event.place] = event.life
    return lost


def _full(events: Sequence[Event]) -> Dict[int, List[Tuple[float, float]]]:
    """Returns the times between which the disk of each place was full."""
    full: Dict[int, List[Tuple[float, float]]] = {}
    since: Dict[int, float] = {}
    for event in events:
        if event.op == "full":
            since.setdefault(event.place, event.at)
        elif event.op in ("free", "disks"):
            for place in [event.place] if event.op == "free" else list(since):
                if place in since:
                    full.setdefault(place, []).append((since.pop(place), event.at))
        elif event.op == "room" and event.place not in since and event.place in full:
            begin, _ = full[event.place].pop()
            full[event.place].append((begin, event.at))
    for place, at in since.items():
        full.setdefault(place, []).append((at, FOREVER))
    return full
