"""Rules of requests: the promises of an acknowledged put, and the versions that a get must show."""

from __future__ import annotations

from typing import Iterator, List, Set

from .case import COPIES, FOREVER, READS, WRITES, Breach, Case
from .history import Get, Write


def puts_are_on_two_nodes(case: Case) -> Iterator[Breach]:
    """An acknowledged put names the different nodes that have it on their disks, at least W."""
    for write in case.history.writes:
        if write.acknowledged and len(set(write.on)) < WRITES:
            yield Breach(f"{write.mark} of {write.key} was acknowledged on {list(write.on)}", [write.line])


def reads_see_what_was_acknowledged(case: Case) -> Iterator[Breach]:
    """A get that began after a put was acknowledged on two of three replicas shows it, or a put that overwrote it."""
    for key, gets in case.gets.items():
        required = _Required(case, key)
        overwrites = case.overwrites[key]
        for get in sorted(gets, key=lambda it: it.begin):
            shown = overwrites.covered(version.mark for version in get.versions)
            for write in required.by(get):
                if not shown & overwrites.bit(write.mark):
                    yield Breach(f"a get of {key} doesn't show {write.mark}", [write.line, get.line])


class _Required:
    """The puts of a key that a get must show, over time. Gets must be in the order of their beginnings.

    A put is dropped once a later one, on all disks that have it, overwrote it.
    """

    def __init__(self, case: Case, key: str) -> None:
        self._overwrites = case.overwrites[key]
        self._replicas = {replica.place for replica in case.replicas_of(key)}
        self._losses = case.losses
        writes = (it for it in case.writes.get(key, ()) if it.acknowledged and it.mark is not None)
        self._next = sorted(writes, key=lambda it: it.end, reverse=True)
        self._current: List[Write] = []

    def by(self, get: Get) -> List[Write]:
        """Returns the puts that a get must show."""
        while self._next and self._next[-1].end < get.begin:
            self._add(self._next.pop())
        return [it for it in self._current if len(self._disks(it, get.end)) + READS > COPIES]

    def _add(self, write: Write) -> None:
        disks, overwritten = self._disks(write, FOREVER), self._overwrites.overwritten(write.mark)
        self._current = [
            it
            for it in self._current
            if not (self._overwrites.bit(it.mark) & overwritten and self._disks(it, 0.0) <= disks)
        ]
        self._current.append(write)

    def _disks(self, write: Write, until: float) -> Set[int]:
        """Returns the replicas that have a put, except those whose disks lost something since it began."""
        lost = {event.place for event in self._losses if write.begin <= event.at <= until}
        return self._replicas.intersection(write.on) - lost
