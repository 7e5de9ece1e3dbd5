"""Rules of lives: their begin and end, and that a lost life puts nothing."""

from __future__ import annotations

from typing import Dict, Iterable, Iterator, Set

from .case import LOSSES, Breach, Case, short
from .history import Event, clock_pairs
from .places import INCARNATION, MOST_INCARNATIONS


def lives_are_used_once(case: Case) -> Iterator[Breach]:
    """A life's number belongs to its place, and is begun once: a start continues it, or has a greater one.

    An empty disk has a new life. In the end each node has the last life of its place, and no clock has another one.
    """
    last: Dict[int, int] = {}
    begun: Set[int] = set()
    emptied: Set[int] = set()
    may_go_on: Set[int] = set()
    for event in case.history.events:
        if event.op == "start" and event.place not in emptied:
            may_go_on.add(event.place)
        elif event.op == "destroy":
            emptied.add(event.place)
            may_go_on.discard(event.place)
        elif event.op == "life":
            yield from _begins(event, last.get(event.place, 0), event.place in may_go_on)
            last[event.place] = event.life
            begun.add(event.life)
            may_go_on.discard(event.place)
            emptied.discard(event.place)
    for dump in case.history.dumps.values():
        if last.get(dump.place) != dump.life:
            yield Breach(f"place {dump.place} has the life {dump.life}", [short(dump.line)])
    for key, mark, clock, line in case.seen():
        if any(life not in begun for life, _ in clock_pairs(clock)):
            yield Breach(f"{mark} of {key} has a clock of a life that never began: {clock}", [line])


def lives_end_with_a_loss(case: Case) -> Iterator[Breach]:
    """A place has a new life only if its disk has lost something: no kill and no power cut ends a life."""
    last: Dict[int, int] = {}
    lossy: Set[int] = set()
    for event in case.history.events:
        if event.op in LOSSES:
            lossy.add(event.place)
        elif event.op == "life" and last.get(event.place) != event.life:
            if event.place in last and event.place not in lossy:
                yield Breach(f"the life {last[event.place]} ended, and its disk had lost nothing", [event.line])
            last[event.place] = event.life
            lossy.discard(event.place)


def lost_lives_put_nothing(case: Case) -> Iterator[Breach]:
    """A life that ended because its disk was lost, damaged or old puts nothing after that.

    Such a put began later, and has a counter of this life above all that the key had before. A tombstone of an unknown
    delete may be from before.
    """
    for loss in case.losses:
        if not _has_ended(case, loss):
            continue
        for key, versions in case.versions.items():
            begins = {it.mark: it.begin for it in case.writes.get(key, ())}
            later = {mark for mark in versions if begins.get(mark, 0.0) > loss.at}
            top = max((_counter(versions[mark], loss.life) for mark in versions if mark not in later), default=0)
            for mark in later:
                if _counter(versions[mark], loss.life) > top:
                    what = f"the life {loss.life} put {mark} of {key} after its disk was lost"
                    yield Breach(what, [loss.line, *(it.line for it in case.writes[key] if it.mark == mark)])


def _begins(event: Event, last: int, may_go_on: bool) -> Iterator[Breach]:
    """Returns the faults of the life that a node has begun or continued."""
    incarnation, place = divmod(event.life, INCARNATION)
    if place != event.place or not 1 <= incarnation <= MOST_INCARNATIONS:
        yield Breach(f"the life {event.life} isn't one of place {event.place}", [event.line])
    elif event.life < last:
        yield Breach(f"place {event.place} went back from the life {last} to {event.life}", [event.line])
    elif event.life == last and not may_go_on:
        yield Breach(f"the life {event.life} began twice", [event.line])


def _has_ended(case: Case, loss: Event) -> bool:
    """Returns true if the next lives of a place, until its next loss, show that it gave up its life."""
    later = [it for it in case.history.events if it.place == loss.place and it.at > loss.at]
    until = next((it.at for it in later if it.op in LOSSES), float("inf"))
    return any(it.op == "life" and it.life != loss.life for it in later if it.at < until)


def _counter(clocks: Iterable[str], life: int) -> int:
    """Returns the greatest counter of a life in clocks."""
    return max((counter for clock in clocks for it, counter in clock_pairs(clock) if it == life), default=0)
