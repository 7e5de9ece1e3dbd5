"""Rules of nodes: their work in a run, and their state in the end."""

from __future__ import annotations

import signal
from typing import Iterator, Set

from .case import COPIES, Breach, Case, short, shown
from .history import BY_HINTS, BY_ROUNDS, Replica

#: Maximum number of keys that a breach shows.
MOST_SHOWN = 5


def run_came_to_rest(case: Case) -> Iterator[Breach]:
    """In the end each place was dumped, no hint was pending, and each range was at its three places.

    Hints stay pending in a run by rounds.
    """
    places = sorted({event.place for event in case.history.events if event.op == "start"})
    ends = [event for event in case.history.events if event.op in ("quiet", "settled", "unsettled")]
    if not ends or ends[-1].op != "settled":
        yield Breach("the cluster didn't settle", [it.line for it in ends[-1:]])
    for place in places:
        dump = case.history.dumps.get(place)
        if dump is None:
            yield Breach(f"place {place} wasn't dumped")
        elif dump.pending and case.history.mode != BY_ROUNDS:
            yield Breach(f"place {place} has {dump.pending} hints pending", [short(dump.line)])
    for number, replicas in sorted(case.replicas.items()):
        wanted = sorted(places[(number + step) % len(places)] for step in range(COPIES))
        found = [replica.place for replica in replicas]
        if found != wanted:
            yield Breach(f"range {number} is at the places {found}, and not {wanted}")
    for key, ranges in case.ranges.items():
        if len(ranges) > 1:
            yield Breach(f"{key} is in the ranges {sorted(ranges)}")


def replicas_are_equal(case: Case) -> Iterator[Breach]:
    """The replicas of a range have equal roots and equal rows.

    Hints are only of acknowledged puts, so a run by hints isn't judged: other puts may be at one replica.
    """
    if case.history.mode == BY_HINTS:
        return
    for number, replicas in sorted(case.replicas.items()):
        for other in replicas[1:]:
            keys = [key for key in {**replicas[0].rows, **other.rows} if _differ(replicas[0], other, key)]
            if replicas[0].root != other.root or keys:
                rows = [shown(it, key) for key in keys[:MOST_SHOWN] for it in (replicas[0], other)]
                roots = "equal" if replicas[0].root == other.root else "different"
                what = f"range {number} at the places {replicas[0].place} and {other.place}: {roots} roots"
                yield Breach(f"{what}, {len(keys)} different keys", rows)


def nodes_end_when_they_are_ended(case: Case) -> Iterator[Breach]:
    """A node ends only if it is killed, or a sync of its disk fails."""
    failing: Set[int] = set()
    for event in case.history.events:
        if event.op == "start":
            failing.discard(event.place)
        elif event.op == "failing":
            failing.add(event.place)
        elif event.op == "end" and event.status != -signal.SIGKILL and event.place not in failing:
            yield Breach(f"the node of place {event.place} ended by itself", [event.line])


def what_was_expected_held(case: Case) -> Iterator[Breach]:
    """The nemesis' expectations of nodes, after faults of their disks, were met in time."""
    for event in case.history.events:
        if event.op == "expect" and not event.met:
            yield Breach(f"it isn't so that {event.what}", [event.line])


def background_work_has_slots(case: Case) -> Iterator[Breach]:
    """No node asks another one for an offer, or delivers hints to it, without a slot."""
    for event in case.history.events:
        if event.op == "unslotted":
            yield Breach(f"place {event.place} asked for {event.what} without a slot", [event.line])


def _differ(a: Replica, b: Replica, key: str) -> bool:
    return sorted(map(repr, a.rows.get(key, ()))) != sorted(map(repr, b.rows.get(key, ())))
