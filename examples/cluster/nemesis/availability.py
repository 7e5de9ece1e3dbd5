"""The rules of availability: a request is served while the nodes that it needs are in reach, and many are judged."""

from __future__ import annotations

import bisect
import functools
from typing import Dict, FrozenSet, Iterable, Iterator, List, Tuple

from .case import Breach, Case
from .history import History, Request
from .reach import Reach, Times

#: Seconds before a request, and after its answer, in which nothing that it needs may change. Nodes find out in these
#: seconds what has changed before, and the log may be late.
BEFORE_S, AFTER_S = 3.0, 0.5

#: One of this number of requests may be refused, and this number in all: the machine is busy.
ONE_OF, LEAST = 100, 5

#: One of this number of requests at least could be served, in a run with so many.
JUDGED_OF, MANY = 5, 1000

#: The share of the requests that must have been made while the machine wasn't late. Otherwise they may all have been
#: made during faults.
TIMELY = 0.75

#: Statuses with which a node isn't able to do what it was asked for. No answer has the status 0.
NOT_SERVED = (0, 500, 503)

#: A put is refused so if the hints for a holder that is out of reach have no room.
NO_HINT = "HintsFull"


class Judged:
    """The requests that could be served, and those of them that weren't.

    A holder of a key is able if it reaches another place that does its part: another holder for a get, any place for a
    put, since that keeps a hint. A place can serve a get if it is an able holder, or reaches one. It can serve a put
    if, in addition, each other holder either is able and in its reach, or certainly out of it: a holder that takes a
    put and then finds nobody leaves it open whether it is done, so there is no other try.

    That must be so from 3 seconds before the request until its end, and the machine mustn't be late in this time
    (`machine.py`). A place takes part if it serves, isn't paused, has
    a disk that is neither slow nor full nor failing, and the cluster came to rest since it lost something. Messages
    between two places must pass in both directions, late by at most 100 milliseconds. A client's connection ends with
    the node, so its first request after a start isn't judged if it had no answer.
    """

    def __init__(self, case: Case) -> None:
        events = case.history.events
        self._places = sorted({event.place for event in events if event.op == "start"})
        self._times = Times(events, self._places)
        late = _joined((event.at, event.at + event.members["seconds"]) for event in events if event.op == "late")
        self._late_begins, self._late_ends = zip(*late) if late else ((), ())
        keys = {it.key for it in case.history.requests}
        self._holders = {key: frozenset(it.place for it in case.replicas_of(key)) for key in keys}
        self._known: Dict[Tuple[Reach, int, FrozenSet[int], bool, bool], bool] = {}
        timely = [it for it in case.history.requests if not self._is_late(it)]
        #: Requests while the machine wasn't late, and those of them that could be served
        self.timely = len(timely)
        requests = [it for it in _with_links(case.history) if not self._is_late(it) and self._could_be_served(it)]
        self.count = len(requests)
        self.refused = [it for it in requests if it.status in NOT_SERVED]

    def _is_late(self, request: Request) -> bool:
        begin, end = request.begin - BEFORE_S, request.end + AFTER_S
        return bisect.bisect(self._late_begins, end) > bisect.bisect(self._late_ends, begin)

    def _could_be_served(self, request: Request) -> bool:
        reach = self._times.between(request.begin - BEFORE_S, request.end + AFTER_S)
        asked = reach, request.place, self._holders[request.key], request.is_get, request.refused == NO_HINT
        if asked not in self._known:
            self._known[asked] = request.place in reach.well and self._can(*asked)
        return self._known[asked]

    def _can(self, reach: Reach, place: int, holders: FrozenSet[int], is_get: bool, needs_holder: bool) -> bool:
        others = holders if is_get or needs_holder else self._places
        near = [it for it in holders if it == place or reach.can(place, it)]
        able = [it for it in near if any(reach.can(it, other) for other in others)]
        if is_get:
            return bool(able)
        return bool(able) and all(it in able or reach.cannot(place, it) for it in holders)


def _joined(times: Iterable[Tuple[float, float]]) -> List[Tuple[float, float]]:
    """Returns times in order, with those that overlap as one."""
    joined: List[Tuple[float, float]] = []
    for begin, end in sorted(times):
        if joined and begin <= joined[-1][1]:
            begin, before = joined.pop()
            end = max(before, end)
        joined.append((begin, end))
    return joined


@functools.lru_cache(maxsize=1)
def _judged(case: Case) -> Judged:
    return Judged(case)


def _with_links(history: History) -> Iterator[Request]:
    """Returns all requests but those without an answer that are the first of a client since a node's start."""
    starts: Dict[int, List[float]] = {}
    for event in history.events:
        if event.op == "start":
            starts.setdefault(event.place, []).append(event.at)
    before: Dict[Tuple[str, int], int] = {}
    for it in history.requests:
        link, started = (it.line.file, it.place), bisect.bisect(starts.get(it.place, []), it.begin)
        if it.status != 0 or before.get(link, started) == started:
            yield it
        before[link] = started


def requests_are_served(case: Case) -> Iterator[Breach]:
    """Of the requests that could be served at most one in a hundred is refused, or has no answer.

    Five of a run may be. A put that is refused as stale is served.
    """
    judged = _judged(case)
    requests = len(case.history.requests)
    refused = judged.refused
    case.notes.append(f"{judged.count} of {requests} requests could be served, and {len(refused)} of them weren't")
    if len(refused) > max(LEAST, judged.count // ONE_OF):
        for it in refused:
            yield Breach(f"place {it.place} didn't serve a request of {it.key}", [it.line])


def enough_requests_are_judged(case: Case) -> Iterator[Breach]:
    """Of the requests of a run one in five at least could be served, so that they are judged.

    If the machine was late for many of them, a note says so instead.
    """
    judged, requests = _judged(case), len(case.history.requests)
    if requests < MANY or not any(event.op == "run" and event.members.get("seconds") for event in case.history.events):
        return
    if judged.timely < TIMELY * requests:
        case.notes.append(f"note: the machine was late: only {judged.timely} of {requests} requests were in good time")
    elif JUDGED_OF * judged.count < judged.timely:
        yield Breach(f"only {judged.count} of {judged.timely} requests could be served")
