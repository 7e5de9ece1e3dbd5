"""The figures of a run: the responses to clients, and the counts of the nodes."""

from __future__ import annotations

import json
import threading
from collections import Counter
from pathlib import Path
from typing import Dict, List, NamedTuple

from .front import Front
from .log import Log
from .places import PLACES

#: Counts of a node's status that begin at 0 in each process.
COUNTS = ("rounds", "keys_repaired", "bytes_repaired", "delivered")

#: Seconds between two looks at the nodes' counts, and the longest wait for one.
LOOK_S, PATIENCE_S = 0.5, 1.0


class Request(NamedTuple):
    """A client's request: its start, its duration, and its status, which is 0 without a response."""

    begin: float
    took: float
    status: int

    @property
    def answered(self) -> bool:
        return self.status in (200, 300, 404)


class Counts:
    """Sums the counts of all nodes over their restarts, and logs them. A node's last counts may be missed."""

    def __init__(self, base: int, log: Log) -> None:
        self._sums: Dict[str, int] = dict.fromkeys(COUNTS, 0)
        self._last: Dict[int, Dict[str, int]] = {}
        self._front, self._log = Front(base, PATIENCE_S), log
        self._looking, self._ended = threading.Lock(), threading.Event()
        self._thread = threading.Thread(target=self._run, name="counts", daemon=True)

    def __enter__(self) -> "Counts":
        self._thread.start()
        return self

    def __exit__(self, *error: object) -> None:
        self._ended.set()
        self._thread.join(10.0)
        self._front.close()

    def look(self) -> Dict[str, int]:
        """Looks at all nodes, and returns the sums."""
        with self._looking:
            for place in PLACES:
                status = self._front.status(place)
                if status is not None:
                    self._log.write(op="status", **status)
                    self._add(place, {name: status.get(name, status["hints"].get(name, 0)) for name in COUNTS})
            return dict(self._sums)

    def _add(self, place: int, counts: Dict[str, int]) -> None:
        last = self._last.get(place, {})
        for name, count in counts.items():
            before = last.get(name, 0)
            self._sums[name] += count - before if count >= before else count
        self._last[place] = counts

    def _run(self) -> None:
        while not self._ended.wait(LOOK_S):
            self.look()


def requests(logs: Path) -> Dict[str, List[Request]]:
    """Returns the clients' requests, by their kind. A delete is a put."""
    found: Dict[str, List[Request]] = {"puts": [], "gets": []}
    for path in logs.glob("client-*.log"):
        for text in path.read_text().splitlines():
            line = json.loads(text)
            kind = "gets" if line["op"] == "get" else "puts"
            found[kind].append(Request(line["t"], line["end"] - line["t"], line["status"]))
    return found


def show(found: Dict[str, List[Request]], begin: float, end: float, phase: str) -> None:
    """Prints the requests of a part of a run."""
    for kind, them in found.items():
        inside = [it for it in them if begin <= it.begin < end]
        took = sorted(it.took for it in inside if it.answered)
        counted = sorted(Counter(it.status for it in inside).items())
        statuses = ", ".join(f"{status}: {count}" for status, count in counted)
        print(
            f"{phase:25} {kind}: {len(took) / (end - begin):7.1f} a second,"
            f" p50 {percentile_ms(took, 50):6.1f} ms, p99 {percentile_ms(took, 99):7.1f} ms  (statuses {statuses})"
        )


def percentile_ms(ordered: List[float], percent: int) -> float:
    """Returns a percentile of durations in seconds, in milliseconds."""
    return 1000 * ordered[min(len(ordered) - 1, len(ordered) * percent // 100)] if ordered else 0.0
