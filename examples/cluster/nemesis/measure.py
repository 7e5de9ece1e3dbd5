"""Measures a cluster with clients at full speed: without faults, while two of five places are silent, and afterwards.

    python3 -m nemesis.measure --library FOLDER [--seconds S] [--clients N] [--no-admission]

Prints the requests per second and the latencies at the three places that aren't silent: without faults; while the two
others are cut off, and while they are stopped, with a separate first second for each; and while clients continue during
the repairs of these, and of a lost disk. Clients either only put or only get. Gets are refused during the silence if
only one of the three places holds the key. Then prints the time that repairs take with clients at rest.
"""

from __future__ import annotations

import argparse
import sys
import time
from concurrent.futures import ThreadPoolExecutor
from pathlib import Path
from typing import List, Tuple

from . import damage, figures, links, program
from .clients import Clients
from .front import Front
from .log import Log, Watch
from .nodes import Nodes, build
from .places import PLACES
from .rest import settle

#: The places that are silent, and those that clients call.
SILENT, CALLED = (1, 2), (3, 4, 5)
MOST_S = 120.0

#: Seconds in which the other places notice that some are silent.
FIRST_S = 1.0

#: Number of keys that are put before, so that a lost disk is worth a repair, and of threads that put them.
FILLED, FILLERS = 4000, 8

Phase = Tuple[str, str, float, float]


class Measure:
    """A cluster and its clients, and the measured phases."""

    def __init__(self, nodes: Nodes, clients: Clients, log: Log, counts: figures.Counts) -> None:
        self._nodes, self._clients, self._log, self._counts = nodes, clients, log, counts
        self._links = nodes.links
        self.phases: List[Phase] = []

    def run(self, seconds: float, silence_s: float) -> None:
        """Runs all phases."""
        self._fill()
        self._clients.work()
        self._puts("no faults", seconds)
        self._gets("no faults", seconds)
        self._cut()
        self._silence("two cut off", silence_s)
        self._links.heal()
        self._puts("back from the cut", seconds)
        self._stop()
        self._silence("two stopped", silence_s)
        self._go_on()
        self._puts("back from the stop", seconds)
        self._lose_disk()
        self._puts("a lost disk", seconds)
        self._clients.rest()
        self._repair("these phases")
        self._cut()
        self._clients.work()
        time.sleep(silence_s)
        self._clients.rest()
        self._links.heal()
        self._repair(f"a partition of {silence_s:.0f} s")
        self._lose_disk()
        self._repair("a lost disk")

    def _fill(self) -> None:
        """Puts keys that no client uses."""

        def fill(first: int) -> None:
            front = Front(self._nodes.base)
            for number in range(first, FILLED, FILLERS):
                front.put(PLACES[number % len(PLACES)], f"filled {number}", f"value {number}")
            front.close()

        with ThreadPoolExecutor(FILLERS) as fillers:
            list(fillers.map(fill, range(FILLERS)))

    def _cut(self) -> None:
        self._links.partition(links.halves(SILENT))

    def _stop(self) -> None:
        for place in SILENT:
            self._nodes.pause(place)

    def _go_on(self) -> None:
        for place in SILENT:
            self._nodes.resume(place)

    def _lose_disk(self) -> None:
        lost = SILENT[:1]
        self._nodes.kill(lost)
        self._nodes.damage(lost[0], "destroy", damage.empty)
        self._nodes.start(lost)

    def _silence(self, name: str, seconds: float) -> None:
        self._puts(f"{name}, first second", FIRST_S)
        self._puts(f"{name}, then", seconds - FIRST_S)
        self._gets(f"{name}, then", seconds)

    def _puts(self, name: str, seconds: float) -> None:
        self._clients.only("put")
        self._phase(name, "puts", seconds)

    def _gets(self, name: str, seconds: float) -> None:
        self._clients.only("get")
        self._phase(name, "gets", seconds)

    def _phase(self, name: str, kind: str, seconds: float) -> None:
        begin = self._log.now()
        time.sleep(seconds)
        self.phases.append((name, kind, begin, self._log.now()))

    def _repair(self, name: str) -> None:
        """Prints the time until the cluster is at rest, and its work meanwhile."""
        before = dict(self._counts.look())
        took = settle(self._nodes.base, MOST_S)
        done = {name: count - before[name] for name, count in self._counts.look().items()}
        each = done["bytes_repaired"] / done["keys_repaired"] if done["keys_repaired"] else 0.0
        print(
            f"after {name}: at rest in {'over ' if took is None else ''}{took or MOST_S:.1f} s,"
            f" keys repaired {done['keys_repaired']}, bytes a key {each:.0f}, hints delivered {done['delivered']}"
        )


PLAIN = argparse.RawDescriptionHelpFormatter


def words() -> argparse.Namespace:
    """Parses the command's arguments."""
    parser = argparse.ArgumentParser(prog="python3 -m nemesis.measure", description=__doc__, formatter_class=PLAIN)
    parser.add_argument("--library", type=Path, required=True, help="folder of the C library, made by ./build-c")
    parser.add_argument("--seconds", type=float, default=20, help="time of a phase")
    parser.add_argument("--silence", type=float, default=30, help="time for which places are silent, in seconds")
    parser.add_argument("--clients", type=int, default=8)
    parser.add_argument("--no-admission", action="store_true", help="repair does not wait for slots")
    parser.add_argument("--ports", type=int, metavar="FIRST", help="first of twelve ports; free ones if it's omitted")
    return parser.parse_args()


def work(given: argparse.Namespace, room: Path) -> int:
    """Builds a cluster, and measures it."""
    build(given.library, room / "out")
    watch = Watch()
    log = Log(room / "nemesis.log", watch)
    settings = {"slots": "{64,64,20000}"} if given.no_admission else {}
    with Nodes(room / "out", room, room, log, settings, given.ports) as nodes:
        nodes.begin()
        with figures.Counts(nodes.base, Log(room / "status.log", watch)) as counts:
            with Clients(given.clients, 1, nodes.base, room, watch, CALLED, 0.0, True) as clients:
                measure = Measure(nodes, clients, log, counts)
                measure.run(given.seconds, given.silence)
    found = figures.requests(room)
    for name, kind, begin, end in measure.phases:
        figures.show({kind: found[kind]}, begin, end, name)
    return 0


if __name__ == "__main__":
    GIVEN = words()
    sys.exit(program.run(lambda room: work(GIVEN, room)))
