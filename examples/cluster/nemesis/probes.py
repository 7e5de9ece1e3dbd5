"""Puts that find out whether a node forgot what it put before: it would use a clock for a second value."""

from __future__ import annotations

import itertools
import random
import time
from concurrent.futures import ThreadPoolExecutor
from dataclasses import dataclass
from typing import Callable, List, Optional, Sequence, Tuple

from .caller import BLIND, Caller, Context, context_of
from .crowd import KEYS
from .places import PLACES

#: Keys that a caller tries until the place is one that coordinates its puts.
TRIES = 4

#: Puts of a key before the node forgets them, one over the other.
PUTS = 2


@dataclass
class Probe:
    """A key, and the contexts that its client has of it, the oldest first."""

    caller: Caller
    key: str
    contexts: List[Context]


class Probes:
    """A few keys that a place coordinates, each with a caller of its own."""

    def __init__(self, callers: Sequence[Caller], place: int, chance: random.Random) -> None:
        self._place = place
        self._probes = []
        keys = iter(chance.sample(KEYS, TRIES * len(callers)))
        for caller in callers:
            for key in (next(keys) for _ in range(TRIES)):
                found = caller.get(place, key)
                if found.answer.headers.get("x-place") == str(place):
                    self._probes.append(Probe(caller, key, [BLIND, context_of(found)]))
                    break

    def put_in(self, pool: ThreadPoolExecutor, times: int = 1) -> None:
        """Begins to put each key with what was read, and doesn't wait for the answers."""
        for probe in self._probes:
            pool.submit(self._put, probe, times)

    def read_in(self, pool: ThreadPoolExecutor, readers: Sequence[Caller], seconds: float) -> None:
        """Begins to read all keys at the other places, again and again for some time."""
        until = time.monotonic() + seconds
        for number, reader in enumerate(readers):
            pool.submit(self._read_on, reader, number, until)

    def put(self) -> None:
        """Puts each key a few times."""
        self._each(self._put)

    def put_again(self) -> None:
        """Puts each key with all contexts that its client had before, the oldest first."""
        self._each(lambda probe: [self._put_with(probe, context) for context in probe.contexts])

    def put_on(self) -> None:
        """Puts each key once more over its last version."""
        self._each(lambda probe: self._put_with(probe, probe.contexts[-1]))

    def look(self) -> None:
        """Reads each key at all places."""
        self._each(lambda probe: [probe.caller.get(place, probe.key) for place in PLACES])

    def _put(self, probe: Probe, times: int = PUTS) -> None:
        for _ in range(times):
            _, covers = self._put_with(probe, probe.contexts[-1])
            if covers is not None:
                probe.contexts.append(covers)

    def _read_on(self, reader: Caller, first: int, until: float) -> None:
        """Reads at the other places; each reader begins with another one."""
        asks = [(place, probe.key) for probe in self._probes for place in PLACES if place != self._place]
        for place, key in itertools.islice(itertools.cycle(asks), first, None):
            if time.monotonic() > until:
                return
            reader.get(place, key)

    def _put_with(self, probe: Probe, context: Context) -> Tuple[int, Optional[Context]]:
        return probe.caller.put(self._place, probe.key, context)

    def _each(self, deed: Callable[[Probe], object]) -> None:
        if self._probes:
            with ThreadPoolExecutor(len(self._probes)) as pool:
                list(pool.map(deed, self._probes))
