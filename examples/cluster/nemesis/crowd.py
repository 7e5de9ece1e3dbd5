"""A process of clients that read, put and delete keys, and log the responses.

A run starts it as `python3 -m nemesis.crowd`, and directs it by lines of JSON: first its settings, then commands. After
a command to rest it prints a line when all its clients are at rest. It ends with its input.
"""

from __future__ import annotations

import bisect
import itertools
import json
import random
import sys
import threading
import time
from collections import deque
from dataclasses import dataclass
from pathlib import Path
from typing import Deque, Dict, List, Sequence, TextIO, Tuple

from .caller import BLIND, Caller, Context, context_of
from .log import Log, Watch

KEYS = tuple(f"k{number:03}" for number in range(150))

#: A key may be deleted if this divides its number. The judge knows less of such keys.
DELETED = 8

#: The share of the deeds that put a new key. Nobody puts it again, so no overwrite hides a loss.
NEW = 0.04

#: Number of old contexts of a key that a client may still put with.
OLD_CONTEXTS = 6

#: Keys of a client that measures.
OWN_KEYS = 50

#: Minimum and maximum number of seconds for which a client avoids a place that didn't respond.
SHUNNED_S = (1.0, 3.0)

#: Seconds that clients may take to end, on a busy machine.
END_S = 60.0


@dataclass(frozen=True)
class Settings:
    """The clients of a process: the first one's number, their count, and the settings that all clients share."""

    first: int
    count: int
    seed: int
    base: int
    logs: str
    #: Time at which the run began
    began: float
    #: The places that the clients call
    places: Sequence[int]
    #: Average number of seconds that a client waits between two deeds
    think_s: float
    #: True if each client has separate keys
    measures: bool


class Gate:
    """A gate that lets the clients work, or holds them all at rest."""

    def __init__(self) -> None:
        self._changed = threading.Condition()
        self._open = self._ended = False
        self._busy = 0

    def enter(self) -> bool:
        """Waits until clients may work. Returns false once the run has ended."""
        with self._changed:
            self._changed.wait_for(lambda: self._open or self._ended)
            self._busy += not self._ended
            return not self._ended

    def leave(self) -> None:
        with self._changed:
            self._busy -= 1
            if not self._open:
                self._changed.notify_all()

    def work(self) -> None:
        """Starts the clients' work."""
        self._set(is_open=True)

    def rest(self) -> None:
        """Stops new requests, and waits until no client has an open one."""
        self._set(is_open=False)
        with self._changed:
            self._changed.wait_for(lambda: self._busy == 0)

    def end(self) -> None:
        """Ends all clients."""
        self._ended = True
        self._set(is_open=False)

    def _set(self, is_open: bool) -> None:
        with self._changed:
            self._open = is_open
            self._changed.notify_all()


class Load:
    """The keys and places that clients choose: few keys often. A skewed load has fewer still, and no pauses."""

    def __init__(self, places: Sequence[int], think_s: float) -> None:
        self._places, self._think_s = places, think_s
        self._weights = list(itertools.accumulate(1 / (rank + 3) for rank in range(len(KEYS))))
        self._skewed: Tuple[Sequence[str], Sequence[int]] = ((), ())
        #: The deeds of clients that measure
        self.only = "get"

    def skew(self, keys: Sequence[str], places: Sequence[int]) -> None:
        """Directs most requests to these keys and places from now on; without any, to all."""
        self._skewed = (keys, places)

    def key(self, chance: random.Random) -> str:
        keys, _ = self._skewed
        if keys and chance.random() < 0.8:
            return chance.choice(keys)
        return KEYS[bisect.bisect(self._weights, chance.random() * self._weights[-1])]

    def place(self, chance: random.Random, shunned: Sequence[int]) -> int:
        _, places = self._skewed
        if not places or chance.random() >= 0.8:
            places = self._places
        return chance.choice([place for place in places if place not in shunned] or self._places)

    def pause_s(self, chance: random.Random) -> float:
        """Returns the seconds that a client waits before its next deed."""
        return chance.expovariate(1 / self._think_s) if self._think_s and not self.is_skewed() else 0.0

    def is_skewed(self) -> bool:
        """Returns true if clients want only a few keys."""
        return bool(self._skewed[0])


class Client(threading.Thread):
    """A client: it reads before it puts, or puts with a context that may be old, or without one."""

    def __init__(self, number: int, seed: int, gate: Gate, load: Load, caller: Caller) -> None:
        super().__init__(name=f"client {number}", daemon=True)
        self._number, self._gate, self._load, self._caller = number, gate, load, caller
        self._chance = random.Random(f"{seed}/{number}")
        self._contexts: Dict[str, Deque[Context]] = {}
        self._shunned: Dict[int, float] = {}
        self._news = 0

    def run(self) -> None:
        while self._gate.enter():
            try:
                self._step()
            finally:
                self._gate.leave()
            time.sleep(self._load.pause_s(self._chance))
        self._caller.close()

    def _step(self) -> None:
        """Reads a key, puts it, or both."""
        if self._chance.random() < NEW and not self._load.is_skewed():
            self._news += 1
            self._put(f"new-{self._number}-{self._news}", deque(), BLIND)
            return
        key = self._load.key(self._chance)
        deed = self._chance.random()
        contexts = self._contexts.setdefault(key, deque(maxlen=OLD_CONTEXTS))
        if deed < 0.8:
            self._get(key, contexts)
        if deed >= 0.4:
            # (above 0.8 the client puts without a read)
            context = contexts[-1] if deed < 0.8 and contexts else self._chance.choice([BLIND, *contexts])
            deletes = int(key[1:]) % DELETED == 0 and self._chance.random() < 0.2
            self._put(key, contexts, context, deletes)

    def _get(self, key: str, contexts: Deque[Context]) -> None:
        place = self._place()
        found = self._caller.get(place, key)
        self._note(place, found.answer.status)
        if found.context is not None:
            contexts.append(context_of(found))

    def _put(self, key: str, contexts: Deque[Context], context: Context, deletes: bool = False) -> None:
        place = self._place()
        status, covers = self._caller.put(place, key, context, deletes)
        self._note(place, status)
        if covers is not None:
            contexts.append(covers)

    def _place(self) -> int:
        now = time.monotonic()
        return self._load.place(self._chance, [place for place, until in self._shunned.items() if until > now])

    def _note(self, place: int, status: int) -> None:
        """Shuns a place that didn't answer, and waits a moment before the next request."""
        if status == 0:
            self._shunned[place] = time.monotonic() + self._chance.uniform(*SHUNNED_S)
            time.sleep(0.02)


class Measurer(Client):
    """A client that gets or puts separate keys. It puts with its last context, and reads if a put left it without."""

    def _step(self) -> None:
        key = f"own-{self._number}-{self._chance.randrange(OWN_KEYS)}"
        contexts = self._contexts.setdefault(key, deque(maxlen=1))
        if self._load.only == "put":
            self._put(key, contexts, contexts.pop() if contexts else BLIND)
        if self._load.only == "get" or not contexts:
            self._get(key, contexts)


class Crowd:
    """The clients of a process, at rest until a command to work."""

    def __init__(self, settings: Settings) -> None:
        self._gate, self._load = Gate(), Load(settings.places, settings.think_s)
        watch = Watch(settings.began)
        self._threads: List[Client] = []
        for number in range(settings.first, settings.first + settings.count):
            log = Log(Path(settings.logs) / f"client-{number}.log", watch)
            caller = Caller(number, settings.base, log)
            kind = Measurer if settings.measures else Client
            self._threads.append(kind(number, settings.seed, self._gate, self._load, caller))

    def run(self, commands: TextIO) -> None:
        """Runs commands until the input ends."""
        for thread in self._threads:
            thread.start()
        for line in commands:
            self._do(**json.loads(line))
        self._gate.end()
        for thread in self._threads:
            thread.join(END_S)

    def _do(self, op: str, keys: Sequence[str] = (), places: Sequence[int] = (), deed: str = "") -> None:
        if op == "work":
            self._gate.work()
        elif op == "rest":
            self._gate.rest()
            print("at rest", flush=True)
        elif op == "skew":
            self._load.skew(keys, places)
        elif op == "only":
            self._load.only = deed


if __name__ == "__main__":
    Crowd(Settings(**json.loads(sys.stdin.readline()))).run(sys.stdin)
