"""The clients of a run, in several processes, so that they don't wait for each other."""

from __future__ import annotations

import json
import os
import subprocess
import sys
from pathlib import Path
from typing import List, Sequence

from .caller import Caller
from .crowd import END_S, Settings
from .log import Log, Watch
from .places import PLACES

#: Processes of clients.
PROCESSES = 4

#: Numbers of clients that the nemesis directs, and of further clients that read for them.
DIRECTED, READERS = 10, 6

#: Average number of seconds that a client waits between two deeds: a run of three minutes has some 100,000 requests,
#: which its judge can process. A skewed load has no pauses.
THINK_S = 0.04


class NoClients(Exception):
    """A process of clients that ended."""


class Process:
    """A process of clients, as the run sees it."""

    def __init__(self, settings: Settings) -> None:
        path = os.pathsep.join([str(Path(__file__).resolve().parents[1]), *sys.path])
        self._process = subprocess.Popen(
            [sys.executable, "-m", "nemesis.crowd"],
            stdin=subprocess.PIPE,
            stdout=subprocess.PIPE,
            start_new_session=True,
            env={**os.environ, "PYTHONPATH": path, "PYTHONDONTWRITEBYTECODE": "1"},
            text=True,
        )
        self.tell(**vars(settings))

    def tell(self, **members: object) -> None:
        """Sends the settings or a command."""
        self._process.stdin.write(json.dumps(members) + "\n")
        self._process.stdin.flush()

    def await_rest(self) -> None:
        """Waits until the clients are at rest."""
        if not self._process.stdout.readline():
            raise NoClients("a process of clients has ended")

    def end(self) -> None:
        """Ends the process."""
        self._process.stdin.close()
        try:
            self._process.wait(2 * END_S)
        except subprocess.TimeoutExpired:
            self._process.kill()
            self._process.wait()
        self._process.stdout.close()


class Clients:
    """The clients of a run, at rest until `work`, and others that the nemesis directs."""

    def __init__(
        self,
        count: int,
        seed: int,
        base: int,
        logs: Path,
        watch: Watch,
        places: Sequence[int] = PLACES,
        think_s: float = THINK_S,
        measures: bool = False,
    ) -> None:
        shared = seed, base, str(logs.resolve()), watch.began, places, think_s, measures
        each = -(-count // PROCESSES)
        self._settings = [
            Settings(first, min(each, count + 1 - first), *shared) for first in range(1, count + 1, each)
        ]
        self._processes: List[Process] = []
        numbers = range(count + 1, count + 1 + DIRECTED + READERS)
        callers = [Caller(number, base, Log(logs / f"client-{number}.log", watch)) for number in numbers]
        self.directed, self.readers = callers[:DIRECTED], callers[DIRECTED:]

    def __enter__(self) -> "Clients":
        self._processes = [Process(settings) for settings in self._settings]
        return self

    def __exit__(self, *error: object) -> None:
        for process in self._processes:
            process.end()
        for caller in [*self.directed, *self.readers]:
            caller.close()

    def work(self) -> None:
        """Starts the clients' work."""
        self._tell(op="work")

    def rest(self) -> None:
        """Stops new requests, and waits until no client has an open one."""
        self._tell(op="rest")
        for process in self._processes:
            process.await_rest()

    def skew(self, keys: Sequence[str] = (), places: Sequence[int] = ()) -> None:
        """Directs most requests to these keys and places from now on; without any, to all."""
        self._tell(op="skew", keys=keys, places=places)

    def only(self, deed: str) -> None:
        """Restricts clients that measure to gets, or to puts, from now on."""
        self._tell(op="only", deed=deed)

    def _tell(self, **command: object) -> None:
        for process in self._processes:
            process.tell(**command)
