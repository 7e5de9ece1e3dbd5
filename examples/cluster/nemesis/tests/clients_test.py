"""Tests that clients in other processes follow commands. No node serves them."""

from __future__ import annotations

import json
import socket
import tempfile
import time
import unittest
from pathlib import Path
from typing import Callable, List

from nemesis.clients import Clients
from nemesis.log import Watch

COUNT = 5

#: Seconds that clients may take for their first requests, on a busy machine.
PATIENT_S = 600.0


class ClientsTest(unittest.TestCase):
    def setUp(self) -> None:
        room = tempfile.TemporaryDirectory()
        self.addCleanup(room.cleanup)
        self._logs = Path(room.name)
        free = socket.socket()
        self.addCleanup(free.close)
        free.bind(("127.0.0.1", 0))
        self._base = free.getsockname()[1] - 1

    def test_all_work_until_they_rest(self) -> None:
        with Clients(COUNT, 1, self._base, self._logs, Watch(), places=[1]) as clients:
            self.assertEqual(self._lines(), [])
            clients.work()
            self._await({*range(1, COUNT + 1)})
            clients.rest()
            before = self._lines()
            time.sleep(0.2)
            self.assertEqual(self._lines(), before)
            clients.work()
            self._await_more(before)

    def test_a_skewed_load_is_of_few_keys(self) -> None:
        with Clients(COUNT, 1, self._base, self._logs, Watch(), places=[1]) as clients:
            clients.skew(["k001"])
            clients.work()
            self._await_that(lambda: len(self._lines()) > 200)
            clients.rest()
            keys = [line["key"] for line in self._lines()]
        self.assertGreater(keys.count("k001"), len(keys) // 2)

    def test_clients_that_measure_do_one_thing(self) -> None:
        with Clients(COUNT, 1, self._base, self._logs, Watch(), [1], 0.0, measures=True) as clients:
            clients.only("get")
            clients.work()
            self._await({*range(1, COUNT + 1)})
            clients.rest()
            self.assertEqual({line["op"] for line in self._lines()}, {"get"})

    def _lines(self) -> List[dict]:
        texts = (path.read_text().splitlines() for path in sorted(self._logs.glob("client-*.log")))
        return [json.loads(line) for lines in texts for line in lines]

    def _await(self, numbers: set) -> None:
        """Waits until each of these clients has made some requests."""
        self._await_that(lambda: all([it["client"] for it in self._lines()].count(number) > 4 for number in numbers))

    def _await_more(self, before: List[dict]) -> None:
        self._await_that(lambda: len(self._lines()) > len(before))

    def _await_that(self, holds: Callable[[], bool]) -> None:
        until = time.monotonic() + PATIENT_S
        while not holds():
            self.assertLess(time.monotonic(), until)
            time.sleep(0.02)


if __name__ == "__main__":
    unittest.main()
