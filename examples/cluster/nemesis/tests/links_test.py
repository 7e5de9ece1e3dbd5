"""Tests that faults of messages are in the file that nodes read, and that the log has all of them each time."""

from __future__ import annotations

import json
import tempfile
import unittest
from pathlib import Path
from typing import List

from nemesis import links
from nemesis.links import Links
from nemesis.log import Log, Watch


class LinksTest(unittest.TestCase):
    def setUp(self) -> None:
        room = tempfile.TemporaryDirectory()
        self.addCleanup(room.cleanup)
        self._room = Path(room.name)
        log = Log(self._room / "log", Watch())
        self.addCleanup(log.close)
        self._links = Links(self._room, log)

    def test_faults_add_up(self) -> None:
        self._links.partition([(1, 2)])
        self._links.partition([(2, 1)], is_instant=True)
        self._links.late([(3, 4)], 0, 500)
        self._links.repeat(50)
        self.assertEqual(self._file(), ["drop 1 2", "drop 2 1", "late 3 4 0 500", "repeat 50", "instant"])
        self.assertEqual([len(it["drop"]) for it in self._logged()], [1, 2, 2, 2])
        last = self._logged()[-1]
        del last["t"]
        wanted = {"drop": [[1, 2], [2, 1]], "instant": True, "late": [[3, 4, 0, 500]], "repeat": 50, "slow": {}}
        self.assertEqual(last, {"op": "links", **wanted})

    def test_all_messages_of_a_slow_node_are_late(self) -> None:
        self._links.slow(2, 100)
        self.assertEqual(self._file(), [f"late 2 {place} 100 100" for place in (1, 3, 4, 5)])
        self.assertEqual(self._logged()[-1]["slow"], {"2": 100})

    def test_what_is_healed_is_logged_once(self) -> None:
        self._links.heal()
        self.assertEqual(self._logged(), [])
        self._links.late(links.everywhere(), 0, 50)
        self._links.heal()
        self._links.heal()
        self.assertEqual(self._file(), [])
        self.assertEqual([len(it["late"]) for it in self._logged()], [20, 0])

    def test_the_limit_of_calls_is_no_fault(self) -> None:
        self._links.limit(60000)
        self._links.repeat(50)
        self.assertEqual(self._file(), ["repeat 50", "limit 60000"])
        self._links.heal()
        self.assertEqual(self._file(), ["limit 60000"])

    def test_calls_without_a_slot_are_counted(self) -> None:
        (self._room / "unslotted-3").write_text("offer\ncopies\noffer\n")
        self.assertEqual(self._links.unslotted(), {(3, "offer"): 2, (3, "copies"): 1})

    def _file(self) -> List[str]:
        return (self._room / "links").read_text().splitlines()

    def _logged(self) -> List[dict]:
        return [json.loads(line) for line in (self._room / "log").read_text().splitlines()]


if __name__ == "__main__":
    unittest.main()
