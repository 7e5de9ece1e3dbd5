"""Tests that a late machine is noted, and no other."""

from __future__ import annotations

import json
import signal
import subprocess
import sys
import tempfile
import time
import unittest
from pathlib import Path
from typing import List

from nemesis.log import Log, Watch
from nemesis.machine import EACH_S, LATE_S, Machine

#: Seconds for which a process is stopped, and seconds that a busy machine may take to note it.
STOPPED_S, HANG_S = 1.0, 600.0

PROGRAM = """
import sys
from pathlib import Path
from nemesis.log import Log, Watch
from nemesis.machine import Machine
room = Path(sys.argv[1])
with Machine(room, Log(room / "log", Watch())):
    print("begun", flush=True)
    sys.stdin.read()
"""


class Clock(Watch):
    """A watch that the test sets."""

    at = 0.0

    def now(self) -> float:
        return self.at


class MachineTest(unittest.TestCase):
    def setUp(self) -> None:
        room = tempfile.TemporaryDirectory()
        self.addCleanup(room.cleanup)
        self._room = Path(room.name)

    def test_a_work_that_is_late(self) -> None:
        watch = Clock()
        log = Log(self._room / "log", watch)
        self.addCleanup(log.close)
        machine = Machine(self._room, log)
        for took in (EACH_S, EACH_S + LATE_S - 0.01, EACH_S + LATE_S + 0.01):
            with machine.in_time():
                watch.at += took
        self.assertEqual([it["seconds"] for it in self._late()], [round(EACH_S + LATE_S + 0.01, 3)])
        self.assertAlmostEqual(self._late()[0]["t"], 2 * EACH_S + LATE_S - 0.01)

    def test_a_process_that_is_stopped(self) -> None:
        path = str(Path(__file__).resolve().parents[2])
        words = [sys.executable, "-c", PROGRAM, str(self._room)]
        with subprocess.Popen(words, cwd=path, stdin=subprocess.PIPE, stdout=subprocess.PIPE) as child:
            child.stdout.readline()
            begun = time.monotonic()
            while not any(it["seconds"] > STOPPED_S - EACH_S for it in self._late()):
                self.assertLess(time.monotonic(), begun + HANG_S)
                child.send_signal(signal.SIGSTOP)
                time.sleep(STOPPED_S)
                child.send_signal(signal.SIGCONT)
                time.sleep(EACH_S)
            child.stdin.close()

    def _late(self) -> List[dict]:
        lines = [json.loads(line) for line in (self._room / "log").read_text().splitlines()]
        return [line for line in lines if line["op"] == "late"]


if __name__ == "__main__":
    unittest.main()
