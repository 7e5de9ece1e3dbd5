"""Tests the effect of faults of messages on a call, in a node with all places."""

from __future__ import annotations

import os
import subprocess
import tempfile
import unittest
from pathlib import Path
from typing import Dict, Tuple

from nemesis.links import SOURCE

PROBE = sorted(map(str, (Path(__file__).with_name("erlang")).glob("*.erl")))

#: The limit of the probe's calls that have no answer in time, in milliseconds. The others have one of an hour.
LIMIT_MS = 2_000

#: Seconds that the probe may take on a busy machine.
HANG_S = 600.0


class LinkTest(unittest.TestCase):
    def test_calls_under_faults(self) -> None:
        found = probe()
        self.assertEqual(
            {name: (outcome, served) for name, (outcome, _, served) in found.items()},
            {
                "none": ("answered", 1),
                "request_dropped": ("timeout", 0),
                "answer_dropped": ("timeout", 1),
                "others_dropped": ("answered", 1),
                "refused": ("noconnection", 0),
                "late": ("answered", 1),
                "too_late": ("timeout", 1),
                "repeated": ("answered", 2),
                "late_with_a_limit": ("answered", 1),
            },
        )
        for name, least_ms in {"request_dropped": LIMIT_MS, "answer_dropped": LIMIT_MS, "late": 100}.items():
            with self.subTest(name):
                self.assertGreaterEqual(found[name][1], least_ms)


def probe() -> Dict[str, Tuple[str, int, int]]:
    """Runs the probe. Returns the outcome of the call under each fault, its milliseconds, and the number of times that
    it was served.
    """
    with tempfile.TemporaryDirectory() as room:
        subprocess.run(["erlc", "-Wall", "-Werror", "-o", room, *PROBE, str(SOURCE)], check=True)
        words = ["erl", "-noinput", "-kernel", "logger_level", "critical", "-pa", room, "-s", "link_probe", "main"]
        environment = {**os.environ, "NEMESIS_LINKS": f"{room}/links", "ERL_CRASH_DUMP_BYTES": "0"}
        pipe = {"stdout": subprocess.PIPE, "text": True, "timeout": HANG_S}
        said = subprocess.run(words, env=environment, check=True, **pipe).stdout
    lines = (line.split() for line in said.splitlines())
    return {name: (outcome, int(took), int(served)) for name, outcome, took, served in lines}


if __name__ == "__main__":
    unittest.main()
