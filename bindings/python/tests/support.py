"""Code that several tests share."""

import os
import subprocess
import sys
import unittest
from pathlib import Path

import antientropy
from antientropy._library import current

PACKAGE = Path(__file__).resolve().parents[1]
#: The folder of the tested package, which may be a copy with the extension.
IMPORTED = Path(antientropy.__file__).resolve().parents[1]
EXAMPLES = PACKAGE / "examples"


def lacks(call):
    """True if the library has no such call: then tests of it are skipped."""
    return not hasattr(current(), call)


def reach(snapshot, number=1):
    """A partner that is called directly."""
    return lambda asks: [snapshot.serve(number, ask) for ask in asks]


def sync(replica, partner):
    """Syncs from a partner."""
    with partner.snapshot() as snapshot:
        return replica.sync(9, snapshot.offer(1), reach(snapshot))


def take_all(exchange, snapshot, between=lambda: None):
    """Takes the answers to all asks, in reverse order. Returns the bytes of asks and answers.

    It calls a function after each batch.
    """
    sent = 0
    while asks := exchange.asks():
        for ask in reversed(asks):
            answer = snapshot.serve(1, ask)
            sent += len(ask) + len(answer)
            exchange.take(answer)
        between()
    return sent


def crowd(replica, key=b"crowded", first=1):
    """Fills a key with 64 concurrent versions."""
    for node in range(first, first + 64):
        replica.accept(key, {node: 1}, b"%d" % node)


class Hashing:
    """A library that calls a function each time before it hashes a portion."""

    def __init__(self, library, function):
        self._library, self._function = library, function

    def __getattr__(self, name):
        return getattr(self._library, name)

    def hash_portion(self, portion):
        self._function()
        return self._library.hash_portion(portion)


def run(*words):
    """Runs a script with the package and the library of these tests, and returns its output."""
    command = [sys.executable, *map(str, words)]
    environment = {**os.environ, "PYTHONPATH": str(IMPORTED), "PYTHONDONTWRITEBYTECODE": "1"}
    done = subprocess.run(command, env=environment, capture_output=True, text=True)
    return done.stdout + done.stderr


class ReplicaCase(unittest.TestCase):
    """A test that can detect changes of a replica."""

    def assert_refused(self, name, replica, call, *args):
        """Checks that a call is refused, and leaves the replica unchanged. Returns the exception."""
        before = self.state(replica)
        with self.assertRaises(getattr(antientropy, f"{name}Error")) as caught:
            call(*args)
        self.assertEqual(caught.exception.name, name)
        self.assertEqual(self.state(replica), before)
        return caught.exception

    def state(self, replica):
        """All that a replica holds."""
        return replica.count(), list(replica.entries()), [replica.row(key) for key in replica.keys()]
