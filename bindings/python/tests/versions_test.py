"""The calls for each key, by ctypes or by the extension: both take and return the same."""

import signal
import threading
import time
import unittest
from array import array
from collections import UserDict
from contextlib import suppress
from importlib import import_module
from importlib.util import find_spec
from itertools import count

import antientropy
from antientropy import Replica

from tests.support import crowd

LONG = 600


class VersionsTest(unittest.TestCase):
    @unittest.skipUnless(find_spec("antientropy._native"), "the extension wasn't built")
    def test_the_extension_is_used(self):
        self.assertTrue(issubclass(Replica, import_module("antientropy._native").Versions))

    def test_bytes_like_objects(self):
        with Replica() as replica:
            for n, key in enumerate((bytearray(b"key"), memoryview(b"xkxexy")[1::2], array("B", b"key"))):
                self.assertEqual(replica.put_unread(n + 1, key, memoryview(b"value")).number, n)
                self.assertEqual((len(replica.get(key)), replica.row(key)), (n + 1, replica.row(b"key")))
            self.assertFalse(replica.accept(bytearray(b"key"), {1: 1}, bytearray(b"value")))

    def test_a_bytearray_is_let_go(self):
        with Replica() as replica:
            key, value = bytearray(b"key"), bytearray(b"value")
            replica.put(1, key, value)
            for call in (replica.put, replica.put_unread):
                with self.assertRaises(antientropy.StaleContextError):
                    call(1, key, value)
            for words in (("node", key, value), (1, key, 7), (1, key, value, 7), (1, key, value, {1: "counter"})):
                with self.assertRaises(TypeError):
                    replica.put(*words)
            replica.get(key)
            replica.row(key)
            key.append(0)
            value.append(0)

    def test_clocks(self):
        pairs = [(node, 1) for node in range(1, 32)]
        with Replica() as replica:
            for n, clock in enumerate((dict(pairs), UserDict(pairs), pairs, iter(pairs), map(list, pairs))):
                self.assertEqual(replica.accept(b"key", clock, b""), n == 0)
            self.assertEqual(replica.get(b"key")[0].clock, dict(pairs))
            twice, large = antientropy.BadClockError, antientropy.ClockFullError
            for clock, error in (([(1, 1), (1, 1)], twice), ([(1, 1)] * 40, twice), ([(1, 2, 3)], ValueError),
                                 ([1], TypeError), ({1: -1}, OverflowError), ({1 << 64: 1}, OverflowError),
                                 ({n: 1 for n in range(1, 34)}, large)):
                with self.subTest(clock), self.assertRaises(error):
                    replica.accept(b"key", clock, b"")

    def test_long_results(self):
        value = b"v" * 65536
        with Replica() as replica:
            crowd(replica)
            replica.accept(b"long", {1: 1}, value)
            replica.accept(b"long", {2: 1}, value)
            self.assertEqual([version.value for version in replica.get(b"long")], [value, value])
            self.assertGreater(len(replica.row(b"long")), 2 * len(value))
            self.assertEqual(len(replica.get(b"crowded")), 64)

    def test_a_replica_that_was_not_made(self):
        replica = Replica.__new__(Replica)
        for call in (replica.count, lambda: replica.get(b"key"), lambda: replica.put(1, b"key", b"")):
            with self.assertRaises((AttributeError, RuntimeError)):
                call()

    def test_a_replica_is_closed_meanwhile(self):
        replica, begun, ended = Replica(), threading.Barrier(6), []

        def put(key):
            with suppress(antientropy.StaleContextError): # (the key was put before)
                replica.put(1, key, b"")

        calls = [put, replica.get, replica.row, lambda _: replica.count(), lambda key: replica.accept(key, {2: 1}, b"")]

        def repeat(call):
            begun.wait()
            with self.assertRaises(antientropy.EmptyError):
                for n in count():
                    call(b"%d" % (n % 1_000))
            ended.append(call)

        threads = [threading.Thread(target=repeat, args=(call,)) for call in calls]
        for thread in threads:
            thread.start()
        begun.wait()
        time.sleep(0.05)
        replica.close()
        for thread in threads:
            thread.join()
        self.assertCountEqual(ended, calls)

    def test_a_handler_runs_while_a_call_waits(self):
        taken, handled, ran = threading.Event(), threading.Event(), []

        def take(lock):
            with lock:
                taken.set()
                handled.wait(LONG)
                ran.append("another thread")

        def handle(*_):
            ran.append("handler")
            handled.set()

        self.addCleanup(signal.signal, signal.SIGALRM, signal.signal(signal.SIGALRM, handle))
        with Replica() as replica:
            thread = threading.Thread(target=take, args=(replica._lock,))
            thread.start()
            taken.wait()
            signal.setitimer(signal.ITIMER_REAL, 0.05)
            replica.put(1, b"key", b"")
            ran.append("put")
            thread.join()
        self.assertEqual(ran, ["handler", "another thread", "put"])


if __name__ == "__main__":
    unittest.main()
