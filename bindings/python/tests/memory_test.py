"""Objects that are dropped, closed or in cycles leave nothing: memory doesn't grow after the first thousand."""

import gc
import os
import unittest

from antientropy import Replica

PAGE = os.sysconf("SC_PAGE_SIZE")


def resident():
    """The bytes of this process that are in memory."""
    with open("/proc/self/statm", encoding="ascii") as file:
        return int(file.read().split()[1]) * PAGE


def with_a_key():
    replica = Replica(1)
    replica.put(1, b"cart", b"milk")
    return replica


class MemoryTest(unittest.TestCase):
    def check(self, call):
        """Makes a call 10,000 times. The memory in use is at most 1.1 times the memory after the first 1,000."""
        for _ in range(1_000):
            call()
        gc.collect()
        before = resident()
        for _ in range(9_000):
            call()
        gc.collect()
        self.assertLessEqual(resident(), 1.1 * before)

    def test_dropped(self):
        self.check(with_a_key)

    def test_closed(self):
        closed = []
        self.check(lambda: closed.append(with_a_key()) or closed.pop().close())

    def test_in_cycles(self):
        def in_a_cycle():
            replica = with_a_key()
            replica.itself = replica

        self.check(in_a_cycle)

    def test_snapshots(self):
        replica = with_a_key()

        def dropped():
            replica.snapshot().share().root()

        self.check(dropped)

    def test_exchanges(self):
        """One that is dropped is closed when the next one is opened."""
        replica, partner = Replica(1), with_a_key()
        offer = partner.snapshot().offer(1)
        self.check(lambda: self.assertEqual(len(replica.exchange(1, offer).asks()), 1))
        self.assertLessEqual(replica.count().sessions, 1)


if __name__ == "__main__":
    unittest.main()
