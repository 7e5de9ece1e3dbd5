"""Moments: held, hashed, offered, and hashed in portions while other threads put."""

import random
import threading
import unittest
from itertools import islice

from antientropy import BadClockError, Replica

from tests.support import Hashing, ReplicaCase, reach, sync

KEYS, ROUNDS, LONG = 500, 4, 600


class MomentTest(ReplicaCase):
    def setUp(self):
        self.replica, self.partner = Replica(limit=1000), Replica(limit=1000)
        self.addCleanup(self.replica.close)
        self.addCleanup(self.partner.close)
        self.replica.put_many(1, ((b"key %d" % n, b"value") for n in range(20)))

    def copy_of(self, replica, entries):
        """A replica with the first entries of another one."""
        copy = Replica(replica.format)
        self.addCleanup(copy.close)
        for entry in islice(replica.entries(), entries):
            copy.accept(entry.key, entry.clock, entry.value)
        return copy

    def test_a_moment(self):
        self.replica.hold()
        self.replica.put(1, b"later", b"value")
        self.assertEqual(self.replica.count().front, 0)
        left = self.replica.hash_moment(0)
        while left:
            before, left = left, self.replica.hash_moment(5)
            self.assertIn(before - left, range(1, 6))
        self.assertEqual(self.replica.count().front, 20)
        with self.replica.moment() as moment:
            self.assertEqual((moment.entries, moment.format), (20, 2))
            self.assertEqual(moment.root(), self.copy_of(self.replica, 20).root())
        self.replica.drop_moment()
        self.assertEqual(self.replica.count().front, 20)

    def test_no_moment_is_left(self):
        """A call that holds a moment drops it, also if it is refused."""

        def assert_no_moment(front):
            self.assert_refused("Dirty", self.replica, self.replica.moment)
            self.assertEqual((self.replica.hash_moment(0), self.replica.count().front), (0, front))

        with self.replica.snapshot() as offered:
            assert_no_moment(20)
            self.assertEqual(self.replica.sync(2, offered.offer(7), reach(offered, 7)).asks, 0)
            assert_no_moment(20)
            self.replica.put(1, b"later", b"value")
            self.assertRaises(BadClockError, self.replica.exchange, 65_536, offered.offer(7))
            assert_no_moment(21)
            self.replica.put(1, b"last", b"value")
            self.replica.exchange(2, offered.offer(7)).close()
            assert_no_moment(22)

    def test_no_whole_moment(self):
        self.replica.rehash()
        self.assertEqual(self.replica.hash_moment(1), 0)
        self.assert_refused("Dirty", self.replica, self.replica.moment)
        self.replica.put(1, b"later", b"value")
        self.replica.hold()
        self.assert_refused("Dirty", self.replica, self.replica.moment)

    def test_puts_while_a_moment_is_hashed(self):
        """Each is over before the portion is hashed, so the lock is free."""
        numbers = iter(range(1000))

        def put():
            thread = threading.Thread(target=self.replica.put, args=(1, b"late %d" % next(numbers), b""), daemon=True)
            thread.start()
            thread.join(LONG)
            self.assertFalse(thread.is_alive())

        self.replica._library = Hashing(self.replica._library, put)
        with self.replica.snapshot() as snapshot, self.partner.snapshot() as offered:
            self.assertEqual(snapshot.entries, 20)
            self.assertEqual(snapshot.root(), self.copy_of(self.replica, 20).root())
            with self.replica.exchange(2, offered.offer(1)) as exchange:
                self.assertEqual(len(exchange.asks()), 1)
            before = next(numbers)
            self.assertTrue(self.replica.sync(2, offered.offer(1), reach(offered)).finished)
            self.assertGreater(next(numbers), before + 1)

    def test_a_later_moment_that_is_held_while_one_is_hashed(self):
        def put_and_hold():
            if self.replica.count().entries < 30:
                self.replica.put(1, b"late %d" % self.replica.count().entries, b"")
                self.replica.hold()

        self.replica._library = Hashing(self.replica._library, put_and_hold)
        with self.replica.snapshot() as snapshot:
            self.assertEqual((snapshot.entries, snapshot.root()), (30, self.copy_of(self.replica, 30).root()))

    def test_a_moment_that_is_dropped_while_it_is_hashed(self):
        """Another one is held."""
        drops = iter([self.replica.drop_moment])
        self.replica._library = Hashing(self.replica._library, lambda: next(drops, int)())
        with self.replica.snapshot() as snapshot:
            self.assertEqual((snapshot.entries, snapshot.root()), (20, self.copy_of(self.replica, 20).root()))

    def test_a_portion_whose_hashing_fails(self):
        """It is freed."""
        freed, library = [], self.replica._library
        self.replica._library = Hashing(library, lambda: int("no number"))
        self.replica._library.portion_free = lambda at: freed.append(library.portion_free(at))
        self.assertRaises(ValueError, self.replica.snapshot)
        self.assertTrue(freed)

    def test_snapshots_and_syncs_beside_puts(self):
        """Two threads take snapshots and sync, while a third one puts without pause."""
        busy, others = Replica(1), {node: Replica(1) for node in (2, 3)}
        for replica in (busy, *others.values()):
            self.addCleanup(replica.close)
        stop, taken = threading.Event(), {}

        def put():
            keys, clocks = random.Random(1), {}
            while not stop.is_set():
                key = b"%d" % keys.randrange(KEYS)
                clocks[key] = {1: busy.put(1, key, b"value", clocks.get(key, {})).counter}

        def sync_both_ways(node, other):
            for n in range(1, ROUNDS + 1):
                while busy.count().entries < n * KEYS:
                    pass
                other.put(node, b"%d of %d" % (n, node), b"value")
                self.assertEqual(sync(busy, other).accepted, 1)
                with busy.snapshot() as offered:
                    self.assertTrue(other.sync(1, offered.offer(1), reach(offered)).finished)
                    taken[node, n] = offered.entries, offered.root()

        threads = [threading.Thread(target=sync_both_ways, args=each, daemon=True) for each in others.items()]
        writer = threading.Thread(target=put, daemon=True)
        for thread in (writer, *threads):
            thread.start()
        for thread in threads:
            thread.join(LONG)
        stop.set()
        writer.join(LONG)
        self.assertEqual([thread.is_alive() for thread in (writer, *threads)], [False] * 3)
        for node, other in others.items():
            entries, root = taken[node, ROUNDS]
            self.assertEqual((root, root), (other.root(), self.copy_of(busy, entries).root()))
            sync(other, busy)
            self.assertEqual(other.root(), busy.root())


if __name__ == "__main__":
    unittest.main()
