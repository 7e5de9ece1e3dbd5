"""Several threads that share one replica."""

import threading
import unittest

from antientropy import Replica

from tests.support import reach

THREADS, PUTS = 4, 500


class ThreadsTest(unittest.TestCase):
    def test_threads_share_a_replica(self):
        with Replica() as replica, Replica() as copy:
            threads = [threading.Thread(target=self.put, args=(replica, node)) for node in range(1, THREADS + 1)]
            for thread in threads:
                thread.start()
            while any(thread.is_alive() for thread in threads):
                self.sync(copy, replica)
            for thread in threads:
                thread.join()
            self.sync(copy, replica)
            self.assertEqual(replica.count().entries, THREADS * PUTS)
            self.assertEqual(copy.root(), replica.root())

    def put(self, replica, node):
        for n in range(PUTS):
            key = b"%d of %d" % (n, node)
            replica.put(node, key, key)
            self.assertEqual([version.value for version in replica.get(key)], [key])

    def sync(self, copy, replica):
        with replica.snapshot() as snapshot:
            self.assertTrue(copy.sync(1, snapshot.offer(1), reach(snapshot)).finished)

    def test_a_thread_serves_a_snapshot(self):
        with Replica() as replica, Replica() as copy:
            for n in range(PUTS):
                replica.put(1, b"%d" % n, b"")
            with replica.snapshot() as snapshot:
                thread = threading.Thread(target=copy.sync, args=(1, snapshot.offer(1), reach(snapshot)))
                thread.start()
                self.put(replica, 2)
                thread.join()
            self.assertEqual(copy.count().entries, PUTS)

    def test_threads_read_the_rows_of_a_snapshot(self):
        with Replica() as replica:
            self.put(replica, 1)
            rows, read = [(key, replica.row(key)) for key in replica.keys()], []
            with replica.snapshot() as snapshot:
                shared = [snapshot.share() for _ in range(THREADS)]
            for each in shared:
                self.addCleanup(each.close)
            threads = [
                threading.Thread(target=lambda of: read.append([(key, of.row(key)) for key in of.keys()]), args=(each,))
                for each in shared
            ]
            for thread in threads:
                thread.start()
            self.put(replica, 2)
            for thread in threads:
                thread.join()
            self.assertEqual(read, [rows] * THREADS)

    def test_many_puts_at_once(self):
        with Replica() as replica:
            receipts = {}
            nodes = range(1, THREADS + 1)
            threads = [threading.Thread(target=self.put_many, args=(replica, node, receipts)) for node in nodes]
            for thread in threads:
                thread.start()
            for thread in threads:
                thread.join()
            numbers = sorted(receipt.number for each in receipts.values() for receipt in each)
            self.assertEqual(numbers, list(range(THREADS * PUTS)))
            for node, each in receipts.items():
                self.assertEqual([replica.entry(receipt.number).clock for receipt in each], [{node: 1}] * PUTS)

    def put_many(self, replica, node, receipts):
        receipts[node] = replica.put_many(node, ((b"%d of %d" % (n, node), b"value") for n in range(PUTS)))

    def test_a_lock_for_each_handle(self):
        with Replica() as replica, replica.snapshot() as snapshot, snapshot.share() as shared, Replica() as other:
            locks = {id(handle._lock) for handle in (replica, snapshot, shared, other)}
            self.assertEqual(len(locks), 4)
            for put in (lambda: replica.put(1, b"k", b""), lambda: replica.put_many(1, [(b"l", b"")])):
                done = threading.Event()
                thread = threading.Thread(target=lambda: (put(), done.set()))
                with replica._lock:
                    thread.start()
                    self.assertFalse(done.wait(0.05))
                    snapshot.root()
                thread.join()
                self.assertTrue(done.is_set())


if __name__ == "__main__":
    unittest.main()
