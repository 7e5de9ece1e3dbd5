"""Signal handlers that use the objects whose calls they interrupt."""

import faulthandler
import io
import signal
import unittest

from antientropy import Hints, Replica
from antientropy._calls import CALLS, READS

from tests.support import crowd, sync

PUTS = 5000


class Interrupted:
    """A library whose calls are each followed by a signal, before their results are read, or some of its calls are."""

    def __init__(self, library, calls=(*CALLS, *READS)):
        self._library, self._calls = library, calls

    def __getattr__(self, name):
        found = getattr(self._library, name)
        return self._interrupted(found) if name in self._calls else found

    def _interrupted(self, function):
        def call(*args):
            number = function(*args)
            signal.raise_signal(signal.SIGUSR1)
            return number

        return call


def use(replica, hints):
    """Results of calls of many kinds."""
    results = [replica.put(1, b"cart", b"milk"), replica.put_many(2, [(b"tea", b"green"), (b"jam", b"plum")])]
    results += [replica.accept(b"cart", {3: 1}, b"eggs")]
    results += [replica.accept(b"large", {node: 1}, b"v" * 4096) for node in range(1, 21)]
    crowd(replica, first=4)
    partner = Replica(1)
    partner.put_many(9, [(b"%d" % n, b"value") for n in range(20)])
    results += [sync(replica, partner), replica.get(b"cart"), replica.get(b"crowded"), replica.row(b"large")]
    results += [list(replica.keys()), list(replica.entries())]
    results += [replica.count().entries, replica.top_counter(1, b"cart"), replica.load_rows(replica.row(b"tea"))]
    results += [replica.packed_entries(room=100), replica.about(), replica.drop_sessions(), replica.count_bytes()]
    with replica.snapshot() as snapshot, snapshot.share() as shared:
        results += [snapshot.entries, snapshot.root(), snapshot.offer(1), snapshot.rows(0), replica.renew().count()]
        results += [shared.entries, list(shared.keys()), shared.row(b"cart"), shared.digest(1, 0), shared.count_bytes()]
    results += [hints.keep(2, b"cart", {1: 1}, b"milk"), hints.keep(2, b"tea", {1: 2}, None), list(hints.pending(2))]
    results += [hints.confirm(1), hints.count(), hints.count_bytes(), replica.renew_in_place(), replica.count().first]
    return results + [replica.migrate(), replica.root()]


class SignalsTest(unittest.TestCase):
    def setUp(self):
        faulthandler.dump_traceback_later(1200, exit=True)
        self.addCleanup(faulthandler.cancel_dump_traceback_later)

    def interrupt_by(self, number, handler):
        """Makes a handler that its own calls don't interrupt, and returns the list of its results."""
        results, running = [], []

        def run(*_):
            if not running:
                running.append(True)
                results.append(handler())
                running.clear()

        self.addCleanup(signal.signal, number, signal.signal(number, run))
        return results

    def test_a_handler_reads(self):
        replica, hints = Replica(1), Hints()
        wanted = use(Replica(1), Hints())
        replica._library, hints._library = Interrupted(replica._library), Interrupted(hints._library)
        reads = [
            lambda: (replica.count(), replica.get(b"cart"), replica.row(b"large"), list(hints.pending(2))),
            lambda: (list(replica.entries()), list(replica.keys_of(0)), replica.save(io.BytesIO()), hints.count()),
        ]
        turns = self.interrupt_by(signal.SIGUSR1, lambda: reads[len(turns) % 2]())
        self.assertEqual(use(replica, hints), wanted)
        self.assertGreater(len(turns), 200)

    def test_a_handler_shares_a_snapshot(self):
        with Replica(1) as replica:
            replica.put(1, b"cart", b"milk")
            row, root, snapshot = replica.row(b"cart"), replica.root(), replica.snapshot()
        snapshot._library = Interrupted(snapshot._library)

        def read():
            with snapshot.share() as shared:
                return shared.row(b"cart")

        turns = self.interrupt_by(signal.SIGUSR1, read)
        self.assertEqual((snapshot.row(b"cart"), list(snapshot.keys())), (row, [b"cart"]))
        self.assertEqual((snapshot.root(), snapshot.digest(0, 0)), (root, root))
        self.assertEqual(set(turns), {row})

    def test_a_handler_changes_nothing(self):
        replica, hints = Replica(1), Hints()
        wanted, offer = use(Replica(1), Hints()), Replica(1).snapshot().offer(1)
        replica._library, hints._library = Interrupted(replica._library), Interrupted(hints._library)
        changes = [
            lambda: replica.put(1, b"other", b""),
            lambda: replica.put_many(1, [(b"other", b"")]),
            lambda: replica.accept(b"other", {1: 1}, b""),
            lambda: replica.load_rows(b""),
            lambda: replica.sync(1, offer, list),
            replica.hold,
            replica.drop_sessions,
            replica.renew_in_place,
            replica.migrate,
            replica.close,
        ]

        def change():
            if replica._lock._is_owned():
                with self.assertRaisesRegex(RuntimeError, "interrupted a call of this Replica: it may only read"):
                    changes[len(turns) % len(changes)]()
            if hints._lock._is_owned():
                with self.assertRaisesRegex(RuntimeError, "interrupted a call of this Hints: it may only read"):
                    hints.confirm(1)

        turns = self.interrupt_by(signal.SIGUSR1, change)
        self.assertEqual(use(replica, hints), wanted)
        self.assertGreater(len(turns), 200)

    def test_a_handler_holds_another_moment(self):
        """It puts while a moment is hashed, and takes a snapshot before the moment's is counted."""
        replica = Replica()
        replica.put(1, b"first", b"")
        replica._library = Interrupted(replica._library, ("hash_portion", "moment"))

        def use_replica():
            if replica._lock._is_owned():
                replica.snapshot().close()
            else:
                replica.put(1, b"%d" % len(turns), b"")

        turns = self.interrupt_by(signal.SIGUSR1, use_replica)
        with replica.snapshot() as snapshot, Replica() as other:
            for entry in list(replica.entries())[: snapshot.entries]:
                other.accept(entry.key, entry.clock, entry.value)
            self.assertIn(snapshot.entries, range(1, replica.count().entries))
            self.assertEqual(other.root(), snapshot.root())

    def test_a_handler_each_millisecond(self):
        replica = Replica(limit=PUTS)
        counts = self.interrupt_by(signal.SIGALRM, lambda: replica.count().entries)
        self.addCleanup(signal.setitimer, signal.ITIMER_REAL, 0)
        signal.setitimer(signal.ITIMER_REAL, 0.001, 0.001)
        receipts = [replica.put(1, b"%d" % n, b"value") for n in range(PUTS)]
        signal.setitimer(signal.ITIMER_REAL, 0)
        self.assertEqual([receipt.number for receipt in receipts], list(range(PUTS)))
        self.assertTrue(counts)
        self.assertEqual(counts, sorted(counts))


if __name__ == "__main__":
    unittest.main()
