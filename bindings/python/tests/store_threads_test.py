"""Threads that share a store of examples/sqlite_store.py: the disk, syncs in progress, and renewals."""

import threading
import unittest

import antientropy
from antientropy import Replica, Version

from tests.store_case import SqliteStore, StoreCase, rows_of
from tests.support import Hashing, reach

THREADS, LONG = 20, 600


class Disk:
    """The statements of a store, whose commits wait while `go` isn't set."""

    def __init__(self, store):
        self.statements = []
        self.go, self.is_waiting = threading.Event(), threading.Event()
        store._file._database.set_trace_callback(self._see)

    def count(self, statement):
        return self.statements.count(statement)

    def _see(self, statement):
        self.statements.append(statement)
        if statement == "COMMIT":
            self.is_waiting.set()
            self.go.wait(LONG)


class Later(threading.Thread):
    """A call in a thread."""

    def __init__(self, call, *args):
        super().__init__(daemon=True)
        self._call, self._args = call, args
        self.result = None
        self.start()

    def run(self):
        try:
            self.result = self._call(*self._args)
        except antientropy.AntientropyError as refused:
            self.result = refused.name

    def end(self):
        """Waits for the end, and returns the result, or the name of the refusal."""
        self.join(LONG)
        assert not self.is_alive()
        return self.result


class ThreadsTest(StoreCase):
    def setUp(self):
        super().setUp()
        self.partner = Replica()
        self.addCleanup(self.partner.close)
        self.partner.put_many(2, ((b"key %d" % n, b"of the partner") for n in range(300)))
        self.offered = self.partner.snapshot()
        self.addCleanup(self.offered.close)

    def assert_has_all(self, store, *keys):
        """The store has the partner's versions and some keys of its own, in memory and on the disk."""
        keys = sorted([*self.partner.keys(), *keys])
        for _ in range(2):
            self.assertEqual(sorted(store._replica.keys()), keys)
            store = self.reopened(store, limit=1000)

    # ---- the disk

    def test_threads_share_a_commit(self):
        store = self.open()
        disk = Disk(store)
        first = Later(store.put, b"first", b"")
        disk.is_waiting.wait(LONG)
        others = [Later(store.put, b"%d" % n, b"") for n in range(THREADS)]
        while store._replica.count().entries < 1 + THREADS:
            pass
        disk.go.set()
        numbers = sorted(each.end().number for each in [first, *others])
        self.assertEqual(numbers, list(range(1 + THREADS)))
        self.assertEqual(disk.count("COMMIT"), 2)
        self.assertEqual(len(rows_of(self.path)), 1 + THREADS)

    def test_nothing_is_shown_before_it_is_on_the_disk(self):
        store = self.open()
        disk = Disk(store)
        put = Later(store.put, b"a", b"x")
        disk.is_waiting.wait(LONG)
        self.assertEqual(store._replica.count().entries, 1)
        calls = [
            Later(store.get, b"a"),
            Later(store.entries),
            Later(store.snapshot),
            Later(store.accept, b"a", {1: 1}, b"x"),
            Later(store.put, b"a", b"y"),
            Later(store.renew),
            put,
        ]
        for call in calls:
            call.join(0.02)
            self.assertTrue(call.is_alive())
        disk.go.set()
        held, entries, snapshot, is_new, refusal, _, receipt = [call.end() for call in calls]
        self.assertEqual(held, [Version({1: 1}, b"x")])
        self.assertEqual(len(entries), 1)
        self.assertEqual(snapshot.root(), store.snapshot().root())
        self.assertEqual((is_new, refusal, receipt), (False, "StaleContext", (0, 1)))

    def test_many_threads(self):
        store = self.open(limit=120)

        def put(thread):
            for n in range(THREADS):
                store.put(b"%d" % thread, b"%d" % n, {1: n} if n else {})
                self.assertEqual(store.get(b"%d" % thread), [Version({1: n + 1}, b"%d" % n)])
            return thread

        threads = [Later(put, thread) for thread in range(THREADS)]
        self.assertEqual([thread.end() for thread in threads], list(range(THREADS)))
        store = self.reopened(store, limit=120)
        for thread in range(THREADS):
            self.assertEqual(store.get(b"%d" % thread), [Version({1: THREADS}, b"%d" % (THREADS - 1))])

    # ---- syncs in progress

    def sync(self, store, before):
        """Syncs from the partner. It calls a function before each answer."""

        def answer(asks):
            before()
            return reach(self.offered)(asks)

        return store.sync(2, self.offered.offer(1), answer)

    def test_calls_while_a_sync_hangs(self):
        store, asked, go = self.open(limit=1000), threading.Event(), threading.Event()
        sync = Later(self.sync, store, lambda: (asked.set(), go.wait(LONG)))
        asked.wait(LONG)
        store.put(b"a", b"x")
        self.assertEqual(store.get(b"a"), [Version({1: 1}, b"x")])
        store.snapshot().close()
        self.assertTrue(sync.is_alive())
        go.set()
        self.assertTrue(sync.end().finished)
        self.assert_has_all(store, b"a")

    def test_a_renewal_while_a_sync_hangs(self):
        store, asked, go = self.open(limit=1000), threading.Event(), threading.Event()
        sync = Later(self.sync, store, lambda: (asked.set(), go.wait(LONG)))
        asked.wait(LONG)
        store.put(b"a", b"x")
        store.renew()
        store.put(b"b", b"x")
        go.set()
        self.assertTrue(sync.end().finished)
        self.assert_has_all(store, b"a", b"b")

    def test_a_sync_that_ends_while_a_renewal_writes(self):
        """Versions taken since then aren't in the new replica: the sync restarts."""
        store, asked, go = self.open(limit=1000), threading.Event(), threading.Event()
        store.put(b"a", b"x")
        sync = Later(self.sync, store, lambda: (asked.set(), go.wait(LONG)))
        asked.wait(LONG)
        disk, old = Disk(store), store._replica
        renewal = Later(store.renew)
        disk.is_waiting.wait(LONG)
        go.set()
        while old.count().entries < 301:
            pass
        sync.join(0.05)
        disk.go.set()
        renewal.end()
        self.assertTrue(sync.end().finished)
        self.assert_has_all(store, b"a")

    def test_renewals_at_each_answer(self):
        store, renewals = self.open(limit=1000), []

        def renew():
            if len(renewals) < 5:
                store.put(b"%d" % len(renewals), b"")
                store.renew()
                renewals.append(None)

        self.assertTrue(self.sync(store, renew).finished)
        self.assert_has_all(store, *(b"%d" % n for n in range(5)))

    def test_a_sync_that_fills_the_journal(self):
        store = self.open(limit=310)
        for n in range(100):
            store.put(b"a", b"%d" % n, {1: n} if n else {})
        self.assertTrue(self.sync(store, lambda: None).finished)
        self.assert_has_all(store, b"a")

    def test_a_sync_that_has_no_room(self):
        store = self.open(limit=290)
        for _ in range(2):
            with self.assertRaises(antientropy.JournalFullError):
                self.sync(store, lambda: None)
        self.assertEqual(len(rows_of(self.path)), len(store.entries()))

    def test_a_store_closed_while_it_syncs(self):
        store = self.open(limit=1000)
        with self.assertRaises(antientropy.EmptyError):
            self.sync(store, store.close)
        with self.assertRaises(antientropy.EmptyError):
            store.put(b"a", b"x")
        self.assertEqual(len(self.open(limit=1000).entries()), 0)

    # ---- renewals

    def test_a_renewal_while_a_snapshot_is_made(self):
        """The snapshot is the new replica's, even if the old one's is made already or being hashed."""
        store = self.open()

        def renew():
            if store._replica is old:
                Later(store.renew).end()

        def renew_after():
            snapshot = Replica.snapshot(old)
            renew()
            return snapshot

        for name, value in (("snapshot", renew_after), ("_library", Hashing(store._replica._library, renew))):
            store.put(name.encode(), b"x")
            store.put(name.encode(), b"y", {1: 1})
            old = store._replica
            setattr(old, name, value)
            with store.snapshot() as snapshot:
                self.assertEqual(snapshot.root(), store._replica.root())
                self.assertEqual(snapshot.entries, store._replica.count().entries)
            self.assertIsNot(store._replica, old)

    def test_a_full_store_refuses_at_once(self):
        store = self.open(limit=100)
        disk = Disk(store)
        disk.go.set()
        for n in range(100):
            store.put(b"%d" % n, b"")
        for _ in range(50):
            with self.assertRaises(antientropy.JournalFullError):
                store.put(b"more", b"")
        self.assertLessEqual(disk.count("DELETE FROM entry"), 3)

    def test_few_renewals(self):
        store = self.open(limit=100)
        disk = Disk(store)
        disk.go.set()
        for n in range(80):
            store.put(b"%d" % n, b"")
        for n in range(100):
            store.put(b"a", b"", {1: n} if n else {})
        self.assertIn(disk.count("DELETE FROM entry"), range(5, 15))

    def test_syncs_need_no_renewal(self):
        store = self.open(limit=1000)
        disk = Disk(store)
        disk.go.set()
        for n in range(40):
            self.partner.put(2, b"one more %d" % n, b"")
            with self.partner.snapshot() as offered:
                self.assertTrue(store.sync(2, offered.offer(1), reach(offered)).finished)
            self.assertEqual(store._replica.count().sessions, 0)
        self.assertEqual(disk.count("DELETE FROM entry"), 0)
        self.assert_has_all(store)


if __name__ == "__main__":
    unittest.main()
