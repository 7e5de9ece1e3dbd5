"""Renewals in place while another thread puts, and renewals that puts start."""

import threading
import time
import unittest

import antientropy
from antientropy import BadPositionError, DirtyError, JournalFullError, Replica, Report, StaleError, Version

from tests.support import ReplicaCase, sync

KEYS, RENEWALS, LONG = 100, 5, 600


class Built:
    """A library that calls a function after each build of a new replica."""

    def __init__(self, library, function):
        self._library, self._function = library, function

    def __getattr__(self, name):
        return getattr(self._library, name)

    def renewal_build(self, renewal):
        number = self._library.renewal_build(renewal)
        self._function()
        return number


class Writer:
    """Puts its keys in turn, each after its last put, and logs the entries after each put."""

    def __init__(self, replica):
        self.replica, self.puts, self.position, self.log = replica, 0, 0, {}

    def put(self):
        key, context = b"%d" % (self.puts % KEYS), [(1, self.puts // KEYS)] if self.puts >= KEYS else ()
        receipt = self.replica.put(1, key, b"%d" % self.puts, context)
        if receipt != (self.puts, self.puts // KEYS + 1):
            raise AssertionError(receipt)
        self.puts += 1
        self.read()

    def read(self):
        """Logs the entries from the position on, or the whole journal if it missed some."""
        try:
            entries = list(self.replica.entries(self.position))
        except BadPositionError:
            entries = list(self.replica.entries())
        for entry in entries:
            self.log[entry.number] = entry
            self.position = entry.number + 1

    def put_until(self, stop):
        while not stop.is_set():
            self.put()


class RenewalTest(ReplicaCase):
    def setUp(self):
        self.replica = Replica(limit=10_000)
        self.addCleanup(self.replica.close)

    def test_renew_in_place(self):
        self.replica.put(1, b"a", b"x")
        self.replica.put(1, b"a", b"y", {1: 1})
        root = self.replica.root()
        self.replica.renew_in_place(5)
        counts = self.replica.count()
        self.assertEqual((counts.limit, counts.first, counts.entries), (5, 1, 2))
        self.assertEqual((self.replica.get(b"a"), self.replica.root()), ([Version({1: 2}, b"y")], root))
        self.assertEqual(list(self.replica.entries(2)), [])
        self.assertEqual(self.replica.put(1, b"b", b"z").number, 2)
        self.assertEqual([entry.key for entry in self.replica.entries(2)], [b"b"])
        self.assert_refused("BadPosition", self.replica, self.replica.entries, 0)
        self.assertRaises(DirtyError, self.replica.moment)

    def test_refusals(self):
        for n in range(3):
            self.replica.put(1, b"%d" % n, b"")
        rows = [self.replica.row(key) for key in self.replica.keys()]
        for name, limit in (("BadRing", 0), ("BadRing", 1_000_001), ("JournalFull", 2)):
            with self.subTest(name):
                entries = list(self.replica.entries())
                with self.assertRaises(getattr(antientropy, f"{name}Error")) as caught:
                    self.replica.renew_in_place(limit)
                self.assertEqual(caught.exception.call, "renewal_build")
                self.assertEqual([self.replica.row(key) for key in self.replica.keys()], rows)
                self.assertEqual(list(self.replica.entries()), entries)
        with self.assertRaises(OverflowError):
            self.replica.renew_in_place(-1)

    def test_sessions_end(self):
        partner = Replica()
        self.addCleanup(partner.close)
        partner.put(2, b"a", b"x")
        with partner.snapshot() as offered, self.replica.exchange(2, offered.offer(1)) as exchange:
            self.replica.renew_in_place(100)
            self.assertIs(exchange.progress().report, Report.GONE)
        self.assertEqual(sync(self.replica, partner).accepted, 1)

    def test_beside_puts(self):
        writer, stop = Writer(self.replica), threading.Event()
        thread = threading.Thread(target=writer.put_until, args=(stop,), daemon=True)
        thread.start()
        for n in range(1, RENEWALS + 1):
            while thread.is_alive() and self.replica.count().entries < 2 * n * KEYS:
                time.sleep(0.001)
            self.replica.renew_in_place(10_000)
        stop.set()
        thread.join(LONG)
        self.assertFalse(thread.is_alive())
        self.assertEqual(self.replica.count().entries, writer.puts)
        self.assertGreater(self.replica.count().first, KEYS)
        self.assertEqual([self.replica.get(b"%d" % n)[0].clock for n in range(KEYS)],
                         [{1: (writer.puts + KEYS - 1 - n) // KEYS} for n in range(KEYS)])
        with Replica() as restored:
            for _, entry in sorted(writer.log.items()):
                restored.accept(entry.key, entry.clock, entry.value)
            self.assertEqual(restored.root(), self.replica.root())

    def test_a_renewal_catches_up(self):
        """Many entries were put meanwhile."""
        def put():
            self.replica.put_many(1, ((b"a", b"", [(1, n)] if n else ()) for n in range(2_000)))

        self.replica._library = Built(self.replica._library, put)
        self.replica.renew_in_place(10_000)
        self.assertEqual(self.replica.get(b"a"), [Version({1: 2_000}, b"")])
        self.assertEqual((self.replica.count().first, self.replica.count().entries), (0, 2_000))

    def test_stale(self):
        """Another renewal ends first. Nothing is lost."""
        library = self.replica._library
        self.replica.put_many(1, ((b"a", b"", [(1, n)] if n else ()) for n in range(5)))

        def renew():
            self.replica._library = library
            self.replica.renew_in_place(9)

        self.replica._library = Built(library, renew)
        self.assertRaises(StaleError, self.replica.renew_in_place, 10)
        self.assertEqual(self.replica.count()[:2], (5, 9))
        self.assertEqual(self.replica.get(b"a"), [Version({1: 5}, b"")])


class KeeperTest(unittest.TestCase):
    def wait_for(self, replica):
        end = time.monotonic() + LONG
        while replica._keeper._is_at_work and time.monotonic() < end:
            time.sleep(0.001)

    def test_when_a_renewal_is_due(self):
        with Replica() as replica:
            for limit, first, held, due in (
                (100, 0, 0, 90), (101, 0, 0, 91), (100, 50, 80, 140), (100, 50, 90, 145), (100, 0, 99, 100),
                (100, 0, 100, 101), (1, 0, 0, 1),
            ):
                keeper = replica._keeper
                keeper._limit, keeper._first, keeper._held = limit, first, held
                self.assertEqual((keeper.is_due(due - 1), keeper.is_due(due)), (False, True), (limit, first, held))

    def test_puts_of_one_key(self):
        """One key is put many times as often as the journal has entries, without any other call."""
        puts, done = 100_000, 0
        with Replica(limit=2_000, renew=True) as replica:
            while done < puts:
                try:
                    done += len(replica.put_many(1, ((b"a", b"", [(1, n)] if n else ()) for n in range(done, puts))))
                except JournalFullError as full: # (the journal is full until the renewal has ended)
                    done += len(full.done)
                    time.sleep(0.0001)
            self.wait_for(replica)
            self.assertEqual((replica.get(b"a"), replica.count().entries), ([Version({1: puts}, b"")], puts))
            self.assertGreater(replica.count().first, puts - 2_001)

    def test_each_call_that_fills_the_journal(self):
        calls = {
            "put": lambda replica, n: replica.put(1, b"a", b"", [(1, n)] if n else ()),
            "put_unread": lambda replica, n: replica.put_unread(1, b"a", b"", [(1, n)] if n else ()),
            "accept": lambda replica, n: replica.accept(b"a", {1: n + 1}, b""),
            "load_rows": self.load,
        }
        for name, call in calls.items():
            with self.subTest(name), Replica.seeded(1, 2, limit=10, renew=True) as replica:
                for n in range(100):
                    call(replica, n)
                    self.wait_for(replica)
                self.assertEqual((replica.count().entries, replica.get(b"a")), (100, [Version({1: 100}, b"")]))

    def load(self, replica, n):
        with Replica() as other:
            other.accept(b"a", {1: n + 1}, b"")
            replica.load_rows(other.row(b"a"))

    def test_rows_fill_the_journal(self):
        with Replica(limit=100, renew=True) as replica:
            for n in range(100):
                replica.put(1, b"%d" % n, b"")
            self.wait_for(replica)
            self.assertRaises(JournalFullError, replica.put, 1, b"last", b"")
            self.assertEqual(len(list(replica.keys())), 100)

    def test_close_while_a_thread_renews(self):
        replica = Replica(limit=10, renew=True)
        replica._library = Built(replica._library, replica.close)
        replica.put_many(1, ((b"a", b"", [(1, n)] if n else ()) for n in range(9)))
        self.wait_for(replica)
        self.assertFalse(replica._struct.held or replica._keeper._is_at_work)

    def test_no_renewal_without_the_keyword(self):
        with Replica(limit=10) as replica:
            replica.put_many(1, ((b"a", b"", [(1, n)] if n else ()) for n in range(10)))
            self.assertRaises(JournalFullError, replica.put, 1, b"b", b"")


if __name__ == "__main__":
    unittest.main()
