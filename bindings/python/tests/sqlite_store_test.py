"""The store of examples/sqlite_store.py: acknowledged puts survive SIGKILL, and no counter goes back.

SIGKILL can't show a missing fsync: the kernel still has the writes of a killed process.
"""

import os
import random
import resource
import signal
import sqlite3
import tempfile
import threading
import time
import unittest
from pathlib import Path

import antientropy
from antientropy import Order, Replica, Version

from tests.store_case import MEMORY, SqliteStore, StoreCase, rows_of
from tests.store_process import Died, StoreProcess, create, sync
from tests.support import reach

KILLS, KEYS, LIMIT = 50, 12, 80


class Ledger:
    """The versions that a store has acknowledged or shown, and the greatest counter of its node for each key."""

    def __init__(self, node):
        self.node = node
        self.versions = {}
        self.counters = {}

    def note(self, key, version):
        """Records a version that the store has acknowledged or shown."""
        self.versions[key, tuple(version.clock.items()), version.value] = version
        self.counters[key] = max(self.counters.get(key, 0), version.clock.get(self.node, 0))

    def lost(self, replica):
        """The versions that a replica neither holds nor covers."""
        held = {key: replica.get(key) for key in replica.keys()}
        versions = [(key, version) for (key, _, _), version in self.versions.items()]
        return [(key, version) for key, version in versions if not is_kept(version, held.get(key, ()))]


def is_kept(version, held):
    """True if a version is held, or one that has seen it."""
    return any(other == version or antientropy.compare(version.clock, other.clock) is Order.BEFORE for other in held)


class Node:
    """A node under test: the file, the process and the ledger of its store."""

    def __init__(self, folder, number):
        self.number, self.path, self.ledger = number, Path(folder) / f"{number}.db", Ledger(number)
        self.process = None
        self.entries, self.root = [], Replica().root()
        create(self.path, number)

    def get(self, key):
        """Reads a key."""
        versions = [to_version(said) for said in self.process.ask("get", key.hex())]
        for version in versions:
            self.ledger.note(key, version)
        return versions

    def put(self, key, value):
        """Reads a key and puts it. Returns the new counter, and the greatest one of the node before."""
        context = antientropy.merge(*(version.clock for version in self.get(key)))
        before = self.ledger.counters.get(key, 0)
        _, counter = self.process.ask("put", key.hex(), value and value.hex(), list(context.items()))
        self.ledger.note(key, Version({**context, self.number: counter}, value))
        return counter, before

    def accept(self, key, clock, value):
        """Accepts a copy of another node."""
        self.process.ask("accept", key.hex(), list(clock.items()), value.hex())
        self.ledger.note(key, Version(clock, value))

    def journal(self):
        """The entries of the store."""
        said = self.process.ask("entries", None)
        entries = [(number, bytes.fromhex(key), *to_version(version)) for number, key, *version in said]
        for _, key, *version in entries:
            self.ledger.note(key, Version(*version))
        return entries

    def root_now(self):
        """The root of the store."""
        return antientropy.read_offer(bytes.fromhex(self.process.ask("offer"))).root


def to_version(said):
    """A version in a store's output."""
    clock, value = said
    return Version(dict(clock), None if value is None else bytes.fromhex(value))


def greatest(node, entries):
    """The greatest counter of a node for each key."""
    counters = {}
    for _, key, clock, _ in entries:
        counters[key] = max(counters.get(key, 0), clock.get(node, 0))
    return counters


class KillTest(unittest.TestCase):
    """Two stores are used, and killed in turn: nothing is lost, and no counter goes back."""

    def setUp(self):
        seed = int(os.environ.get("SEED", time.time_ns() % 1_000_000))
        print(f"SEED={seed}")
        self.random = random.Random(seed)
        folder = tempfile.TemporaryDirectory(dir=MEMORY)
        self.addCleanup(folder.cleanup)
        self.nodes = [Node(folder.name, number) for number in (1, 2)]
        self.steps = 0

    def test_kills(self):
        ways = [self.kill_after_a_step, self.kill_at_any_time, self.kill_in_a_renewal, self.kill_at_the_start]
        for _ in range(KILLS):
            self.start_all()
            victim = self.random.choice(self.nodes)
            self.random.choice(ways)(victim)
            self.check_end(victim)
            self.check_disk(victim)
        self.start_all()
        first, second = self.nodes
        sync(first.process, second.process, second.number)
        sync(second.process, first.process, first.number)
        self.assertEqual(first.root_now(), second.root_now())
        for node in self.nodes:
            node.process.kill()
            self.check_end(node)
            self.check_disk(node)

    # ---- use and death

    def start_all(self):
        """Starts the stores that have died, and checks their contents."""
        for node in self.nodes:
            if node.process is None:
                node.process = StoreProcess(node.path, LIMIT)
                self.assertEqual(node.process.start(), node.number)
                self.assertEqual((node.journal(), node.root_now()), (node.entries, node.root))
        self.check_counters(*self.nodes)
        self.check_counters(*reversed(self.nodes))

    def kill_after_a_step(self, victim):
        """Kills a store as soon as it has answered."""
        for _ in range(self.random.randrange(30)):
            self.step(self.random.choice(self.nodes))
        self.step(victim)
        victim.process.kill()

    def kill_at_any_time(self, victim):
        """Kills a store while it is used."""
        timer = threading.Timer(self.random.uniform(0, 0.1), victim.process.kill)
        timer.start()
        try:
            while True:
                self.step(self.random.choice(self.nodes))
        except Died as died:
            self.assertIs(died.process, victim.process)
        timer.join()

    def kill_in_a_renewal(self, victim):
        """Kills a store while it renews its replica, or soon after."""
        for _ in range(10):
            self.step(victim)
        victim.process.write(["renew"])
        time.sleep(self.random.uniform(0, 0.002))
        victim.process.kill()

    def kill_at_the_start(self, victim):
        """Kills a store, and again while it starts."""
        victim.process.kill()
        self.check_end(victim)
        victim.process = StoreProcess(victim.path, LIMIT)
        time.sleep(self.random.uniform(0, 0.15))
        victim.process.kill()

    def step(self, node):
        """Uses a store."""
        self.steps += 1
        key, value = b"key %d" % self.random.randrange(KEYS), b"value %d" % self.steps
        (other,) = (each for each in self.nodes if each is not node)
        step = self.random.randrange(100)
        if step < 60:
            counter, before = node.put(key, None if step < 5 else value)
            self.assertGreater(counter, before, "a counter went back")
        elif step < 75:
            node.get(key)
        elif step < 82:
            node.accept(key, {9: self.steps}, value)
        elif step < 94:
            sync(node.process, other.process, other.number)
            node.journal()
        else:
            node.process.ask("renew")

    # ---- checks

    def check_end(self, node):
        """A store ended because it was killed."""
        status, errors = node.process.end()
        self.assertEqual((status, errors), (-signal.SIGKILL, ""))
        node.process = None

    def check_disk(self, node):
        """The disk has the acknowledged entries. They make a replica, as the store must at its next start."""
        node.entries = rows_of(node.path)
        with Replica(limit=LIMIT) as replica:
            for place, (number, *version) in enumerate(node.entries):
                self.assertEqual(number, place)
                self.assertTrue(replica.accept(*version))
            self.assertEqual(node.ledger.lost(replica), [])
            node.root = replica.root()

    def check_counters(self, node, partner):
        """A partner has no counter of a node that the node itself has forgotten."""
        known = greatest(node.number, node.journal())
        for key, counter in greatest(node.number, partner.journal()).items():
            self.assertGreaterEqual(known.get(key, 0), counter)


class StoreTest(StoreCase):
    """A store in this process."""

    def test_versions_of_all_kinds(self):
        store = self.open()
        store.put(b"a", b"x")
        store.put(b"a", b"", {1: 1})
        store.put(b"b", None)
        store.accept(b"c", {9: (1 << 64) - 1, 2: 1}, bytes(65536))
        held = [store.get(key) for key in (b"a", b"b", b"c")]
        store = self.reopened(store)
        self.assertEqual([store.get(key) for key in (b"a", b"b", b"c")], held)
        self.assertEqual(held[:2], [[Version({1: 2}, b"")], [Version({1: 1}, None)]])
        self.assertEqual(store.put(b"a", b"y", {1: 2}), (4, 3))

    def test_rows(self):
        store = self.open()
        store.put(b"a", b"x")
        store.accept(b"b", [(3, 3), (2, 1)], None)
        self.assertEqual(rows_of(self.path), [(0, b"a", {1: 1}, b"x"), (1, b"b", {2: 1, 3: 3}, None)])

    def test_refused_calls_leave_no_row(self):
        store = self.open()
        store.put(b"a", b"x")
        with self.assertRaises(antientropy.StaleContextError):
            store.put(b"a", b"y")
        self.assertFalse(store.accept(b"a", {1: 1}, b"x"))
        self.assertEqual(len(rows_of(self.path)), 1)

    def test_renewal(self):
        store = self.open()
        for n in range(10):
            store.put(b"a", b"%d" % n, {1: n} if n else {})
        store.put(b"b", b"x")
        store.renew()
        self.assertEqual(sorted(row[1:] for row in rows_of(self.path)), [(b"a", {1: 10}, b"9"), (b"b", {1: 1}, b"x")])
        self.assertEqual(store.put(b"a", b"y", {1: 10}), (11, 11))
        self.assertEqual(rows_of(self.path)[2], (2, b"a", {1: 11}, b"y"))

    def test_entries_over_renewals(self):
        """A position stays valid, unless its reader has missed entries: then it is refused."""
        store, read = self.open(), []
        for n in range(10):
            store.put(b"a", b"%d" % n, {1: n} if n else {})
            store.put(b"%d" % n, b"x")
            read += store.entries(len(read))
            if n % 4 == 3:
                store.renew()
        self.assertEqual([entry.number for entry in read], list(range(20)))
        self.assertEqual(store.entries(20), [])
        for start in (15, 21):
            with self.assertRaises(antientropy.BadPositionError):
                store.entries(start)
        self.assertEqual(len(store.entries()), len(rows_of(self.path)))

    def test_a_full_journal_is_renewed(self):
        store = self.open(limit=3)
        for n in range(10):
            self.assertEqual(store.put(b"a", b"%d" % n, {1: n} if n else {}).counter, n + 1)
            self.assertEqual(rows_of(self.path)[-1], (len(rows_of(self.path)) - 1, b"a", {1: n + 1}, b"%d" % n))
        store.put(b"b", b"")
        store.put(b"c", b"")
        with self.assertRaises(antientropy.JournalFullError):
            store.put(b"d", b"")
        store = self.reopened(store, limit=3)
        self.assertEqual(store.get(b"a"), [Version({1: 10}, b"9")])

    def test_syncs(self):
        store = self.open(limit=5)
        for n in range(4):
            store.put(b"a", b"%d" % n, {1: n} if n else {})
        with Replica() as partner:
            partner.put_many(2, ((b"key %d" % n, b"") for n in range(4)))
            with partner.snapshot() as offered:
                self.assertTrue(store.sync(2, offered.offer(1), reach(offered)).finished)
                self.assertEqual(store.sync(2, store.snapshot().offer(1), reach(offered)).asks, 0)
        self.assertEqual(len(rows_of(self.path)), 5, "the journal was full, and is renewed")
        with store.snapshot() as snapshot:
            root = snapshot.root()
        with self.reopened(store, limit=5).snapshot() as snapshot:
            self.assertEqual(snapshot.root(), root)

    def test_a_sync_that_breaks(self):
        """The link is lost after the first 256 leaves: their versions are on the disk."""
        store, calls = self.open(limit=5000), []

        def reach_at_first(asks):
            calls.append(len(asks))
            if calls.count(256) > 2:
                raise ConnectionError
            return reach(offered)(asks)

        with Replica() as partner:
            partner.put_many(2, ((b"key %d" % n, b"") for n in range(2000)))
            with partner.snapshot() as offered, self.assertRaises(ConnectionError):
                store.sync(2, offered.offer(1), reach_at_first)
        self.assertGreater(len(store.entries()), 0)
        self.assertEqual(len(rows_of(self.path)), len(store.entries()))

    def test_a_lost_file_is_not_made_anew(self):
        lost = self.path.with_name("lost.db")
        with self.assertRaises(FileNotFoundError):
            SqliteStore(lost)
        self.assertFalse(lost.exists())

    def test_a_file_is_made_once(self):
        self.open().put(b"a", b"x")
        with self.assertRaises(FileExistsError):
            SqliteStore.create(self.path, 1)
        self.assertEqual(len(rows_of(self.path)), 1)

    def test_numbers_that_no_node_has(self):
        for node in (0, 65_536):
            with self.assertRaises(antientropy.BadClockError):
                SqliteStore.create(self.path.with_name("other.db"), node)
        self.assertEqual([path.name for path in self.path.parent.iterdir() if "other" in path.name], [])

    def test_a_file_has_one_store(self):
        self.open()
        with self.assertRaises(sqlite3.OperationalError):
            self.open()

    def test_too_many_rows_for_the_limit(self):
        store = self.open()
        for n in range(3):
            store.put(b"%d" % n, b"")
        with self.assertRaisesRegex(ValueError, "3 versions are held, but the limit is 2"):
            self.reopened(store, limit=2)
        self.assertEqual(len(self.open(limit=3).entries()), 3)

    def test_a_smaller_limit_for_what_is_held(self):
        store = self.open()
        for n in range(5):
            store.put(b"a", b"%d" % n, {1: n} if n else {})
        store = self.reopened(store, limit=2)
        self.assertEqual(rows_of(self.path), [(0, b"a", {1: 5}, b"4")])
        store.put(b"b", b"x")
        with self.assertRaises(antientropy.JournalFullError):
            store.put(b"c", b"x")

    def test_a_commit_is_synced(self):
        """SQLite calls fsync at each commit. Its effect on the disk isn't tested."""
        database = self.open()._file._database
        self.assertEqual(database.execute("PRAGMA journal_mode").fetchone(), ("wal",))
        self.assertEqual(database.execute("PRAGMA synchronous").fetchone(), (2,))

    def test_a_start_makes_a_checkpoint(self):
        process = StoreProcess(self.path, 100)
        process.start()
        process.ask("put", b"a".hex(), b"x".hex(), [])
        process.kill()
        process.end()
        log = self.path.with_name(f"{self.path.name}-wal")
        self.assertGreater(log.stat().st_size, 0)
        store = self.open()
        self.assertEqual(log.stat().st_size, 0)
        self.assertEqual(store.get(b"a"), [Version({1: 1}, b"x")])

    def test_a_failed_commit_ends_the_process(self):
        """File sizes are limited: nothing that didn't fit was acknowledged."""
        most = 200_000
        process = StoreProcess(self.path, 1000, lambda: resource.setrlimit(resource.RLIMIT_FSIZE, (most, most)))
        process.start()
        acknowledged = 0
        with self.assertRaises(Died):
            while acknowledged < 100:
                process.ask("put", (b"%d" % acknowledged).hex(), bytes(4096).hex(), [])
                acknowledged += 1
        status, errors = process.end()
        self.assertEqual((status, errors[:31]), (1, "the entries aren't on the disk:"))
        self.assertGreater(acknowledged, 10)
        self.assertEqual(len(self.open(limit=1000).entries()), acknowledged)


if __name__ == "__main__":
    unittest.main()
