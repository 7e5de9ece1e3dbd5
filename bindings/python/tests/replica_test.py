"""Versions, the journal and the tree of a replica."""

import unittest

import antientropy
from antientropy import ByteCounts, Kind, Order, Receipt, Replica, Source, Version

from tests.support import ReplicaCase, crowd


def length_of_rows(replica):
    """The total length of the rows that a replica holds."""
    return sum(len(replica.row(key)) for key in replica.keys())


def length_of_entries(replica):
    """The total length of the entries of a journal, with 10 bytes for each pair of a clock."""
    return sum(len(key) + len(value or b"") + 10 * len(clock) for _, key, clock, value, _ in replica.entries())


class ReplicaTest(ReplicaCase):
    def setUp(self):
        self.replica = Replica(limit=1000)
        self.addCleanup(self.replica.close)

    def test_put_and_get(self):
        self.assertEqual(self.replica.put(1, b"k", b"one"), Receipt(0, 1))
        self.assertEqual(self.replica.put(1, b"k", b"two", {1: 1}), Receipt(1, 2))
        self.assertEqual(self.replica.get(b"k"), [Version({1: 2}, b"two")])
        self.assertEqual(self.replica.get(b"other"), [])

    def test_context_as_pairs(self):
        self.replica.put(1, b"k", b"one")
        self.replica.put(2, b"k", b"two", [(1, 1)])
        self.replica.put(2, b"k", b"three", iter(((2, 1), (1, 1))))
        self.assertEqual(self.replica.get(b"k"), [Version({1: 1, 2: 2}, b"three")])

    def test_tombstone(self):
        self.replica.delete(1, b"k")
        (version,) = self.replica.get(b"k")
        self.assertEqual((version.value, version.kind), (None, Kind.TOMBSTONE))
        self.replica.put(1, b"k", b"", version.clock)
        (version,) = self.replica.get(b"k")
        self.assertEqual((version.value, version.kind), (b"", Kind.LIVE))

    def test_value_that_is_none(self):
        """A value that is missing by mistake deletes nothing."""
        self.replica.put(1, b"k", b"one")
        with self.assertRaises(TypeError):
            self.replica.put(1, b"k", None, {1: 1})
        self.assertEqual(self.replica.get(b"k"), [Version({1: 1}, b"one")])

    def test_deletes(self):
        self.replica.put(1, b"k", b"one")
        self.replica.put(1, b"k", b"two", {1: 1})
        with self.assertRaises(antientropy.StaleContextError):
            self.replica.delete(1, b"k", {1: 1, 2: 1})
        self.assertEqual(self.replica.delete(1, b"k", {1: 2}), Receipt(2, 3))
        self.assertEqual(self.replica.get(b"k"), [Version({1: 3}, None)])
        with Replica(1) as first, self.assertRaises(antientropy.BadValueError):
            first.delete(1, b"k")

    def test_concurrent_versions(self):
        self.replica.put(1, b"k", b"one")
        self.assertTrue(self.replica.accept(b"k", {2: 1}, b"two"))
        self.assertFalse(self.replica.accept(b"k", {2: 1}, b"two"))
        versions = [Version({1: 1}, b"one"), Version({2: 1}, b"two")]
        self.assertEqual(self.replica.get(b"k"), versions)

    def test_put_many(self):
        items = ((b"key %d" % n, b"value") for n in range(10))
        self.assertEqual(self.replica.put_many(1, items), [Receipt(n, 1) for n in range(10)])
        self.assertEqual(self.replica.count().entries, 10)
        self.assertEqual(self.replica.put_many(1, ()), [])

    def test_put_many_of_all_kinds(self):
        items = [
            (b"a", b"x"), (b"a", b"y", {1: 1}), [bytearray(b"b"), memoryview(b"z")], (b"b", None, iter([(1, 1)])),
            (b"c", b"", ()), (b"c", None, {2: 7, 1: 1}), (b"d" * 255, b"v" * 65536, {}),
        ]
        receipts = self.replica.put_many(1, items)
        with Replica() as other:
            items[3] = (b"b", None, [(1, 1)])
            self.assertEqual(receipts, [other._put_read(1, *item) for item in items])
            self.assertEqual(list(self.replica.entries()), list(other.entries()))
        self.assertEqual(receipts[:4], [(0, 1), (1, 2), (2, 1), (3, 2)])
        self.assertEqual(self.replica.get(b"c"), [Version({1: 2, 2: 7}, None)])

    def test_put_many_of_what_it_reads(self):
        def counted():
            for n in range(5):
                (version,) = self.replica.get(b"k")
                yield b"k", b"%d" % n, version.clock

        self.replica.put(1, b"k", b"first")
        self.assertEqual([receipt.counter for receipt in self.replica.put_many(1, counted())], [2, 3, 4, 5, 6])
        self.assertEqual(self.replica.get(b"k"), [Version({1: 6}, b"4")])

    def test_put_many_that_is_refused(self):
        with self.assertRaises(antientropy.BadKeyError) as caught:
            self.replica.put_many(1, [(b"a", b""), (b"b", b""), (b"", b""), (b"c", b"")])
        self.assertEqual(caught.exception.done, (Receipt(0, 1), Receipt(1, 1)))
        self.assertEqual((caught.exception.call, caught.exception.number), ("put", 4))
        self.assertEqual(set(self.replica.keys()), {b"a", b"b"})
        with self.assertRaises(antientropy.BadClockError) as caught:
            self.replica.put_many(0, [(b"c", b"")])
        self.assertEqual(caught.exception.done, ())

    def test_put_many_of_other_types(self):
        wrong = [
            (TypeError, ("c", b"")), (TypeError, (b"c", "x")), (TypeError, (None, b"")), (TypeError, (b"c", b"", 5)),
            (TypeError, 7), (ValueError, (b"c",)), (ValueError, (b"c", b"", (), ())),
            (OverflowError, (b"c", b"", {1: -1})),
        ]
        for n, (error, item) in enumerate(wrong):
            with self.subTest(item), self.assertRaises(error):
                self.replica.put_many(1, [(b"before %d" % n, b""), item, (b"after", b"")])
        for node in (-1, 1 << 64):
            with self.assertRaises(OverflowError):
                self.replica.put_many(node, [(b"after", b"")])
        self.assertEqual(set(self.replica.keys()), {b"before %d" % n for n in range(len(wrong))})

    def test_row_of_the_page(self):
        self.replica.put(1, b"a", b"x")
        self.assertEqual(self.replica.row(b"a").hex(), "0001610001000100010000000000000001" + "00000001" + "78")
        self.assertEqual(self.replica.row(b"b"), b"")

    def test_great_row(self):
        crowd(self.replica, b"k")
        for node in range(1, 65):
            self.replica.put(node, b"great", bytes([node]) * 65536)
        self.assertGreater(len(self.replica.row(b"great")), 64 * 65536)
        self.assertEqual(self.replica.get(b"great")[63].value, b"\x40" * 65536)

    def test_keys(self):
        keys = {b"key %d" % n for n in range(100)}
        self.replica.put_many(1, ((key, b"") for key in keys))
        self.assertEqual(len(list(self.replica.keys())), 100)
        self.assertEqual(set(self.replica.keys()), keys)
        leaf = antientropy.place(2, 0, b"key 7").leaf
        self.assertIn(b"key 7", list(self.replica.keys_of(leaf)))

    def test_entries(self):
        self.replica.put(1, b"a", b"x")
        self.replica.accept(b"b", {2: 3}, None)
        first, second = self.replica.entries()
        self.assertEqual(first, (0, b"a", {1: 1}, b"x", Source.PUT))
        self.assertEqual(second, (1, b"b", {2: 3}, None, Source.COPY))
        self.assertEqual(second.version, Version({2: 3}, None))
        self.assertEqual(list(self.replica.entries(1)), [second])
        self.assertEqual(list(self.replica.entries(2)), [])
        self.assertEqual([self.replica.top_counter(2, b"b", *most) for most in ((), (2,), (1,))], [3, 3, 0])

    def test_two_clients(self):
        self.replica.put(1, b"cart", b"milk")
        self.replica.accept(b"cart", {2: 1}, b"eggs")
        self.replica.put(1, b"cart", b"bread", {1: 1})
        self.assert_refused("StaleContext", self.replica, self.replica.put, 1, b"cart", b"tea", {1: 1, 2: 1})
        self.assertEqual(self.replica.top_counter(1, b"cart"), 2)
        self.replica.put_unread(1, b"cart", b"tea", {1: 1, 2: 1})
        self.assertEqual(self.replica.get(b"cart"), [Version({1: 2, 2: 1}, b"tea")])

    def test_about(self):
        with Replica(1, 4, 9) as replica:
            self.assertEqual(replica.about(), (1, 4, 9, 0))
            replica.migrate()
            replica.put(1, b"abc", b"x")
            self.assertEqual(replica.about(), (2, 4, 9, 1))
            self.assertEqual((replica.format, replica.bits, replica.range), (2, 4, 9))
            with replica.renew() as renewed, Replica.seeded(1, 2, 1, 4, 9) as seeded:
                self.assertEqual(renewed.about(), (2, 4, 9, 1))
                self.assertEqual(seeded.about(), (1, 4, 9, 0))

    def test_count_bytes(self):
        self.assertEqual(self.replica.count_bytes(), (0, 0, 0))
        self.replica.put(1, b"cart", b"milk")
        self.replica.put(1, b"cart", b"milk, eggs", {1: 1, 7: 3})
        self.replica.accept(b"list", {2: 5}, None)
        rows, journal = length_of_rows(self.replica), length_of_entries(self.replica)
        self.assertEqual(journal, 8 + 10 + 14 + 20 + 4 + 10)
        self.assertNotEqual(rows, journal)
        with self.replica.snapshot() as snapshot:
            self.assertEqual(self.replica.count_bytes(), ByteCounts(rows=rows, journal=journal, sessions=0))
            self.replica.put(1, b"gift", b"tea")
            later = ByteCounts(length_of_rows(self.replica), journal + 17, 0)
            self.assertEqual((snapshot.count_bytes(), self.replica.count_bytes()), (rows, later))
            self.assertGreater(later.rows, rows)
        with self.replica.renew() as renewed:
            self.assertEqual(renewed.count_bytes(), (later.rows, journal - 1, 0))
            self.assertEqual(length_of_entries(renewed), journal - 1)

    def test_counts_and_rehash(self):
        self.replica.rehash()
        self.assertEqual(self.replica.count(), (0, 1000, 0, 0, 0, 0, 0))
        self.replica.put(1, b"a", b"x")
        self.assertEqual(self.replica.count().dirty, 4)

    def test_rehash_some(self):
        with Replica(1) as replica, Replica(1) as other:
            for each in (replica, other):
                each.put_many(1, ((b"key %d" % n, b"value") for n in range(50)))
            dirty = replica.count().dirty
            self.assertGreater(dirty, 50)
            self.assertEqual(replica.rehash_some(0), dirty)
            for left in reversed(range(dirty)):
                self.assertEqual(replica.rehash_some(1), left)
                self.assertEqual(replica.count().dirty, left)
            self.assertEqual(replica.rehash_some(1), 0)
            with replica.snapshot(rehash=False) as snapshot:
                self.assertEqual(snapshot.root(), other.root())
            with self.assertRaises(OverflowError):
                replica.rehash_some(-1)

    def test_renew(self):
        self.replica.put(1, b"a", b"x")
        self.replica.put(1, b"a", b"y", {1: 1})
        with self.replica.renew(5) as renewed:
            self.assertEqual((renewed.count().limit, renewed.count().first, renewed.count().entries), (5, 1, 2))
            self.assertEqual(renewed.root(), self.replica.root())
            self.assertEqual((renewed.format, renewed.bits, renewed.range), (2, 0, 0))

    def test_migrate(self):
        with Replica(1, 0, 0, 10) as replica:
            replica.put(1, b"a", b"x")
            replica.migrate()
            self.assertEqual(replica.format, 2)
            self.assertEqual(replica.root().hex()[:8], "22ba8eee")

    def test_rows_of_before_a_migration(self):
        with Replica(1) as first, Replica(1) as again:
            first.put_many(1, ((b"key %d" % n, b"value") for n in range(50)))
            rows = b"".join(map(first.row, sorted(first.keys())))
            self.assertEqual(self.replica.load_format(1, rows), (50, 0))
            self.assertEqual(again.load_format(1, rows), (50, 0))
            self.assertEqual(again.root(), first.root())
            self.assert_refused("OtherFormat", again, again.load_format, 2, rows)
            first.migrate()
            self.assertEqual(self.replica.root(), first.root())

    def test_bytes_like_arguments(self):
        self.replica.put(1, bytearray(b"a"), memoryview(b"x"))
        self.assertEqual(self.replica.get(memoryview(b"a")), [Version({1: 1}, b"x")])

    def test_arguments_of_other_types(self):
        for args in ((1, "a", b""), (1, None, b""), (1, b"a", "x"), (1, b"a", b"", 5), ("1", b"a", b"")):
            with self.subTest(args), self.assertRaises(TypeError):
                self.replica.put(*args)
        with self.assertRaises(ValueError):
            self.replica.put(1, b"a", b"", [(1, 2, 3)])
        self.assertEqual(self.replica.count().entries, 0)

    def test_numbers_that_c_cannot_hold(self):
        for args in ((1 << 64, b"a", b""), (-1, b"a", b""), (1, b"a", b"", {1: 1 << 64}), (1, b"a", b"", {-1: 1})):
            with self.subTest(args), self.assertRaises(OverflowError):
                self.replica.put(*args)
        with self.assertRaises(OverflowError):
            self.replica.entry(-1)
        self.assertEqual(self.replica.count().entries, 0)


class RefusalTest(ReplicaCase):
    def setUp(self):
        self.replica = Replica(bits=0, limit=70)
        self.addCleanup(self.replica.close)
        self.replica.put(1, b"k", b"v")

    def refused(self, name, call, *args):
        return self.assert_refused(name, self.replica, call, *args)

    def test_bad_clock(self):
        error = self.refused("BadClock", self.replica.put, 0, b"k", b"")
        self.assertEqual((error.number, error.name, error.call), (1, "BadClock", "put"))
        self.assertEqual(str(error), "put: BadClock (1)")
        for node in (65536, 65537, 1 << 32):
            self.refused("BadClock", self.replica.put, node, b"a", b"")
            self.refused("BadClock", self.replica.put_unread, node, b"a", b"")
            self.refused("BadClock", self.replica.put_many, node, [(b"a", b"")])
            self.refused("BadClock", self.replica.top_counter, node, b"a")
        self.refused("BadClock", self.replica.put, 1, b"k", b"", [(1, 1), (1, 2)])
        self.refused("BadClock", self.replica.accept, b"k", {65536: 1}, b"")
        self.refused("BadClock", antientropy.compare, {1: 0}, {})
        self.refused("BadClock", antientropy.merge, {1: 1}, {0: 1})

    def test_clock_full(self):
        full = {node: 1 for node in range(1, 33)}
        self.refused("ClockFull", self.replica.put, 33, b"k", b"", full)
        self.refused("ClockFull", antientropy.merge, full, {33: 1})

    def test_counter_full(self):
        self.refused("CounterFull", self.replica.put, 1, b"k", b"", {1: (1 << 64) - 1})

    def test_bad_key(self):
        self.refused("BadKey", self.replica.put, 1, b"", b"")
        self.refused("BadKey", self.replica.accept, b"k" * 256, {1: 1}, b"")
        self.refused("BadKey", self.replica.row, b"")
        self.refused("BadKey", antientropy.place, 2, 0, b"")

    def test_bad_value(self):
        self.refused("BadValue", self.replica.put, 1, b"k", bytes(65537), {1: 1})
        with Replica(1) as first:
            self.assert_refused("BadValue", first, first.delete, 1, b"k")

    def test_stale_context(self):
        self.refused("StaleContext", self.replica.put, 1, b"k", b"")

    def test_crowded(self):
        crowd(self.replica)
        self.refused("Crowded", self.replica.put, 65, b"crowded", b"")
        self.refused("Crowded", self.replica.accept, b"crowded", {65: 1}, b"")

    def test_journal_full(self):
        for n in range(69):
            self.replica.put(1, b"key %d" % n, b"")
        self.refused("JournalFull", self.replica.put, 1, b"other", b"")
        self.refused("JournalFull", self.replica.renew, 1)

    def test_other_range(self):
        spot = antientropy.place(2, 1, b"k")
        with Replica(bits=1, range_number=1 - spot.range) as other:
            self.assert_refused("OtherRange", other, other.put, 1, b"k", b"")
            self.assert_refused("OtherRange", other, other.load_rows, self.replica.row(b"k"))

    def test_dirty(self):
        self.refused("Dirty", self.replica.snapshot, False)

    def test_bad_ring(self):
        for args in ((3,), (2, 9), (2, 1, 2), (2, 0, 0, 0)):
            self.refused("BadRing", Replica, *args)
            self.refused("BadRing", Replica.seeded, 1, 2, *args)
        self.refused("BadRing", antientropy.place, 3, 0, b"k")
        self.refused("BadRing", self.replica.renew, 0)
        self.refused("BadRing", self.replica.load_format, 3, b"")

    def test_row_broken(self):
        error = self.refused("RowBroken", self.replica.load_rows, self.replica.row(b"k") + b"\x00")
        self.assertEqual(error.offset, len(self.replica.row(b"k")))
        error = self.refused("RowBroken", self.replica.load_format, 2, self.replica.row(b"k") + b"\x00")
        self.assertEqual(error.offset, len(self.replica.row(b"k")))

    def test_bad_message(self):
        self.refused("BadMessage", antientropy.read_offer, b"")
        for leaf in (4096, 65536, 1 << 32):
            self.refused("BadMessage", list, self.replica.keys_of(leaf))

    def test_no_version(self):
        self.refused("NoVersion", self.replica.entry, 1)

    def test_bad_position(self):
        """The number is over the count, also if no entry can have it."""
        for start in (2, (1 << 64) - 1):
            self.refused("BadPosition", self.replica.entries, start)
            error = self.refused("BadPosition", self.replica.packed_entries, start)
            self.assertEqual((error.number, error.call), (37, "entries"))
        for start in (-1, 1 << 64):
            with self.assertRaises(OverflowError):
                self.replica.entries(start)

    def test_empty(self):
        self.replica.close()
        self.replica.close()
        for call, *args in (
            (self.replica.put, 1, b"k", b""), (self.replica.put_many, 1, [(b"k", b"", ())]),
            (self.replica.accept, b"k", {1: 1}, b""), (self.replica.get, b"k"), (self.replica.row, b"k"),
            (self.replica.rehash,), (self.replica.rehash_some, 1), (self.replica.snapshot,), (self.replica.hold,),
            (self.replica.drop_moment,), (self.replica.hash_moment, 1), (self.replica.moment,),
            (self.replica.count,), (self.replica.count_bytes,), (self.replica.migrate,), (self.replica.renew,),
            (list, self.replica.keys()), (self.replica.entries,), (self.replica.top_counter, 1, b"k"),
            (self.replica.entries, 0), (self.replica.packed_entries,), (self.replica.about,),
            (self.replica.drop_sessions,), (self.replica.renew_in_place,), (lambda: self.replica.format,),
            (self.replica.put_unread, 1, b"k", b""), (self.replica.load_format, 2, b""),
        ):
            with self.subTest(call), self.assertRaises(antientropy.EmptyError):
                call(*args)


class FunctionTest(unittest.TestCase):
    def test_place(self):
        self.assertEqual(antientropy.place(1, 4, b"abc"), (9, 0))
        self.assertEqual(antientropy.place(2, 4, b"message digest"), (15, 2411))

    def test_compare(self):
        self.assertIs(antientropy.compare({1: 1}, {1: 2}), Order.BEFORE)
        self.assertIs(antientropy.compare([(2, 1), (1, 1)], {1: 1}), Order.AFTER)
        self.assertIs(antientropy.compare({}, ()), Order.EQUAL)
        self.assertIs(antientropy.compare({1: 1}, {2: 1}), Order.APART)

    def test_merge(self):
        self.assertEqual(antientropy.merge(), {})
        self.assertEqual(antientropy.merge({2: 1, 1: 3}), {1: 3, 2: 1})
        self.assertEqual(antientropy.merge({1: 3}, [(1, 1), (2, 5)], {3: 1}), {1: 3, 2: 5, 3: 1})


if __name__ == "__main__":
    unittest.main()
