"""Packed entries, and positions of logs over renewals."""

import unittest
from itertools import accumulate

import antientropy
from antientropy import Replica, Source, unpack_entries

from tests.support import ReplicaCase, sync, take_all

ROUNDS = 3


class PackedTest(ReplicaCase):
    def setUp(self):
        self.replica = Replica(limit=1000)
        self.addCleanup(self.replica.close)

    def fill(self, replica):
        """Brings entries of all sources and shapes that the format has."""
        for n in range(3):
            replica.put(1, b"cart", b"milk" * n, {1: n} if n else {})
        replica.accept(b"k" * 255, {node: (1 << 64) - node for node in range(1, 33)}, b"")
        replica.accept(b"none", {}, b"of an empty clock")
        if replica.format == 2:
            replica.delete(2, b"cart", {1: 3})
            replica.put(2, b"great", bytes(range(256)) * 256)
        with Replica(replica.format) as partner:
            partner.put(9, b"tea", b"green")
            with partner.snapshot() as offered:
                take_all(replica.exchange(9, offered.offer(1)), offered)

    def test_entry_of_the_page(self):
        for format, kind in ((1, ""), (2, "00")):
            with Replica(format) as replica:
                replica.put(1, b"a", b"x")
                text = "00" + "000161" + "0001" + kind + "01" + "0001" + "0000000000000001" + "00000001" + "78"
                self.assertEqual(replica.packed_entries(), (bytes.fromhex(text), 0, 1, format))
                self.assertEqual(replica.packed_entries(1), (b"", 1, 1, format))

    def test_entries_of_all_kinds(self):
        for format in (1, 2):
            with Replica(format) as replica:
                self.fill(replica)
                entries = [replica.entry(number) for number in range(replica.count().entries)]
                self.assertEqual({entry.source for entry in entries}, {Source.PUT, Source.COPY, Source.PARTNER})
                for start in range(len(entries) + 1):
                    self.assertEqual(list(replica.entries(start)), entries[start:])
                packed = replica.packed_entries(2)
                self.assertEqual(list(unpack_entries(packed.data, format, 2)), entries[2:])
                self.assertEqual({type(entry.source) for entry in replica.entries()}, {Source})

    def test_little_room(self):
        """The result always has an entry, and never a part of one."""
        self.fill(self.replica)
        entries, pieces = list(self.replica.entries()), []
        for room in (0, 1, 100, 70_000, 1 << 30):
            packed, numbers = self.replica.packed_entries(room=room), []
            while packed.data:
                read = list(unpack_entries(packed.data, packed.format, packed.first))
                self.assertEqual(read, entries[packed.first : packed.next])
                numbers.append(packed.next)
                packed = self.replica.packed_entries(packed.next, room)
            self.assertEqual(numbers[-1], len(entries))
            pieces.append(len(numbers))
        self.assertEqual((pieces[0], pieces[-1]), (len(entries), 1))
        self.assertEqual(pieces, sorted(pieces, reverse=True))
        with self.assertRaises(ValueError):
            self.replica.packed_entries(room=-1)

    def test_more_than_a_room(self):
        for n in range(40):
            self.replica.put(1, b"%d" % n, bytes([n]) * 65536)
        self.assertEqual([entry.value[0] for entry in self.replica.entries(3)], list(range(3, 40)))
        self.assertLess(self.replica.packed_entries().next, 20)

    def test_entries_that_are_accepted_meanwhile(self):
        self.replica.put(1, b"a", b"x")
        entries = self.replica.entries()
        self.assertEqual(next(entries).key, b"a")
        self.replica.put(1, b"b", b"x")
        self.assertEqual([(entry.number, entry.key) for entry in entries], [(1, b"b")])

    def test_a_migration_between_pieces(self):
        with Replica(1) as replica:
            replica.put(1, b"a", b"x")
            entries = replica.entries()
            self.assertEqual(next(entries), (0, b"a", {1: 1}, b"x", Source.PUT))
            replica.migrate()
            replica.delete(1, b"b")
            self.assertEqual(list(entries), [(1, b"b", {1: 1}, None, Source.PUT)])

    def test_bytes_that_are_no_entries(self):
        for format in (1, 2):
            with Replica(format) as replica:
                self.fill(replica)
                pieces = [replica.packed_entries(number, room=0).data for number in range(5)]
            data, ends = b"".join(pieces), list(accumulate(map(len, pieces), initial=0))
            for length in range(len(data) + 1):
                if length in ends:
                    self.assertEqual(len(list(unpack_entries(data[:length], format))), ends.index(length))
                else:
                    with self.assertRaises(ValueError):
                        list(unpack_entries(data[:length], format))
            with self.assertRaises(ValueError):
                list(unpack_entries(b"\x04" + data[1:], format))


class PositionTest(unittest.TestCase):
    """The position of a log is never touched at a renewal, and the log restores everything."""

    def setUp(self):
        self.replicas = [Replica(limit=60)]
        self.addCleanup(lambda: [replica.close() for replica in self.replicas])

    @property
    def replica(self):
        return self.replicas[-1]

    def renew(self):
        self.replicas.append(self.replica.renew(60))

    def use(self, n):
        """Replaces versions, and takes one of a partner."""
        for key in (b"a", b"b", b"c"):
            for value in (b"x", b"y"):
                versions = self.replica.get(key)
                context = antientropy.merge(*(version.clock for version in versions))
                self.replica.put(1, key, value, context)
        with Replica() as partner:
            partner.put(2, b"%d" % n, b"of the partner")
            self.assertEqual(sync(self.replica, partner).accepted, 1)

    def assert_restored(self, entries):
        with Replica() as restored:
            for entry in entries:
                restored.accept(entry.key, entry.clock, entry.value)
            self.assertEqual(restored.root(), self.replica.root())

    def test_a_log_of_entries(self):
        log, position = [], 0
        for n in range(ROUNDS):
            self.use(n)
            log += self.replica.entries(position)
            position = log[-1].number + 1
            self.renew()
            self.assertEqual(list(self.replica.entries(position)), [])
        self.assertEqual([entry.number for entry in log], list(range(7 * ROUNDS)))
        self.assertEqual(self.replica.about().entries, position)
        self.assert_restored(log)

    def test_a_log_of_packed_entries(self):
        log, position = b"", 0
        for n in range(ROUNDS):
            self.use(n)
            while (packed := self.replica.packed_entries(position, room=50)).data:
                log += packed.data
                position = packed.next
            self.renew()
        self.assertEqual(position, 7 * ROUNDS)
        self.assert_restored(unpack_entries(log, 2))

    def test_a_reader_who_has_missed_entries(self):
        """Only the first number of the journal is accepted: from there the journal has everything that was missed."""
        for n in range(2):
            self.use(n)
            self.renew()
        count = self.replica.count()
        self.assertEqual((count.first, count.entries), (9, 14))
        for start in (*range(9), *range(10, 14), 15):
            for read in (self.replica.entries, self.replica.packed_entries):
                with self.subTest(start), self.assertRaises(antientropy.BadPositionError):
                    read(start)
        self.assertEqual(list(self.replica.entries(9)), list(self.replica.entries()))
        self.assertEqual([entry.number for entry in self.replica.entries()], list(range(9, 14)))
        self.assertEqual({entry.source for entry in self.replica.entries()}, {Source.COPY})
        self.assert_restored(self.replica.entries())
        self.use(2)
        self.assertEqual([entry.number for entry in self.replica.entries(14)], list(range(14, 21)))
        self.assertEqual(next(self.replica.entries()).number, 9)

    def test_a_checkpoint_after_a_renewal(self):
        self.use(0)
        self.renew()
        with self.replica.snapshot() as snapshot:
            self.assertEqual((snapshot.entries, self.replica.count().front), (7, 7))
        self.use(1)
        self.assertEqual([entry.number for entry in self.replica.entries(snapshot.entries)], list(range(7, 14)))


if __name__ == "__main__":
    unittest.main()
