"""Snapshots, exchanges and syncs."""

import asyncio
import hashlib
import struct
import unittest

import antientropy
from antientropy import Bounds, Replica, Report, Source, VerdictKind

from tests.support import ReplicaCase, crowd, reach, sync, take_all

LEAF_DEPTH = 3
OUTLINE = 4


def ask_for(depth, index):
    """The ask for a node of offer 1."""
    return struct.pack(">BIBH", 2, 1, depth, index)


class ExchangeCase(ReplicaCase):
    def setUp(self):
        self.a, self.b = self.replica(), self.replica()
        self.a.put_many(1, ((b"key %d" % n, b"value") for n in range(50)))
        self.snapshot = self.snapshot_of(self.a)
        self.offer = self.snapshot.offer(1)

    def replica(self, *args, **numbers):
        made = Replica(*args, **numbers)
        self.addCleanup(made.close)
        return made

    def snapshot_of(self, replica):
        made = replica.snapshot()
        self.addCleanup(made.close)
        return made

    def assert_no_session(self, replica):
        self.assertEqual(replica.count()[3:5], (0, 0))


class SnapshotTest(ExchangeCase):
    def test_snapshot(self):
        parts = antientropy.read_offer(self.offer)
        self.assertEqual(parts, (1, 2, 0, self.snapshot.root()))
        self.assertEqual(self.snapshot.entries, 50)
        self.a.put(1, b"later", b"")
        self.assertNotEqual(self.a.root(), self.snapshot.root())
        self.a.close()
        self.assertEqual(antientropy.read_offer(self.snapshot.offer(8)), (8, 2, 0, parts.root))

    def test_rows(self):
        leaf = antientropy.place(2, 0, b"key 3").leaf
        rows = self.snapshot.rows(leaf)
        self.assertIn(self.a.row(b"key 3"), rows)
        self.assertEqual(self.b.load_rows(rows), (len(list(self.a.keys_of(leaf))), 0))
        self.assertEqual(self.b.load_rows(rows).accepted, 0)
        for leaf in (4096, 65536, 1 << 32):
            self.assert_refused("BadMessage", self.a, self.snapshot.rows, leaf)

    def test_shared_snapshot(self):
        """It outlives the first one, and has the rows of that moment."""
        root, keys, leaf = self.snapshot.root(), list(self.a.keys()), antientropy.place(2, 0, b"key 3").leaf
        with self.snapshot.share() as shared:
            self.snapshot.close()
            self.assertEqual([shared.row(key) for key in keys], [self.a.row(key) for key in keys])
            self.a.put(1, b"later", b"")
            self.assertEqual((list(shared.keys()), list(shared.keys_of(leaf))), (keys, list(self.a.keys_of(leaf))))
            self.assertEqual((shared.entries, shared.format, shared.bits, shared.range), (50, 2, 0, 0))
            self.assertEqual(shared.about(), (2, 0, 0, 50))
            self.assertEqual((shared.root(), shared.digest(0, 0)), (root, root))
            self.assertNotEqual(shared.digest(3, leaf), shared.digest(3, leaf ^ 1))
            self.assertEqual(shared.row(b"later"), b"")
            self.assert_refused("BadKey", self.a, shared.row, b"")
            self.assert_refused("BadMessage", self.a, list, shared.keys_of(4096))
            for depth, index in ((3, 4096), (4, 0), (0, 1 << 32)):
                self.assert_refused("BadMessage", self.a, shared.digest, depth, index)
        for call, *args in (
            (shared.share,), (shared.row, b"key 3"), (list, shared.keys()), (shared.digest, 0, 0), (shared.about,),
            (shared.count_bytes,),
        ):
            self.assert_refused("Empty", self.a, call, *args)

    def test_refused_asks(self):
        ask = ask_for(0, 0)
        self.assert_refused("Gone", self.a, self.snapshot.serve, 8, ask)
        self.assert_refused("BadMessage", self.a, self.snapshot.serve, 1, ask[:-1])


class ExchangeTest(ExchangeCase):
    def test_a_polled_exchange(self):
        """In an asyncio program, answers arrive in any order, one is bad, an ask is lost, and others sync meanwhile."""

        async def serve(ask):
            await asyncio.sleep(0)
            return self.snapshot.serve(1, ask)

        async def carry(exchange):
            while asks := exchange.asks():
                for answer in asyncio.as_completed([serve(ask) for ask in reversed(asks)]):
                    exchange.take(await answer)
                with self.replica() as other:
                    other.put(1, b"key 0", b"value")
                    self.assertTrue(sync(self.b, other).finished)

        exchange = self.b.exchange(9, self.offer)
        self.assertEqual((exchange.asks(), exchange.asks()), ([ask_for(0, 0)], []))
        verdict = exchange.take(self.snapshot.serve(1, ask_for(LEAF_DEPTH, 5)))
        self.assertIsInstance(verdict.cause, antientropy.NotAskedError)
        self.assertEqual(verdict, (VerdictKind.BAD, verdict.cause, 0, 0))
        exchange.lose(ask_for(0, 0))
        self.assertRaises(antientropy.BadMessageError, exchange.lose, b"")
        asyncio.run(carry(exchange))
        progress = exchange.progress()
        self.assertEqual((progress.report, progress.cause, progress.in_flight), (Report.FINISHED, None, 0))
        self.assertEqual((progress.accepted, progress.known, progress.bad, progress.lost), (49, 1, 1, 1))
        exchange.close()
        exchange.close()
        self.assert_no_session(self.b)
        for call, *args in (
            (exchange.asks,), (exchange.take, b""), (exchange.lose, ask_for(0, 0)), (exchange.go_on,), (exchange.left,),
            (exchange.progress,),
        ):
            self.assert_refused("Empty", self.b, call, *args)

    def test_bytes_of_sessions(self):
        """A session keeps the leaf of a key that is put again, until it has ended and is dropped."""
        self.a.put(1, b"later", b"")
        before = self.snapshot_of(self.a)
        leaf = before.rows(antientropy.place(2, 0, b"key 3").leaf)
        with self.a.exchange(1, self.offer):
            self.assertEqual(self.a.count_bytes().sessions, 0)
            self.a.put(1, b"key 3", b"a longer value", {1: 1})
            self.a.rehash()
            kept = self.a.count_bytes()
            self.assertEqual((kept.sessions, kept.rows), (len(leaf), before.count_bytes() + 9))
            self.a.drop_sessions()
            self.assertEqual(self.a.count_bytes(), kept)
        self.assertEqual(self.a.count_bytes(), kept._replace(sessions=0))

    def test_collected_exchanges(self):
        for _ in range(100):
            self.b.exchange(1, self.offer).asks()
        self.b.drop_sessions()
        self.assertEqual(self.b.count().sessions, 0)

    def crowded_pair(self):
        """A replica without 20 keys of its partner, a link to it, and the leaf of another key.

        That key is crowded between the two, and its leaf is asked for before the others.
        """
        keys = sorted((b"key %d" % n for n in range(21)), key=lambda key: antientropy.place(2, 0, key).leaf)
        partner = self.replica()
        partner.put_many(100, ((key, b"") for key in keys))
        crowd(self.b, keys[0], first=1)
        return self.snapshot_of(partner), antientropy.place(2, 0, keys[0]).leaf

    def test_a_crowded_leaf_in_place_of_each(self):
        """The partner returns the true text of the crowded leaf for each ask for a leaf: no other leaf is left."""
        partner, leaf = self.crowded_pair()

        def answer(asks):
            return reach(partner)([ask_for(LEAF_DEPTH, leaf) if ask[5] == LEAF_DEPTH else ask for ask in asks])

        synced = self.b.sync(1, partner.offer(1), answer)
        self.assertEqual((synced.report, synced.left), (Report.TOO_MANY_LOST, [leaf]))
        self.assertEqual((synced.accepted, synced.bad, synced.lost), (0, 0, 257))

    def test_a_crowded_leaf_is_left(self):
        partner, leaf = self.crowded_pair()
        synced = self.b.sync(1, partner.offer(1), lambda asks: reach(partner)(asks[::-1]))
        self.assertEqual((synced.report, synced.left), (Report.LEFT, [leaf]))
        self.assertEqual((synced.accepted, synced.bad, synced.lost), (20, 0, 0))

    def test_deadlines(self):
        """One passes after each batch of asks. The replica changes; the exchange continues later, in one session."""
        keys, value = [b"key %d" % n for n in range(100_000)], b"v" * 100
        asker = self.replica()
        asker.put_many(1, ((key, value) for key in keys))
        asker.root()
        partner = asker.renew()
        self.addCleanup(partner.close)
        partner.put_many(1, ((key, value, {1: 1}) for key in keys[: 90 * 1100 : 90]))
        snapshot, puts = self.snapshot_of(partner), []
        with asker.exchange(1, snapshot.offer(1)) as exchange:
            sent = take_all(exchange, snapshot, lambda: puts.append(asker.put(2, b"own %d" % len(puts), b"")))
            self.assertEqual((exchange.progress().report, exchange.progress().accepted), (Report.FINISHED, 1100))
            self.assertEqual(asker.count().sessions, 1)
        self.assertGreater(len(puts), 1)
        self.assertLessEqual(len(snapshot.offer(1)) + sent, 4_000_000)
        self.assert_no_session(asker)


class SyncTest(ExchangeCase):
    def test_both_ways(self):
        self.b.put(2, b"other", b"")
        rounds = []

        def answer(asks):
            rounds.append(len(asks))
            return reach(self.snapshot)(asks)

        synced = self.b.sync(1, self.offer, answer, Bounds(asks=10))
        self.assertEqual((synced.accepted, synced.asks, max(rounds)), (50, sum(rounds), 10))
        self.assertTrue(synced.finished)
        self.assertEqual(sync(self.a, self.b).accepted, 1)
        self.assertEqual(self.a.root(), self.b.root())
        self.assertEqual(self.b.entry(50).source, Source.COPY)

    def test_equal_roots(self):
        sync(self.b, self.a)
        self.assertEqual(sync(self.b, self.a), (Report.FINISHED, 0, 0, 0, 0, 0, []))
        self.assert_no_session(self.b)

    def test_a_partner_that_lies(self):
        def lie(asks):
            return [answer[:-1] + b"?" for answer in reach(self.snapshot)(asks)]

        synced = self.b.sync(1, self.offer, lie, Bounds(bad=5))
        self.assertEqual(synced, (Report.TOO_MANY_BAD, 0, 0, 6, 6, 0, []))

    def sync_long_rows(self, change):
        """Takes 20 of 2,000 keys with values of 300 bytes over a link that changes the patches.

        Returns the number of bytes of outlines and patches, and of the answers that they replace.
        """
        keys, value = [b"key %d" % n for n in range(2000)], b"v" * 300
        asker, partner, sent, answered = self.replica(), self.replica(), [], []
        for replica in asker, partner:
            replica.put_many(1, ((key, value) for key in keys))
        partner.put_many(1, ((key, b"new", {1: 1}) for key in keys[::100]))
        snapshot = self.snapshot_of(partner)

        def answer(asks):
            for ask in asks:
                served = snapshot.serve(1, ask)
                if ask[0] == OUTLINE:
                    sent.append(len(ask) + len(served))
                    answered.append(len(snapshot.serve(1, b"\2" + ask[1:8])))
                    served = change(served)
                yield served

        synced = asker.sync(1, snapshot.offer(1), answer)
        self.assertEqual((synced.report, synced.accepted, synced.bad, synced.lost), (Report.FINISHED, 20, 0, 0))
        return sum(sent), sum(answered)

    def test_patches(self):
        """Common versions aren't sent."""
        sent, answered = self.sync_long_rows(lambda patch: patch)
        self.assertLess(3 * sent, answered)

    def test_plain_asks(self):
        """Within plain bounds no ask is an outline."""
        asker, partner = self.replica(), self.replica()
        for replica in asker, partner:
            replica.put(1, b"key", b"v" * 300)
        partner.put(1, b"key", b"new", {1: 1})
        snapshot = self.snapshot_of(partner)

        def answer(asks):
            self.assertNotIn(OUTLINE, [ask[0] for ask in asks])
            return reach(snapshot)(asks)

        self.assertEqual(asker.sync(1, snapshot.offer(1), answer, Bounds(plain=True)).accepted, 1)

    def test_outlines_without_a_text_count_as_nothing(self):
        """Asks are plain if all the partner's patches are wrong, or if it refuses outlines."""
        for change in (lambda patch: patch[:-1] + bytes([patch[-1] ^ 1]), lambda patch: None):
            self.assertGreater(self.sync_long_rows(change), (0, 0))

    def test_a_link_that_fails(self):
        def fail(asks):
            raise ConnectionError

        self.assertRaises(ConnectionError, self.b.sync, 1, self.offer, fail)
        self.assert_no_session(self.b)
        self.assertEqual(self.b.sync(1, self.offer, lambda asks: [None], Bounds(lost=3)).lost, 4)

    def test_journal_full(self):
        """Asks stop. Versions taken before stay."""
        small = self.replica(limit=10)
        with small.exchange(1, self.offer) as exchange:
            take_all(exchange, self.snapshot)
            progress = exchange.progress()
            self.assertIs(progress.report, Report.STOPPED)
            self.assertIsInstance(progress.cause, antientropy.JournalFullError)
            exchange.go_on()
            self.assertTrue(exchange.asks())
        self.assertEqual(small.count().entries, progress.accepted)
        self.assertRaises(antientropy.JournalFullError, sync, small, self.a)
        self.assertGreaterEqual(small.count().entries, progress.accepted)
        self.assert_no_session(small)

    def test_not_canonical(self):
        offer = struct.pack(">BIBB32s", 1, 7, 2, 0, hashlib.sha256(b"junk").digest())
        answer = struct.pack(">BIBHQ4s", 3, 7, 0, 0, 4, b"junk")
        self.assertRaises(antientropy.NotCanonicalError, self.b.sync, 1, offer, lambda asks: [answer])
        self.assertEqual(self.b.count().entries, 0)
        self.assert_no_session(self.b)


if __name__ == "__main__":
    unittest.main()
