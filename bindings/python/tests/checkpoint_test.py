"""Checkpoints: saved, loaded, truncated and changed."""

import hashlib
import io
import os
import pickle
import tempfile
import unittest

import antientropy
from antientropy import Damage, Replica


class Trickle(io.RawIOBase):
    """A file that reads and writes a few bytes at a time, as an unbuffered file may."""

    def __init__(self, data=b""):
        self.file = io.BytesIO(data)

    def read(self, size=-1):
        return self.file.read(min(size, 1000))

    def write(self, data):
        return self.file.write(bytes(data)[:1000])


class Full(io.RawIOBase):
    """A file that takes no bytes, as a non-blocking one may."""

    def write(self, data):
        return None


class CheckpointTest(unittest.TestCase):
    def setUp(self):
        self.replica = Replica(limit=1000)
        self.addCleanup(self.replica.close)
        self.replica.put(1, b"cart", b"milk" * 1000)
        self.replica.accept(b"cart", {2: 1}, b"eggs")
        self.replica.delete(1, b"list")
        self.saved = self.save()

    def save(self):
        file = io.BytesIO()
        self.replica.save(file)
        return file.getvalue()

    def load(self, data):
        return Replica.load(io.BytesIO(data))

    def assert_damaged(self, data, kind, leaf=None):
        with self.assertRaises(antientropy.DamagedError) as raised:
            self.load(data)
        self.assertEqual((raised.exception.kind, raised.exception.leaf), (kind, leaf))
        self.assertIsInstance(raised.exception, ValueError)
        return str(raised.exception)

    def test_checkpoint_of_the_page(self):
        with Replica(1) as replica:
            replica.put(1, b"a", b"x")
            file = io.BytesIO()
            self.assertEqual(replica.save(file), 1)
        self.assertEqual(
            hashlib.sha256(file.getvalue()).hexdigest(),
            "99be10254f4ab645598e1e0a737076963aef242486a714888e11e6a6324b77a0",
        )

    def test_save_and_load(self):
        loaded = self.load(self.saved)
        self.assertEqual(loaded.root(), self.replica.root())
        self.assertEqual(loaded.get(b"cart"), self.replica.get(b"cart"))
        self.assertEqual(loaded.count(), (3, 1_000_000, 0, 0, 0, 0, 3))
        self.assertEqual(Replica.load(io.BytesIO(self.saved), 7).count().limit, 7)

    def test_range_of_the_file(self):
        with Replica(bits=4, range_number=9) as replica:
            file = io.BytesIO()
            replica.save(file)
        loaded = self.load(file.getvalue())
        self.assertEqual((loaded.format, loaded.bits, loaded.range), (2, 4, 9))

    def test_log_after_the_checkpoint(self):
        file = io.BytesIO()
        logged = self.replica.save(file)
        self.replica.put(1, b"later", b"")
        self.assertEqual([entry.key for entry in self.replica.entries(logged)], [b"later"])

    def test_file_on_a_disk(self):
        with tempfile.TemporaryDirectory() as folder:
            path = os.path.join(folder, "checkpoint")
            with open(path, "wb") as file:
                self.replica.save(file)
            with open(path, "rb", buffering=0) as file:
                self.assertEqual(Replica.load(file).root(), self.replica.root())

    def test_file_without_a_buffer(self):
        file = Trickle()
        self.replica.save(file)
        self.assertEqual(file.file.getvalue(), self.saved)
        self.assertEqual(Replica.load(Trickle(self.saved)).root(), self.replica.root())

    def test_file_that_takes_no_bytes(self):
        with self.assertRaises(BlockingIOError):
            self.replica.save(Full())

    def test_truncated(self):
        for length in (0, 7, 43, 44, 50, len(self.saved) // 2, len(self.saved) - 1):
            with self.subTest(length):
                self.assert_damaged(self.saved[:length], Damage.TRUNCATED)

    def test_too_long(self):
        self.assert_damaged(self.saved + b"\x00", Damage.TOO_LONG)

    def test_changed_head(self):
        for place in range(9):
            with self.subTest(place):
                self.assert_damaged(self.changed(place), Damage.NOT_CHECKPOINT)
        words = self.assert_damaged(self.changed(20), Damage.ROOT)
        self.assertEqual(words, "the checkpoint is damaged: its root differs")

    def test_range_that_the_ring_does_not_have(self):
        for place in range(9, 12):
            with self.subTest(place), self.assertRaises(antientropy.BadRingError):
                self.load(self.changed(place))

    def test_changed_value(self):
        self.assert_damaged(self.changed(self.saved.index(b"eggs")), Damage.ROOT)

    def test_changed_row(self):
        leaf = antientropy.place(2, 0, b"cart").leaf
        words = self.assert_damaged(self.changed(self.saved.index(b"cart") - 1), Damage.LEAF, leaf)
        self.assertEqual(words, f"the checkpoint is damaged: the rows of leaf {leaf} are refused")

    def test_huge_length(self):
        self.assert_damaged(self.saved[:44] + b"\xff" * 8 + self.saved[52:], Damage.TRUNCATED)

    def test_file_that_cannot_be_read(self):
        with tempfile.TemporaryDirectory() as folder, open(os.path.join(folder, "new"), "wb") as file:
            with self.assertRaises(OSError):
                Replica.load(file)

    def test_error_is_pickled(self):
        error = pickle.loads(pickle.dumps(antientropy.DamagedError(Damage.LEAF, 7)))
        self.assertEqual((error.kind, error.leaf), (Damage.LEAF, 7))

    def test_limit(self):
        with self.assertRaises(antientropy.JournalFullError):
            Replica.load(io.BytesIO(self.saved), 2)

    def changed(self, place):
        """The file with another byte at a place."""
        return self.saved[:place] + bytes([self.saved[place] ^ 0x10]) + self.saved[place + 1 :]


if __name__ == "__main__":
    unittest.main()
