"""Damage to a small disk."""

import random
import tempfile
import unittest
from pathlib import Path

from nemesis import damage

FILES = {
    "life": b"life of place 1",
    "range-0/log.1": b"....c1-000001....c2-000002....",
    "range-0/manifest": b"manifest",
    "hints/log.3": b"c1-000003",
    "aside-1/range-0/log.1": b"c1-000001",
}


class DamageCase(unittest.TestCase):
    def setUp(self):
        room = tempfile.TemporaryDirectory()
        self.addCleanup(room.cleanup)
        self.room = Path(room.name)
        self.disk = self.room / "disk"
        for name, held in FILES.items():
            (self.disk / name).parent.mkdir(parents=True, exist_ok=True)
            (self.disk / name).write_bytes(held)

    def held(self):
        return {str(it.relative_to(self.disk)): it.read_bytes() for it in self.disk.rglob("*") if it.is_file()}

    def changed(self):
        """Returns the files that differ, and the number of differing bits in each file."""
        found = {}
        for name, held in self.held().items():
            bits = sum(bin(one ^ other).count("1") for one, other in zip(held, FILES[name]))
            if bits or len(held) != len(FILES[name]):
                found[name] = bits
        return found

    def test_one_bit_flips(self):
        seen = set()
        for seed in range(40):
            self.setUp()
            damage.flip(self.disk, random.Random(seed), "")
            ((name, bits),) = self.changed().items()
            self.assertEqual(bits, 1)
            seen.add(name)
        self.assertEqual(seen, set(FILES) - {"aside-1/range-0/log.1"})

    def test_a_bit_of_a_file_that_was_named(self):
        said = damage.flip(self.disk, random.Random(1), "hints/")
        self.assertEqual(self.changed(), {"hints/log.3": 1})
        self.assertRegex(said, r"^flipped bit [0-7] of byte [0-8] of 9 of hints/log.3$")

    def test_a_bit_of_the_last_log_of_each_folder(self):
        (self.disk / "range-0/log.2").write_bytes(b"c1-000009")
        damage.flip_each(self.disk, random.Random(1), "log.")
        self.assertEqual((self.disk / "range-0/log.1").read_bytes(), FILES["range-0/log.1"])
        self.assertNotEqual((self.disk / "range-0/log.2").read_bytes(), b"c1-000009")
        self.assertNotEqual((self.disk / "hints/log.3").read_bytes(), FILES["hints/log.3"])

    def test_a_bit_of_each_value(self):
        said = damage.flip_values(self.disk, random.Random(1), "range-0/log.")
        self.assertEqual(said, "flipped a bit of each of 2 values of range-0/log.1")
        self.assertEqual(self.changed(), {"range-0/log.1": 2})

    def test_the_last_log_of_each_folder_is_removed(self):
        said = damage.remove_each(self.disk, random.Random(1), "log.")
        self.assertEqual(said, "removed hints/log.3 of 9 bytes; removed range-0/log.1 of 30 bytes")
        self.assertEqual(set(FILES) - set(self.held()), {"hints/log.3", "range-0/log.1"})

    def test_no_such_file(self):
        self.assertIsNone(damage.flip(self.disk, random.Random(1), "checkpoint"))
        self.assertIsNone(damage.remove(self.disk, random.Random(1), "checkpoint"))
        self.assertEqual(self.held(), FILES)

    def test_a_file_is_removed(self):
        said = damage.remove(self.disk, random.Random(1), "manifest")
        self.assertEqual(said, "removed range-0/manifest of 8 bytes")
        self.assertEqual(set(FILES) - set(self.held()), {"range-0/manifest"})

    def test_a_folder_is_removed(self):
        self.assertEqual(damage.remove_folder(self.disk, random.Random(1), ""), "removed hints")
        self.assertEqual(set(FILES) - set(self.held()), {"hints/log.3"})

    def test_all_is_removed(self):
        damage.empty(self.disk)
        self.assertEqual(list(self.disk.iterdir()), [])

    def test_an_old_disk_is_put_back(self):
        damage.copy(self.disk, self.room / "old")
        damage.empty(self.disk)
        damage.put_back(self.room / "old", self.disk)
        self.assertEqual(self.held(), FILES)
