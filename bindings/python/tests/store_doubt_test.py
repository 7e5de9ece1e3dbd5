"""Damaged files of examples/sqlite_store.py: the store doesn't put under their number again."""

import os
import shutil
import sqlite3
import unittest
from contextlib import closing
from pathlib import Path

from antientropy import Replica, Version

from tests.store_case import Doubt, SqliteStore, StoreCase, copy_files
from tests.support import reach

PUTS = 30


class DoubtTest(StoreCase):
    """The files of a killed store, which has put one key many times, are damaged in one way."""

    def setUp(self):
        super().setUp()
        with closing(SqliteStore(self.path)) as store:
            self.put(store, 0, PUTS)
            self.folder = self.path.with_name("copy")
            self.folder.mkdir()
            self.copy = copy_files(self.path, self.folder)
        self.log, self.note = Path(f"{self.copy}-wal"), Path(f"{self.copy}-noted")

    def put(self, store, first, end):
        for n in range(first, end):
            self.assertEqual(store.put(b"a", b"%d" % n, {1: n} if n else {}).counter, n + 1)

    def assert_doubt(self, what):
        """Each start refuses the files. Returns the versions of the key in a new life."""
        for _ in range(2):
            with self.assertRaisesRegex(Doubt, what):
                SqliteStore(self.copy)
        new = self.copy.with_name("2.db")
        SqliteStore.renumber(self.copy, new, 2)
        with closing(SqliteStore(new)) as store:
            versions = store.get(b"a")
            context = versions[0].clock if versions else {}
            self.assertEqual(store.put(b"a", b"of the new life", context).counter, 1)
            self.assertEqual(store.get(b"a"), [Version({**context, 2: 1}, b"of the new life")])
        with self.assertRaisesRegex(Doubt, what):
            SqliteStore(self.copy)
        return versions

    def flip(self, path, place):
        data = bytearray(path.read_bytes())
        data[place] ^= 1
        path.write_bytes(data)

    def checkpoint(self):
        """Moves everything into the main file."""
        SqliteStore(self.copy).close()
        self.assertFalse(self.log.exists())

    def restore(self):
        """Puts back whole files."""
        shutil.rmtree(self.folder)
        self.folder.mkdir()
        copy_files(self.path, self.folder)

    def cut_log(self, commits):
        """Cuts off the last commits of the log. A frame that ends one has the number of all pages in its head."""
        data = self.log.read_bytes()
        ends = [at + 4120 for at in range(32, len(data), 4120) if any(data[at + 4 : at + 8])]
        os.truncate(self.log, ends[-1 - commits])

    def change(self, statement, *args):
        """Changes the main file as SQLite would, so that its pages are fine."""
        self.checkpoint()
        with closing(sqlite3.connect(self.copy)) as database, database:
            database.execute(statement, args)

    def test_no_damage(self):
        with closing(SqliteStore(self.copy)) as store:
            self.put(store, PUTS, PUTS + 1)

    def test_a_bit_in_the_middle_of_the_log(self):
        self.flip(self.log, self.log.stat().st_size // 2)
        damaged = self.log.read_bytes()
        (version,) = self.assert_doubt(f"end at place .*, but {PUTS} were")
        self.assertEqual(version.value, b"%d" % (version.clock[1] - 1))
        self.assertEqual(Path(f"{self.log}-kept").read_bytes(), damaged)

    def test_a_bit_near_the_begin_of_the_log(self):
        self.flip(self.log, 50)
        self.assertEqual(self.assert_doubt(f"end at place 0, but {PUTS} were"), [])

    def test_a_bit_at_the_end_of_the_log(self):
        self.flip(self.log, self.log.stat().st_size - 1)
        self.assertEqual(self.assert_doubt("end at place"), [Version({1: PUTS - 1}, b"%d" % (PUTS - 2))])

    def test_the_log_is_removed(self):
        self.log.unlink()
        self.assertEqual(self.assert_doubt("end at place 0"), [])

    def test_the_log_is_cut(self):
        self.cut_log(1)
        self.assertEqual(self.assert_doubt("end at place"), [Version({1: PUTS - 1}, b"28")])

    def test_a_value_changed_in_the_main_file(self):
        self.checkpoint()
        data = self.copy.read_bytes()
        place = data.index(b"[[1, 29]]") + len(b"[[1, 29]]")
        self.flip(self.copy, place)
        self.assertEqual(self.assert_doubt("entry 28 is missing or damaged"), [Version({1: PUTS}, b"29")])

    def test_rows_changed(self):
        for statement in (
            "UPDATE entry SET value = 'x' WHERE place = 7",
            "UPDATE entry SET clock = '[[1, 1]]' WHERE place = 7",
            "UPDATE entry SET kind = 1 WHERE place = 7",
            "UPDATE entry SET key = 'b' WHERE place = 7",
            "DELETE FROM entry WHERE place = 7",
        ):
            with self.subTest(statement):
                self.change(statement)
                self.assertEqual(self.assert_doubt("entry 7 is missing or damaged"), [Version({1: PUTS}, b"29")])
            self.restore()

    def test_the_first_rows_gone(self):
        self.change("DELETE FROM entry WHERE place < 3")
        self.assert_doubt("entry 0 is missing")

    def test_the_last_row_gone(self):
        self.change("DELETE FROM entry WHERE place = ?", PUTS - 1)
        self.assert_doubt(f"end at place {PUTS - 1}, but {PUTS} were")

    def test_the_row_of_the_node_changed(self):
        for statement in ("UPDATE node SET number = 3", "UPDATE node SET first = 1", "DELETE FROM node"):
            with self.subTest(statement):
                self.change(statement)
                self.assertEqual(len(self.assert_doubt("the row of the node is damaged")), 1)
            self.restore()

    def test_pages_of_the_main_file(self):
        """Any damage of them is either found, or the store has all entries."""
        self.checkpoint()
        size, found = self.copy.stat().st_size, 0
        for place in range(0, size, 97):
            self.flip(self.copy, place)
            try:
                with closing(SqliteStore(self.copy)) as store:
                    self.assertEqual(store.get(b"a"), [Version({1: PUTS}, b"29")])
                    self.assertEqual(len(store.entries()), PUTS)
            except Doubt:
                found += 1
            self.restore()
        self.assertGreater(found, 5)

    def test_a_page_in_the_middle_of_the_main_file(self):
        """A new life has the entries before and after it."""
        path, new = self.copy.with_name("pages.db"), self.copy.with_name("2.db")
        SqliteStore.create(path, 1)
        with closing(SqliteStore(path)) as store:
            for n in range(100):
                store.put(b"%d" % n, bytes(500))
        middle = path.read_bytes().index(b"[[1, 1]]", path.stat().st_size // 2)
        self.flip(path, middle // 4096 * 4096)
        with self.assertRaisesRegex(Doubt, "the file is damaged"):
            SqliteStore(path)
        self.assertIn(SqliteStore.renumber(path, new, 2), range(85, 100))
        with closing(SqliteStore(new)) as store:
            for key in (b"0", b"99"):
                self.assertEqual(store.get(key), [Version({1: 1}, bytes(500))])

    def test_the_note_is_missing_or_damaged(self):
        data = self.note.read_bytes()
        for damaged in (b"", data[:20], data[20:], bytes(len(data))):
            self.note.write_bytes(damaged)
            with self.assertRaisesRegex(Doubt, "the note is damaged"):
                SqliteStore(self.copy)
        self.note.unlink()
        self.assertEqual(self.assert_doubt("the note is missing"), [Version({1: PUTS}, b"29")])

    def test_one_slot_of_the_note_damaged(self):
        """The other one is at most one put behind."""
        data = self.note.read_bytes()
        for place in (*range(24), *range(512, len(data))):
            self.flip(self.note, place)
            with closing(SqliteStore(self.copy)) as store:
                self.assertEqual(len(store.entries()), PUTS)
            self.note.write_bytes(data)

    def test_the_last_slot_of_the_note_and_the_log_damaged(self):
        self.flip(self.note, 512)
        self.cut_log(2)
        self.assert_doubt(f"end at place {PUTS - 2}, but {PUTS - 1} were")

    def test_the_note_of_another_node(self):
        other = self.copy.with_name("3.db")
        SqliteStore.create(other, 3)
        shutil.copy(f"{other}-noted", self.note)
        self.assert_doubt("the note is that of node 3")

    def check_old_copy(self, go_on):
        """The store accepts more puts, and then its file is replaced by an older one."""
        with closing(SqliteStore(self.path)) as store:
            go_on(store)
        shutil.copy(f"{self.path}-noted", self.note)
        self.assertEqual(len(self.assert_doubt(f"end at place {PUTS}, but {PUTS + 1} were")), 1)

    def test_an_old_copy_of_the_file(self):
        self.check_old_copy(lambda store: self.put(store, PUTS, PUTS + 1))

    def test_an_old_copy_from_before_a_renewal(self):
        self.check_old_copy(SqliteStore.renew)

    def test_an_empty_file(self):
        self.copy.write_bytes(b"")
        with self.assertRaisesRegex(Doubt, "the file is empty"):
            SqliteStore(self.copy)
        self.assertTrue(self.log.exists())

    def test_a_lost_file_with_a_note(self):
        self.copy.unlink()
        for name in (self.log, self.note):
            with self.assertRaises(FileNotFoundError):
                SqliteStore(self.copy)
            with self.assertRaises(FileExistsError):
                SqliteStore.create(self.copy, 1)
            name.unlink()

    def test_numbers_that_were_used(self):
        with closing(SqliteStore(self.copy)) as store:
            store.accept(b"b", {7: 1}, b"")
        new = self.copy.with_name("new.db")
        for node in (1, 7):
            with self.assertRaisesRegex(ValueError, f"{node} was used"):
                SqliteStore.renumber(self.copy, new, node)
        self.assertFalse(new.exists())
        self.assertEqual(SqliteStore.renumber(self.copy, new, 8), PUTS + 1)


class PartnerTest(StoreCase):
    """After a crash of the machine a store may have lost its last entries, and its note. Partners have them."""

    def setUp(self):
        super().setUp()
        self.partner = Replica()
        self.addCleanup(self.partner.close)
        with closing(SqliteStore(self.path)) as store:
            store.put(b"a", b"x")
            folder = self.path.with_name("copy")
            folder.mkdir()
            self.copy = copy_files(self.path, folder)
            store.put(b"b", b"of another key")
            store.put(b"a", b"lost", {1: 1})
            for entry in store.entries():
                self.partner.accept(entry.key, entry.clock, entry.value)

    def assert_marked(self, store):
        """The store can be read, and refuses every put, now and later."""
        for call in (store.put, lambda key, value: store.accept(key, {9: 1}, value)):
            with self.assertRaisesRegex(Doubt, "counter 2 of node 1"):
                call(b"c", b"x")
        with self.assertRaises(Doubt):
            store.renew()
        self.assertEqual(store.get(b"a"), [Version({1: 2}, b"lost")])
        store.close()
        with self.assertRaisesRegex(Doubt, "counter 2 of node 1"):
            SqliteStore(self.copy)
        new = self.copy.with_name("2.db")
        SqliteStore.renumber(self.copy, new, 2)
        with closing(SqliteStore(new)) as renumbered:
            self.assertEqual(renumbered.get(b"a"), [Version({1: 2}, b"lost")])

    def test_a_sync_brings_a_lost_put(self):
        store = SqliteStore(self.copy)
        with self.partner.snapshot() as offered, self.assertRaisesRegex(Doubt, "counter [12] of node 1"):
            store.sync(2, offered.offer(1), reach(offered))
        store.close()
        with self.assertRaises(Doubt):
            SqliteStore(self.copy)

    def test_a_copy_of_a_lost_put(self):
        store = SqliteStore(self.copy)
        with self.assertRaises(Doubt):
            store.accept(b"a", {1: 2}, b"lost")
        self.assert_marked(store)

    def test_a_lost_put_and_a_renewal(self):
        """A renewal finds versions that a sync has taken, and that aren't in the file yet."""
        store = SqliteStore(self.copy)
        store._replica.accept(b"a", {1: 2}, b"lost")
        store.renew()
        self.assert_marked(store)

    def test_own_versions_that_come_back(self):
        store = self.open()
        store.put(b"a", b"later", {1: 2})
        self.partner.put(2, b"a", b"of the partner", {1: 2})
        with self.partner.snapshot() as offered:
            self.assertEqual(store.sync(2, offered.offer(1), reach(offered)).accepted, 1)
        self.assertFalse(store.accept(b"a", {1: 2}, b"lost"))
        self.assertEqual(store.put(b"a", b"y", {1: 3, 2: 1}).counter, 4)


if __name__ == "__main__":
    unittest.main()
