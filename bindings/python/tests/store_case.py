"""A store of examples/sqlite_store.py in this process, and its files."""

import json
import os
import shutil
import sqlite3
import sys
import tempfile
import unittest
from contextlib import closing
from pathlib import Path

from tests.support import EXAMPLES

sys.path.insert(0, str(EXAMPLES))
from sqlite_store import Doubt, SqliteStore  # noqa: E402

__all__ = ["Doubt", "MEMORY", "SqliteStore", "StoreCase", "copy_files", "rows_of"]

#: A folder in memory, if the system has one: for a killed process it is as good as a disk.
MEMORY = next(filter(os.path.isdir, ["/dev/shm"]), None)


def copy_files(path, folder):
    """Copies the files of a store, as a kill would leave them."""
    for suffix in ("", "-wal", "-noted"):
        if Path(f"{path}{suffix}").exists():
            shutil.copy(f"{path}{suffix}", folder)
    return Path(folder) / path.name


def rows_of(path):
    """The entries on the disk, by number. A copy of the file is read, so that the store recovers its file itself."""
    with tempfile.TemporaryDirectory(dir=MEMORY) as folder:
        with closing(sqlite3.connect(copy_files(path, folder))) as database:
            ((first,),) = database.execute("SELECT first FROM node").fetchall()
            rows = database.execute("SELECT place, key, clock, kind, value FROM entry ORDER BY place").fetchall()
    return [
        (place - first, key, dict(json.loads(clock)), None if kind else value)
        for place, key, clock, kind, value in rows
    ]


class StoreCase(unittest.TestCase):
    """A test with the file of node 1."""

    def setUp(self):
        folder = tempfile.TemporaryDirectory(dir=MEMORY)
        self.addCleanup(folder.cleanup)
        self.path = Path(folder.name) / "1.db"
        SqliteStore.create(self.path, 1)

    def open(self, limit=100):
        store = SqliteStore(self.path, limit)
        self.addCleanup(store.close)
        return store

    def reopened(self, store, limit=100):
        store.close()
        return self.open(limit)
