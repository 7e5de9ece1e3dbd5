"""The journal of a node in an SQLite file, which can show that it has all written entries.

    FILE          the journal: a row for each entry, with its place, key, clock, kind, value and a checksum
    FILE-wal      the log of SQLite: the commits since its last checkpoint
    FILE-noted    the place that the rows reach at least

Places count all entries that were ever written: a renewal, which replaces all rows in one transaction, continues with
the next place. SQLite takes a damaged frame of its log for the log's end, so a start compares: the rows must be whole,
without a gap, and reach the noted place. Anything else raises `Doubt`.

The note is written after each commit, before anything of it is sent, and synced at each checkpoint. After a crash of
the process it is exact. After a crash of the machine it may be behind, but is never ahead.
"""

from __future__ import annotations

import json
import os
import sqlite3
import sys
from contextlib import closing, contextmanager, suppress
from hashlib import blake2b
from pathlib import Path
from struct import Struct
from typing import Any, Dict, Iterable, Iterator, List, Optional, Sequence, Set, Tuple

from antientropy import Clock, Entry, Kind

Row = Tuple[int, bytes, str, int, bytes, bytes]

#: Exceptions of SQLite for a damaged file, and of Python for its messages.
_UNREADABLE = (sqlite3.Error, UnicodeDecodeError)

#: Entries between two checkpoints of SQLite's log.
_CHECKPOINT_ENTRIES = 1000

_TABLES = (
    "CREATE TABLE node (number INTEGER, format INTEGER, bits INTEGER, range INTEGER, first INTEGER, doubt TEXT,"
    " checksum BLOB)",
    "CREATE TABLE entry (place INTEGER PRIMARY KEY, key BLOB, clock TEXT, kind INTEGER, value BLOB, checksum BLOB)",
)


class Doubt(Exception):
    """A file can't show that it has all acknowledged entries: nothing is put under its node number again."""


class JournalFile:
    """The entries of a journal in a file, with the note of their end. One thread at a time uses it."""

    def __init__(self, path: Path) -> None:
        """Open a file. Raises Doubt if it is damaged, or was marked."""
        self._path = path
        self._is_whole = False
        self._note = _Note(path)
        try:
            self._database = _open(path, "rw")
        except BaseException:
            self._note.close()
            raise
        try:
            self._check()
        except BaseException:
            self.close()
            raise

    def _check(self) -> None:
        self._noted, noted_node = self._note.read()
        with _doubt_if_unreadable():
            _check_pages(self._database)
            self.node, *self.ring, self.first, self.doubt = _read_node(self._database)
            #: Number of entries at the start.
            (self.rows,) = self._database.execute("SELECT count(*) FROM entry").fetchone()
        self.check_doubt()
        if noted_node != self.node:
            raise Doubt(f"the note is that of node {noted_node}")
        #: Place after the last entry that is on the disk.
        self.end = self.first
        #: Entries since the last checkpoint.
        self._logged = 0

    @staticmethod
    def create(path: Path, node: int, ring: Tuple[int, int, int]) -> None:
        """Make an empty file and its note."""
        for name in (path, _log_of(path)):
            if name.exists():
                raise FileExistsError(f"{name} is there")
        with closing(_Note(path, "x+b")) as note:
            note.write(0, node)
            note.write(0, node)
            note.sync()
        with closing(_open(path, "rwc")) as database:
            database.execute("PRAGMA journal_mode = WAL")
            database.execute("BEGIN")
            for table in _TABLES:
                database.execute(table)
            _write_node(database, node, *ring, 0, "")
            database.execute("COMMIT")
        _sync(path.parent)

    def check_doubt(self) -> None:
        """Raise Doubt if the file is marked."""
        if self.doubt:
            raise Doubt(self.doubt)

    def read(self) -> Iterator[Tuple[int, bytes, Clock, Optional[bytes]]]:
        """Yield the place, key, clock and value of each entry. Raises Doubt if one is missing or damaged."""
        with _doubt_if_unreadable():
            for row in self._database.execute("SELECT * FROM entry ORDER BY place"):
                if row[0] != self.end or not _is_whole(row):
                    raise Doubt(f"entry {self.end} is missing or damaged")
                yield _from_row(row)
                self.end += 1
        if self.end < self._noted:
            raise Doubt(f"the entries end at place {self.end}, but {self._noted} were on the disk")

    def settle(self) -> None:
        """Sync writes that a killed process has left in the kernel's memory, and note the end."""
        _sync(_log_of(self._path))
        _sync(self._path.parent)
        if self.end > self._noted:
            self._note.write(self.end, self.node)
        self._is_whole = True
        try:
            self._checkpoint("TRUNCATE")
        except sqlite3.OperationalError as error:
            if "full" not in str(error):
                raise

    def write(self, first: int, entries: Iterable[Entry], doubt: str) -> None:
        """Write entries after the file's, or in place of them if they begin at another place.

        It returns after an fsync and a note. If anything fails, it ends the process.
        """
        is_anew, doubt = first != self.first, doubt or self.doubt
        start = end = first if is_anew else self.end
        try:
            self._database.execute("BEGIN")
            if is_anew:
                self._database.execute("DELETE FROM entry")
            if is_anew or doubt:
                _write_node(self._database, self.node, *self.ring, first, doubt)
            for entry in entries:
                self._database.execute("INSERT INTO entry VALUES (?, ?, ?, ?, ?, ?)", _to_row(end, entry))
                end += 1
            self._database.execute("COMMIT")
            self._note.write(end, self.node)
            self._logged += end - start
            if self._logged >= _CHECKPOINT_ENTRIES:
                self._checkpoint("RESTART")
        except BaseException as error:
            print(f"the entries aren't on the disk: {error!r}", file=sys.stderr, flush=True)
            os._exit(1)
        self.first, self.doubt, self.end = first, doubt, end

    def close(self) -> None:
        """Close the file. SQLite makes a checkpoint, and removes its log, unless the file is in doubt."""
        if self._is_whole:
            self._note.sync()
        else:
            _keep_log(self._path)
        self._database.close()
        self._note.close()

    def _checkpoint(self, mode: str) -> None:
        self._note.sync()
        self._database.execute(f"PRAGMA wal_checkpoint({mode})").fetchall()
        self._logged = 0


class _Note:
    """A file with the place that a node's entries reach at least: it may be behind them, but is never ahead.

    Its two slots are written in turn, so a write torn by a crash of the machine leaves the other one intact.
    """

    _FORM = Struct(">QQ8s")
    _SLOTS = (0, 512)

    def __init__(self, path: Path, mode: str = "r+b") -> None:
        """Open the note of a journal. Raises Doubt if it is missing, but the journal isn't."""
        self._turn = 0
        try:
            self._file = open(f"{path}-noted", mode, buffering=0)
        except FileNotFoundError as error:
            path.stat()
            raise Doubt("the note is missing") from error

    def read(self) -> Tuple[int, int]:
        """Return the place and the node. Raises Doubt if the note is damaged."""
        slots = [self._read_slot(at) for at in self._SLOTS]
        self._turn = slots.index(min(slots))
        place, node = max(slots)
        if node == 0:
            raise Doubt("the note is damaged")
        return place, node

    def _read_slot(self, at: int) -> Tuple[int, int]:
        """Return the place and the node of a slot: zeros if it isn't whole."""
        data = os.pread(self._file.fileno(), self._FORM.size, at)
        place, node, checksum = self._FORM.unpack(data.ljust(self._FORM.size, b"\0"))
        return (place, node) if checksum == _sum(place, node) else (0, 0)

    def write(self, place: int, node: int) -> None:
        """Write the place, in one piece."""
        data = self._FORM.pack(place, node, _sum(place, node))
        if os.pwrite(self._file.fileno(), data, self._SLOTS[self._turn]) != len(data):
            raise OSError("the note isn't written")
        self._turn = 1 - self._turn

    def sync(self) -> None:
        """Sync the note to the disk."""
        if not self._file.closed:
            os.fsync(self._file)

    def close(self) -> None:
        """Close the note."""
        self._file.close()


def salvage(path: Path) -> Tuple[Set[int], List[Tuple[bytes, Clock, Optional[bytes]]]]:
    """Read an old file from both ends. Return the node numbers in it, and the entries that aren't damaged."""
    used: Set[int] = set()
    rows: Dict[int, Row] = {}
    with suppress(Doubt), closing(_Note(path)) as note:
        used.add(note.read()[1])
    with closing(_open(path, "rw")) as database:
        _keep_log(path)
        with suppress(*_UNREADABLE):
            used.update(number for (number,) in database.execute("SELECT number FROM node"))
        for order in ("ASC", "DESC"):
            with suppress(*_UNREADABLE):
                found = database.execute(f"SELECT * FROM entry ORDER BY place {order}")
                rows.update((row[0], row) for row in found if _is_whole(row))
    entries = [_from_row(row)[1:] for _, row in sorted(rows.items())]
    return used.union(*(clock for _, clock, _ in entries)), entries


# ---- the rows of SQLite


def _open(path: Path, mode: str) -> sqlite3.Connection:
    """Open a file for this process only. A commit returns after an fsync. Raises Doubt if SQLite can't read it."""
    if mode == "rw" and path.stat().st_size == 0:
        raise Doubt("the file is empty")
    place = f"{path.absolute().as_uri()}?mode={mode}"
    database = sqlite3.connect(place, timeout=0, isolation_level=None, check_same_thread=False, uri=True)
    try:
        for setting in ("locking_mode = EXCLUSIVE", "synchronous = FULL", "wal_autocheckpoint = 0"):
            database.execute(f"PRAGMA {setting}")
        database.execute("SELECT * FROM sqlite_master").fetchall()
    except _UNREADABLE as error:
        is_locked = "locked" in str(error)
        if not is_locked:
            _keep_log(path)
        database.close()
        if is_locked:
            raise
        raise Doubt(f"the file can't be read: {error}") from error
    return database


@contextmanager
def _doubt_if_unreadable() -> Iterator[None]:
    """Raise Doubt if SQLite can't read its file."""
    try:
        yield
    except _UNREADABLE as error:
        raise Doubt(f"the file can't be read: {error}") from error


def _check_pages(database: sqlite3.Connection) -> None:
    """Raise Doubt if SQLite finds its pages damaged."""
    if database.execute("PRAGMA journal_mode").fetchone() != ("wal",):
        raise Doubt("the head of the file is damaged")
    (found,) = database.execute("PRAGMA quick_check(1)").fetchone()
    if found != "ok":
        raise Doubt(f"the file is damaged: {' '.join(found.split())}")


def _read_node(database: sqlite3.Connection) -> Tuple[Any, ...]:
    """Return the row of the node, without its checksum."""
    rows = database.execute("SELECT * FROM node").fetchall()
    if len(rows) != 1 or not _is_whole(rows[0]):
        raise Doubt("the row of the node is damaged")
    return tuple(rows[0][:-1])


def _write_node(database: sqlite3.Connection, *fields: Any) -> None:
    """Write the row of the node."""
    database.execute("DELETE FROM node")
    database.execute("INSERT INTO node VALUES (?, ?, ?, ?, ?, ?, ?)", (*fields, _sum(*fields)))


def _to_row(place: int, entry: Entry) -> Row:
    clock = json.dumps(list(entry.clock.items()))
    fields = (place, entry.key, clock, int(entry.version.kind), entry.value or b"")
    return (*fields, _sum(*fields))


def _from_row(row: Row) -> Tuple[int, bytes, Clock, Optional[bytes]]:
    place, key, clock, kind, value, _ = row
    return place, key, dict(json.loads(clock)), None if kind == Kind.TOMBSTONE else value


def _is_whole(row: Sequence[Any]) -> bool:
    """Return True if a row has the checksum of its fields."""
    return bool(row[-1] == _sum(*row[:-1]))


def _sum(*fields: Any) -> bytes:
    """Return a checksum of fields: each with its length, so that none looks like two."""
    checksum = blake2b(digest_size=8)
    for field in fields:
        data = field if isinstance(field, bytes) else repr(field).encode()
        checksum.update(b"%d:%b" % (len(data), data))
    return checksum.digest()


# ---- files


def _log_of(path: Path) -> Path:
    return Path(f"{path}-wal")


def _keep_log(path: Path) -> None:
    """Keep the log under another name: SQLite removes it at the close, with the data that it couldn't read."""
    log = _log_of(path)
    with suppress(OSError):
        if log.stat().st_size > 0:
            os.link(log, f"{log}-kept")


def _sync(path: Path) -> None:
    """Sync a file or a folder to the disk, if it exists."""
    with suppress(FileNotFoundError):
        file = os.open(path, os.O_RDONLY)
        try:
            os.fsync(file)
        finally:
            os.close(file)
