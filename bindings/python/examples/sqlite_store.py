"""A durable store: a replica whose journal is kept in SQLite, and restored from it under its node number.

A call returns once everything that it can show is in the file (`journal_file.py`) and on the disk, so everything sent
is on the disk: results, copies, hints and snapshots. Threads that wait for the disk share one transaction and one
fsync. If that fails, the process ends, since its memory is ahead of the disk. A store starts on a full disk, and can be
read there; a put without disk space ends the process, and nothing is lost.

A starting store accepts the entries of its file by rising place, which restores its counters. The start raises `Doubt`
if the file can't show that it has all acknowledged entries. `SqliteStore.renumber` then keeps the readable ones, under
a number that was never used. After a crash of the machine only a partner can show that the end of the file is lost, so
sync from all reachable partners before the first put of a start.

`line_server.py` is a program with a store.
"""

from __future__ import annotations

from contextlib import closing
from pathlib import Path
from threading import Condition, Lock
from typing import Callable, Dict, Iterable, List, Optional, Sequence, TypeVar

import antientropy
from antientropy import Clock, ClockLike, Entry, Receipt, Replica, Snapshot, Source, Synced, Version

from journal_file import Doubt, JournalFile, salvage

T = TypeVar("T")
Reach = Callable[[List[bytes]], Sequence[Optional[bytes]]]

_LIMIT = 1_000_000


class SqliteStore:
    """A replica of a node, with its journal in a file.

    Several threads may use a store, but only one process: a second one is refused as sqlite3.OperationalError. Before
    the first put of a start, call `sync` for each reachable partner.
    """

    def __init__(self, path: Path, limit: int = _LIMIT) -> None:
        """Start the store. Raises Doubt, FileNotFoundError, or ValueError if more is held than the limit."""
        self._turn = Condition(Lock())
        #: True while a thread writes to the file without the lock.
        self._is_writing = False
        self._file = JournalFile(path)
        self.node = self._file.node
        self._limit = limit
        #: Greatest counter of the node for each key.
        self._counters: Dict[bytes, int] = {}
        #: Number of the next entry at the last renewal.
        self._renewed = 0
        #: Place of an entry in the file minus its number in the journal.
        self._offset = self._file.first
        try:
            tree_format, bits, range_number = self._file.ring
            self._replica = Replica(tree_format, bits, range_number, max(limit, self._file.rows))
            self._load()
        except BaseException:
            self._file.close()
            raise

    @staticmethod
    def create(path: Path, node: int, tree_format: int = 2, bits: int = 0, range_number: int = 0) -> None:
        """Make the files of a node, whose number was never used. Raises FileExistsError if one exists.

        If it is killed, remove the files that it left.
        """
        with Replica(tree_format, bits, range_number) as replica:
            replica.top_counter(node, b"")  # raises BadClockError if no node has such a number
        JournalFile.create(path, node, (tree_format, bits, range_number))

    @classmethod
    def renumber(
        cls, old: Path, new: Path, node: int, tree_format: int = 2, bits: int = 0, range_number: int = 0
    ) -> int:
        """Make a new file with the readable part of an old one, which is unchanged. Return the number of its versions.

        The number of its node must be one that was never used. Raises ValueError if the old file has it. Syncs restore
        unreadable versions that a partner holds.
        """
        used, entries = salvage(old)
        if node in used:
            raise ValueError(f"{node} was used: {old} has it")
        cls.create(new, node, tree_format, bits, range_number)
        with closing(cls(new, max(_LIMIT, len(entries)))) as store:
            return store._change(lambda replica: sum(_is_accepted(replica, *entry) for entry in entries))

    def put(self, key: bytes, value: Optional[bytes], context: ClockLike = ()) -> Receipt:
        """Put a value, or a tombstone for None, at the node.

        Read the key before (docs/EMBEDDING_C.md, "A replica").
        """
        if value is None:
            return self._change(lambda replica: replica.delete(self.node, key, context))
        data = value
        return self._change(lambda replica: replica.put(self.node, key, data, context))

    def accept(self, key: bytes, clock: ClockLike, value: Optional[bytes]) -> bool:
        """Accept a copy or a hint of another node. Return False if it was known.

        Raises Doubt if its counter of this node is greater than the store's for the key: the file has lost a put. The
        file is then marked. Nothing is put or accepted any more, and later starts raise Doubt; reads still work.
        """
        return self._change(lambda replica: replica.accept(key, clock, value))

    def sync(self, partner: int, offer: bytes, reach: Reach) -> Synced:
        """Take the versions of a partner's offer, like `Replica.sync`. Raises Doubt like `accept`.

        Other calls may be made meanwhile. After a renewal by one of them the sync and its counts restart.
        """
        synced = None
        while synced is None:
            synced = self._sync_once(partner, offer, reach)
        return synced

    def get(self, key: bytes) -> List[Version]:
        """Return all versions held for a key."""
        return self._read(lambda replica: replica.get(key))

    def entries(self, start: Optional[int] = None) -> List[Entry]:
        """Return the entries from a number on, or all: copies for other nodes, or hints.

        Numbering continues over renewals, and begins at 0 at each start. Raises BadPositionError like
        `Replica.entries`.
        """
        return self._read(lambda replica: list(replica.entries(start)))

    def snapshot(self) -> Snapshot:
        """Return a snapshot of the current rows. Other calls may be made meanwhile."""
        snapshot = None
        while snapshot is None:
            snapshot = self._snapshot_once()
        return snapshot

    def renew(self) -> None:
        """Drop the entries that others have replaced, from memory and from the file. Numbering continues."""
        with self._turn:
            self._wait_for_writer()
            self._file.check_doubt()
            self._renew()

    def close(self) -> None:
        """Free the memory, and close the file. Calls in progress are refused as EmptyError."""
        with self._turn:
            self._wait_for_writer()
            self._replica.close()
            self._file.close()

    # ---- calls, and the disk

    def _read(self, call: Callable[[Replica], T]) -> T:
        with self._turn:
            return self._durably(call)

    def _change(self, call: Callable[[Replica], T]) -> T:
        """Make a call that accepts versions. Raises Doubt before or after it."""
        with self._turn:
            self._prepare()
            try:
                return self._durably(call)
            finally:
                self._file.check_doubt()

    def _prepare(self) -> None:
        """Make space for new entries. Raises Doubt."""
        self._file.check_doubt()
        while self._is_renewal_due():
            if self._is_writing:
                self._turn.wait()
            else:
                self._renew()
            self._file.check_doubt()

    def _durably(self, call: Callable[[Replica], T]) -> T:
        """Make a call, and return when the file has everything that it can show. Refusals show something, too."""
        try:
            return call(self._replica)
        finally:
            self._save()

    def _save(self) -> None:
        """Return when the file has all current entries. One of the waiting threads writes for all of them."""
        end = self._offset + self._replica.count().entries
        while self._file.end < end:
            if self._is_writing:
                self._turn.wait()
            else:
                self._write()

    def _write(self) -> None:
        """Write the entries that the file doesn't have yet. Others may make calls meanwhile."""
        replica = self._replica
        self._is_writing = True
        self._turn.release()
        try:
            entries = list(replica.entries(self._file.end - self._offset))
            self._file.write(self._file.first, entries, self._find_lost(entries))
        finally:
            self._turn.acquire()
            self._is_writing = False
            self._turn.notify_all()

    def _wait_for_writer(self) -> None:
        while self._is_writing:
            self._turn.wait()

    def _find_lost(self, entries: Iterable[Entry]) -> str:
        """Note the counters of new entries. Return a description if a copy shows that the file has lost a put."""
        for entry in entries:
            counter, before = entry.clock.get(self.node, 0), self._counters.get(entry.key, 0)
            if counter > before and entry.source is not Source.PUT:
                return f"a copy of a key has counter {counter} of node {self.node}, but the file has {before}"
            if counter > before:
                self._counters[entry.key] = counter
        return ""

    # ---- snapshots and syncs

    def _snapshot_once(self) -> Optional[Snapshot]:
        """Make a snapshot without the lock. Return None if the replica was renewed meanwhile."""
        with self._turn:
            replica = self._replica
        try:
            snapshot = replica.snapshot()
        except antientropy.EmptyError:
            with self._turn:
                if replica is self._replica:
                    raise
            return None
        with self._turn:
            self._save()
            if replica is self._replica:
                return snapshot
        snapshot.close()
        return None

    def _sync_once(self, partner: int, offer: bytes, reach: Reach) -> Optional[Synced]:
        """Sync without the lock. Return None if the replica was renewed meanwhile, or has to be."""
        with self._turn:
            self._prepare()
            replica = self._replica
        synced = None
        try:
            synced = replica.sync(partner, offer, reach)
        except (antientropy.EmptyError, antientropy.JournalFullError):
            with self._turn:
                if replica is self._replica and not self._is_renewal_due():
                    raise
        finally:
            with self._turn:
                self._save()
                self._file.check_doubt()
        return synced if replica is self._replica else None

    # ---- renewals, and the start

    def _is_renewal_due(self) -> bool:
        """Return True near the limit, unless little is gained: a replica full of held versions isn't renewed again."""
        count = self._replica.count()
        kept, grown = count.entries - count.first, count.entries - self._renewed
        return 10 * kept >= 9 * self._limit and 20 * grown >= self._limit

    def _renew(self) -> None:
        """Replace the replica by a new one. No other thread writes meanwhile.

        A sync may add versions to the old one until it is closed. Nobody sees these, and the sync takes them again.
        """
        old = self._replica
        renewed = old.renew(self._limit)
        count = renewed.count()
        first = self._offset + old.count().entries
        lost = self._find_lost(old.entries(self._file.end - self._offset))
        self._file.write(first, renewed.entries(), lost)
        self._replica, self._renewed, self._offset = renewed, count.entries, first - count.first
        old.close()
        self._turn.notify_all()

    def _load(self) -> None:
        """Accept the entries of the file, by rising place. Each of them is new to the replica."""
        for place, key, clock, value in self._file.read():
            if not _is_accepted(self._replica, key, clock, value):
                raise Doubt(f"entry {place} doesn't follow from those before it")
            self._counters[key] = max(self._counters.get(key, 0), clock.get(self.node, 0))
        self._file.settle()
        if self._file.rows > self._limit:
            self._fit()

    def _fit(self) -> None:
        """Renew a replica that has more entries than the limit."""
        with self._replica.renew(self._file.rows) as renewed:
            count = renewed.count()
        held = count.entries - count.first
        if held > self._limit:
            raise ValueError(f"{held} versions are held, but the limit is {self._limit}")
        self.renew()


def _is_accepted(replica: Replica, key: bytes, clock: Clock, value: Optional[bytes]) -> bool:
    """Return True if a replica accepts an entry as new."""
    try:
        return replica.accept(key, clock, value)
    except antientropy.AntientropyError:
        return False
