"""A replica of a range."""

from __future__ import annotations

from ctypes import byref, c_uint64, create_string_buffer
from typing import Any, BinaryIO, Callable, Iterable, Iterator, List, Optional, Tuple

from . import _checkpoint, _exchange
from ._calls import ENTRY_MAX, HandleStruct
from ._convert import fits, to_bytes, to_first
from ._exchange import Exchange, Reach
from ._library import Library, current
from ._packed import unpack_entries
from ._refused import AntientropyError, RowBrokenError
from ._renewal import Keeper, renew_in_place
from ._snapshot import Snapshot
from ._values import (
    Bounds,
    ByteCounts,
    ClockLike,
    Counts,
    Entry,
    Loaded,
    Packed,
    Put,
    Receipt,
    Source,
    Synced,
    Version,
)
from ._versions import Versions

_LIMIT = 1_000_000

#: No entry has a greater number.
_ALL = (1 << 64) - 1

#: Bytes of packed entries to read at a time.
_PACKED_ROOM = 1 << 20


def _free_with_orphans(
    free: Callable[..., None], at: object, free_exchange: Callable[..., None], orphans: List[HandleStruct]
) -> None:
    free(at)
    while orphans:
        free_exchange(byref(orphans.pop()))


class Replica(Versions):
    """A replica of one range of a ring of 2^bits ranges, in format 1 or 2, with a journal of at most `limit` entries.

    With `renew` the replica renews itself like `renew_in_place`, with its limit: a put, an acceptance, a load or the
    end of an exchange that finds a renewal due starts a daemon thread, one at a time. It is due when nine tenths of the
    limit are used, and half of the space that the last renewal left. This keeps a journal that its rows fill from being
    renewed again and again. A put raises JournalFullError only if the last tenth is used before the renewal has ended,
    or if the rows fill the journal. A log that missed entries before a renewal gets BadPositionError: it then reads the
    whole journal.

    Raises BadRingError if a number is outside its limits. Several threads may use a replica.
    """

    # (`_prepare` calls the base's) pylint: disable-next=super-init-not-called
    def __init__(
        self, tree_format: int = 2, bits: int = 0, range_number: int = 0, limit: int = _LIMIT, *, renew: bool = False
    ) -> None:
        self._prepare(current())
        self._make(renew, "new", tree_format, bits, range_number, limit)

    @classmethod
    def seeded(
        cls,
        first: int,
        second: int,
        tree_format: int = 2,
        bits: int = 0,
        range_number: int = 0,
        limit: int = _LIMIT,
        *,
        renew: bool = False,
    ) -> Replica:
        """Make a replica with a seed of two words for the hash of keys.

        Random words make it hard for clients to choose keys with equal hashes, which are slow to find. Raises
        BadRingError if a number is outside its limits.
        """
        made = cls.__new__(cls)
        made._prepare(current())
        made._make(renew, "new_seeded", tree_format, bits, range_number, limit, first, second)
        return made

    def _make(self, renew: bool, call: str, *numbers: int) -> None:
        with self._lock:
            self._call_held(call, *(fits(number, 64) for number in numbers))
            if renew:
                self._keeper.start_held(self)

    def _prepare(self, library: Library) -> None:
        self._keeper = Keeper()
        #: The threads in calls at a moment, once for each call.
        self._moment_threads: List[int] = []
        #: Exchanges that were collected without being closed.
        self._orphans: List[HandleStruct] = []
        super().__init__(library)

    def _freeing(self) -> Tuple[Any, ...]:
        return _free_with_orphans, self._free_call, self._at, self._library.exchange_free, self._orphans

    def _close_orphans_held(self) -> None:
        if not self._orphans:
            return
        while self._orphans:
            orphan = byref(self._orphans.pop())
            self._library.exchange_close(orphan, self._at)
            self._library.exchange_free(orphan)
        self._library.drop_sessions(self._at)

    def renew(self, limit: int = _LIMIT) -> Replica:
        """Return a new replica with the held versions: one entry for each, and no sessions.

        This replica is unchanged: close it, and use the new one under the same node number. Entry numbers continue:
        both replicas have the same entry count, and the next entry gets a number that was never used. The new journal
        begins at `count().first`. It takes time in proportion to the rows, and no put is made meanwhile:
        `renew_in_place` renews the replica while other threads put.

        Raises BadRingError (the limit) or JournalFullError (more versions are held than the limit).
        """
        renewed = type(self).__new__(type(self))
        with self._lock:
            renewed._prepare(self._library)
            self._call_held("renew", renewed._at, fits(limit, 64))
        return renewed

    def renew_in_place(self, limit: int = _LIMIT) -> None:
        """Renew the replica like `renew`, but in place, while other threads put.

        It holds the current rows as a moment, like `snapshot`, builds the new journal from them without the lock, and
        accepts the entries put meanwhile. Puts wait only for its steps under the lock: the last one accepts a few
        entries. It drops the sessions and the moment, so the report of an exchange is GONE. Entry numbers continue:
        entries since the moment keep theirs, and a log that has all earlier entries reads on.

        Raises BadRingError (the limit), JournalFullError (more versions are held than the limit, or accepted meanwhile)
        or StaleError (another thread has renewed or migrated the replica meanwhile). A refusal leaves it unchanged.
        """
        renew_in_place(self, limit)

    def migrate(self) -> None:
        """Convert a replica of format 1 to format 2.

        All nodes become dirty, open sessions are cancelled, and the moment is dropped.
        """
        self._call("migrate")

    def count(self) -> Counts:
        """Return the counts of entries, dirty nodes and sessions, and of the entries at the last whole moment."""
        return self._count()

    def count_bytes(self) -> ByteCounts:
        """Return the size of the rows, of the journal and of the sessions' additional contents.

        It visits each chunk of 15 rows and the digests of each session's leaves: call it every few seconds, not at each
        put.
        """
        return ByteCounts(*self._get_words(3, "bytes"))

    @property
    def format(self) -> int:
        """Format of the replica: 1 or 2."""
        return self.about().format

    @property
    def bits(self) -> int:
        """Bits of the ring, which has 2^bits ranges."""
        return self.about().bits

    @property
    def range(self) -> int:
        """Number of the replica's range, from 0."""
        return self.about().range

    # ---- versions

    def put(self, node: int, key: bytes, value: bytes, context: ClockLike = ()) -> Receipt:
        """Put a value for a key at a node, after a read: the context is the merged clock of the versions read.

        The new version replaces every held version whose clock is at most its clock. The client has read each of these:
        StaleContextError means that a held version has a greater counter of the node than the context, so another
        client has put in between; read again.

        Raises BadClockError (also if the node is 0 or over 65,535), ClockFullError, BadKeyError, BadValueError,
        OtherRangeError, CounterFullError, StaleContextError, CrowdedError or JournalFullError.
        """
        if value is None:
            raise TypeError("a value has bytes: `delete` puts a tombstone")
        try:
            return self._put_read(node, key, value, context)
        finally:
            if self._keeper.is_on:
                self._keeper.renew_if_due(self)

    def delete(self, node: int, key: bytes, context: ClockLike = ()) -> Receipt:
        """Put a tombstone for a key. Raises the exceptions of `put`; in format 1 BadValueError."""
        return self._put_and_renew(node, key, None, context)

    def _put_and_renew(self, node: int, key: bytes, value: Optional[bytes], context: ClockLike = ()) -> Receipt:
        try:
            return self._put_read(node, key, value, context)
        finally:
            self._keeper.renew_if_due(self)

    def put_unread(self, node: int, key: bytes, value: Optional[bytes], context: ClockLike = ()) -> Receipt:
        """Put a value, or a tombstone for None, without the check of `put`, which the caller must make.

        The new version replaces even a held version that the client hasn't read. Raises the exceptions of `put`, but
        StaleContextError only if a held version's clock includes the new version's.
        """
        try:
            return self._put_unread(node, key, value, context)
        finally:
            self._keeper.renew_if_due(self)

    def put_many(self, node: int, items: Iterable[Put]) -> List[Receipt]:
        """Put each item at a node, in turn, and return the receipts.

        An item is a key, a value, or None for a tombstone, and optionally a context.

        After a refusal the earlier puts stay: the exception has their receipts in `done`. Other threads may make calls
        between two puts, and `items` may read the replica.
        """
        put = self._put_and_renew if self._keeper.is_on else self._put_read
        receipts: List[Receipt] = []
        for item in items:
            key, value, context = item if len(item) == 3 else (*item, ())
            try:
                receipts.append(put(node, key, value, context))
            except AntientropyError as refused:
                refused.done = tuple(receipts)
                raise
        return receipts

    def accept(self, key: bytes, clock: ClockLike, value: Optional[bytes]) -> bool:
        """Accept a version of another replica, as a copy. Return False if it was known.

        Raises BadClockError, ClockFullError, BadKeyError, BadValueError, OtherRangeError, CrowdedError or
        JournalFullError.
        """
        try:
            return self._accept(key, clock, value)
        finally:
            self._keeper.renew_if_due(self)

    def get(self, key: bytes) -> List[Version]:
        """Return all versions held for a key at one moment. Several versions are concurrent."""
        return self._get(key)

    # ---- the journal

    def entries(self, start: Optional[int] = None) -> Iterator[Entry]:
        """Yield the entries of the journal, from a number on: without one, from the journal's first entry on.

        A log reads from the number of its next entry. A renewal skips no entry for a log that had all of them. Raises
        BadPositionError if entries were missed, or if the number isn't one of this journal: it is over the count of
        entries, or below the count at the last renewal and not `count().first`. After that error, read the whole
        journal.
        """
        return self._entries_after(self.packed_entries(start))

    def _entries_after(self, packed: Packed) -> Iterator[Entry]:
        while packed.data:
            yield from unpack_entries(packed.data, packed.format, packed.first)
            packed = self.packed_entries(packed.next)

    def packed_entries(self, start: Optional[int] = None, room: int = _PACKED_ROOM) -> Packed:
        """Return the texts of the entries from a number on, in the order of `entries`. Continue at `next`.

        It returns the entries that fit in `room` bytes, but at least one, unless no entry follows. Raises
        BadPositionError like `entries`. `unpack_entries` yields the entries of the texts.
        """
        with self._lock:
            about = self.about()
            first = self.count().first if start is None else fits(start, 64)
            left = max(0, about.entries - first)
            data, next_number = self._packed_held(first, min(room, left * ENTRY_MAX))
        return Packed(data, first, next_number, about.format)

    def _packed_held(self, first: int, room: int) -> Tuple[bytes, int]:
        """Packed entries from a number on, and the number after them."""
        call, data, need, next_number = self._library.entries, create_string_buffer(room), c_uint64(), c_uint64()
        number = call(self._share(), first, data, room, byref(need), byref(next_number))
        if number == self._library.small:
            data = create_string_buffer(need.value)
            number = call(self._share(), first, data, need.value, byref(need), byref(next_number))
        if number:
            raise self._library.refusal("entries", number)
        return to_first(data, need.value), next_number.value

    def entry(self, number: int) -> Entry:
        """Return an entry of the journal, by its number. Raises NoVersionError."""
        fits(number, 64)
        with self._lock:
            key = self._bytes_held("entry_key", number)
            value = self._value_held("entry_value", number)
            clock = self._clock_held("entry_clock", number)
            source = self._words_held(1, "entry_source", number)[0]
        return Entry(number, key, clock, value, Source(source))

    def top_counter(self, node: int, key: bytes, entries: Optional[int] = None) -> int:
        """Return the greatest counter of a node in the clocks of a key's versions, or 0.

        It looks at the journal's entries of numbers below `entries`, or at all. Raises BadClockError if the node is 0
        or over 65,535.
        """
        key, most = to_bytes(key), _ALL if entries is None else fits(entries, 64)
        return self._get_words(1, "top_counter", fits(node, 64), key, len(key), most)[0]

    # ---- the tree, offers and checkpoints

    def rehash(self) -> None:
        """Hash all nodes of the tree that have no digest.

        Other threads wait meanwhile. Only `snapshot` with a `rehash` of False requires it.
        """
        self._call("rehash")

    def rehash_some(self, most: int) -> int:
        """Hash at most `most` of the nodes that have no digest though all their children have one.

        Returns the number of nodes still without one. Repeat it until it returns 0; other calls may be made in between.
        """
        return self._change_words(1, "rehash_some", fits(most, 64))[0]

    def hold(self) -> None:
        """Keep the current rows as the replica's moment, in place of the previous one. No later call changes it.

        While a moment is kept, the first change in a block of rows copies the block. The next hold frees the blocks
        that only this moment has, and other threads wait meanwhile. To avoid that, drop the moment before its snapshot
        is closed. `snapshot`, `root`, `save`, `exchange` and `sync` hold a moment in place of the previous one, and
        drop it before they return. They end even if puts never pause.
        """
        self._call("hold")

    def drop_moment(self) -> None:
        """Drop the moment, if any. Its snapshots stay valid.

        A `snapshot` or a `sync` that hashes the moment in another thread holds another one.
        """
        self._call("drop_moment")

    def hash_moment(self, most: int) -> int:
        """Hash at most `most` of the moment's nodes that have no digest though all their children have one.

        Returns the number of its nodes still without one: 0 if the moment is whole or doesn't exist.
        """
        return self._change_words(1, "hash_moment", fits(most, 64))[0]

    def moment(self) -> Snapshot:
        """Return a snapshot of the moment. Raises DirtyError if it isn't whole or doesn't exist."""
        with self._lock:
            return Snapshot._of_moment_held(self)

    def snapshot(self, rehash: bool = True) -> Snapshot:
        """Return a snapshot of the current rows, which are held as a moment and hashed while other threads put.

        The moment is dropped at the end. If `rehash` is False, the call holds and drops no moment, and raises
        DirtyError if a node of the tree has no digest.
        """
        return Snapshot(self, rehash)

    def root(self) -> bytes:
        """Return the digest of the current root. Replicas of a range with equal roots hold the same versions."""
        with self.snapshot() as snapshot:
            return snapshot.root()

    def load_rows(self, rows: bytes) -> Loaded:
        """Accept all versions in rows of one leaf, as returned by `Snapshot.rows` or `row`, as copies, or none of them.

        Raises RowBrokenError with the `offset` of the broken field, OtherRangeError, CrowdedError or JournalFullError.
        """
        return self._load_rows("load", to_bytes(rows))

    def load_format(self, tree_format: int, rows: bytes) -> Loaded:
        """Accept all versions in rows of a format and any leaves, by ascending key, as copies, or none of them.

        A replica of format 2 loads rows of format 1 too. Raises BadRingError (the format is neither 1 nor 2),
        OtherFormatError (rows of format 2, replica of format 1), RowBrokenError with the `offset` of the broken field,
        OtherRangeError, CrowdedError or JournalFullError.
        """
        return self._load_rows("load_format", to_bytes(rows), fits(tree_format, 64))

    def _load_rows(self, call: str, rows: bytes, *numbers: int) -> Loaded:
        words = (c_uint64 * len(Loaded._fields + ("offset",)))()
        try:
            self._call(call, *numbers, rows, len(rows), words)
        except RowBrokenError as refused:
            refused.offset = words[2]
            raise
        finally:
            self._keeper.renew_if_due(self)
        return Loaded(*words[:2])

    def save(self, file: BinaryIO) -> int:
        """Write a checkpoint of the current rows (docs/FORMATS.md). Return the number of the first entry after it.

        Other threads may put meanwhile. The caller syncs the file to its disk.
        """
        with self.snapshot() as snapshot:
            snapshot.save(file)
            return snapshot.entries

    @classmethod
    def load(cls, file: BinaryIO, limit: int = _LIMIT, *, renew: bool = False) -> Replica:
        """Return a new replica with the rows of a checkpoint. Raises DamagedError if the file is damaged.

        The root detects damage, but not a forged file. Compare `format`, `bits` and `range` with the configuration.
        Entries are numbered from 0: accept the logged ones, and save again. Raises BadRingError too (the limit, or the
        file's range), and JournalFullError.
        """

        def new(tree_format: int, bits: int, range_number: int) -> Replica:
            return cls(tree_format, bits, range_number, limit, renew=renew)

        return _checkpoint.load(file, new)

    # ---- exchanges

    def exchange(self, partner: int, offer: bytes, bounds: Bounds = Bounds()) -> Exchange:
        """Open an exchange with a partner by its offer. If the roots are equal, it is finished and opens no session.

        It compares the current rows, which are held as a moment and hashed while other threads put.

        Raises BadMessageError, BadClockError (the partner is over 65,535), OtherFormatError, OtherRangeError or
        SessionsFullError.
        """
        return Exchange(self, partner, offer, bounds)

    def drop_sessions(self) -> None:
        """Drop the sessions that have ended, and the rows that they keep. Sessions of exchanges in progress stay.

        Entries whose source is PARTNER get the source COPY.
        """
        with self._to_change():
            self._close_orphans_held()
            self._call_held("drop_sessions")

    def sync(self, partner: int, offer: bytes, reach: Reach, bounds: Bounds = Bounds()) -> Synced:
        """Take the versions that this replica is missing from a partner's offer, by a complete exchange.

        `reach` gets the asks to send, and returns the answers in any order: missing ones are None, or left out. At its
        end, even by an exception, it drops the sessions that have ended, like `drop_sessions`.

        Raises the exceptions of `exchange`, NotCanonicalError, JournalFullError or NoMemoryError, and the exceptions of
        `reach`. The versions taken before stay.
        """
        return _exchange.sync(self, partner, offer, reach, bounds)
