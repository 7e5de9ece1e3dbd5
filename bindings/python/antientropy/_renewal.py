"""Renewals of a replica in place, while other threads put."""

from __future__ import annotations

from threading import Thread
from time import perf_counter, sleep
from typing import TYPE_CHECKING, Tuple

from ._convert import fits
from ._handle import Handle
from ._moment import at_moment
from ._refused import AntientropyError

if TYPE_CHECKING:
    from ._replica import Replica

#: Initial number of entries that a renewal accepts at a time.
_AT_ONCE = 64

#: Maximum number of entries that a renewal leaves to its finish.
_FEW = 64


class _Renewal(Handle):
    """The new replica, which is built while the old one is in use; after its finish the old one."""

    _free = "renewal_free"

    def catch_up(self, replica: Replica) -> None:
        """Accept entries until few are left.

        After each step the lock is free for the same time, so that all waiting puts are made. If they still outrun it,
        it accepts more at a time without waiting, so it ends.
        """
        most, outrun = _AT_ONCE, False
        left, took = self._catch_up_some(replica, most)
        while left > _FEW:
            if not outrun:
                sleep(took)
            before = left
            left, took = self._catch_up_some(replica, most)
            if left >= before:
                most, outrun = 2 * most, True

    def _catch_up_some(self, replica: Replica, most: int) -> Tuple[int, float]:
        """Accept the next entries.

        Returns the number of entries left, and the seconds for which it held the lock.
        """
        with replica._lock:
            begin = perf_counter()
            left = self._words_held(1, "share_renewal_catch_up", replica._share(), most)[0]
            return left, perf_counter() - begin


def renew_in_place(replica: Replica, limit: int) -> None:
    """Renew a replica in place."""
    fits(limit, 64)
    with _Renewal(replica._library) as renewal:
        to_change = replica._to_change()
        at_moment(replica, to_change, lambda: replica._call_held("renewal_begin", limit, renewal._at))
        renewal._call("renewal_build")
        renewal.catch_up(replica)
        with to_change:
            renewal._call_held("renewal_finish", replica._at)
            replica._keeper.note_held(replica)


class Keeper:
    """Decides when a replica is to be renewed, and starts a thread for that. The lock of the replica guards it."""

    __slots__ = ("is_on", "_is_at_work", "_limit", "_first", "_held")

    def __init__(self) -> None:
        #: False: the replica doesn't renew itself.
        self.is_on = False
        #: True while a thread renews.
        self._is_at_work = False
        #: Maximum number of the journal's entries, and the number of its first one.
        self._limit = self._first = 0
        #: Number of entries that the last renewal left: 0 before the first one.
        self._held = 0

    def start_held(self, replica: Replica) -> None:
        """Make the replica renew itself from now on."""
        counts = replica.count()
        self.is_on, self._limit, self._first = True, counts.limit, counts.first

    def note_held(self, replica: Replica) -> None:
        """Record the journal's length after a renewal."""
        counts = replica.count()
        self._limit, self._first, self._held = counts.limit, counts.first, counts.entries - counts.first

    def is_due(self, entries: int) -> bool:
        """Return True if a renewal is due at a count of entries.

        That is at nine tenths of the limit, once half of the space that the last renewal left is used.
        """
        used, room = entries - self._first, self._limit - self._held
        return used * 10 >= self._limit * 9 and used > self._held and (used - self._held) * 2 >= room

    def renew_if_due(self, replica: Replica) -> None:
        """Start a thread that renews the replica, if that is due at the current count of entries."""
        if not self.is_on:
            return
        with replica._lock:
            if replica._struct.held and not self._is_at_work and self.is_due(replica.count().entries):
                self._is_at_work = True
                try:
                    Thread(target=self._renew, args=(replica,), name="antientropy renewal", daemon=True).start()
                except RuntimeError: # (no thread can be started: the next put tries again)
                    self._is_at_work = False

    def _renew(self, replica: Replica) -> None:
        """Renew the replica.

        A failed renewal counts as one that has dropped no entry: the next one is due when half of the remaining space
        is used.
        """
        try:
            renew_in_place(replica, self._limit)
        except AntientropyError:
            with replica._lock:
                if replica._struct.held:
                    self.note_held(replica)
        finally:
            with replica._lock:
                self._is_at_work = False
