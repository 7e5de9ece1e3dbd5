"""Hints: versions that a node carries for replicas that are down."""

from __future__ import annotations

from typing import Iterator, Optional

from ._convert import fits, to_bytes, to_kind, to_pairs
from ._handle import Handle
from ._library import current
from ._refused import NoVersionError
from ._values import ClockLike, Hint, HintCounts


class Hints(Handle):
    """The hints that a node carries in memory. A hint has no range, and its number never names another one.

    Several threads may use hints.
    """

    _free = "hints_free"

    def __init__(self) -> None:
        super().__init__(current())
        self._call("hints_new")

    @classmethod
    def restore(cls, first: int) -> Hints:
        """Make an empty store, after a restart. The first hint gets the number `first`.

        It must be above all numbers in the program's log: hints that are kept again get new numbers to log, and no old
        number names another hint. Raises UnknownHintError if `first` is 0.
        """
        restored = cls.__new__(cls)
        Handle.__init__(restored, current())
        restored._call("hints_restore", fits(first, 64))
        return restored

    def keep(self, owner: int, key: bytes, clock: ClockLike, value: Optional[bytes]) -> int:
        """Keep a version, or a tombstone for None, for its owner. Return the hint's number: one more than the last.

        Raises BadClockError (also if the owner is 0 or over 65,535), ClockFullError, BadKeyError, BadValueError or
        HintsFullError.
        """
        key, (kind, data) = to_bytes(key), to_kind(value)
        args = (fits(owner, 64), key, len(key), *to_pairs(clock), kind, data, len(data))
        return self._change_words(1, "hint_keep", *args)[0]

    def next(self, owner: int, after: int = 0) -> Optional[int]:
        """Return the number of the owner's first pending hint over `after`, or None."""
        try:
            return self._get_words(1, "hint_next", fits(owner, 64), fits(after, 64))[0]
        except NoVersionError:
            return None

    def hint(self, number: int) -> Hint:
        """Return a hint, pending or delivered. Raises NoVersionError."""
        fits(number, 64)
        with self._lock:
            owner = self._words_held(1, "hint_owner", number)[0]
            key = self._bytes_held("hint_key", number)
            value = self._value_held("hint_value", number)
            clock = self._clock_held("hint_clock", number)
        return Hint(number, owner, key, clock, value)

    def pending(self, owner: int) -> Iterator[Hint]:
        """Yield the pending hints of an owner in order. Confirm them in the loop.

        A renewal in the loop gives the pending ones new numbers, so they are yielded again.
        """
        number = self.next(owner)
        while number is not None:
            yield self.hint(number)
            number = self.next(owner, number)

    def confirm(self, number: int, known: bool = False) -> None:
        """Mark a pending hint as delivered, once its owner has the version on its disk. Raises UnknownHintError.

        `known` is True if the owner knew the version.
        """
        self._call("hint_confirm", fits(number, 64), known)

    def renew(self) -> None:
        """Drop the delivered hints. The pending ones get new numbers in order, above every number that was used.

        After that, an old number names no hint. Raises HintsFullError if a number would be over 2^64 - 1.
        """
        self._call("hints_renew")

    def count(self) -> HintCounts:
        """Return the counts of pending and of delivered hints."""
        return HintCounts(*self._get_words(2, "hints_count"))

    def count_bytes(self) -> int:
        """Return the size of all hints in bytes, including delivered ones.

        It counts their keys, values and clocks, 10 bytes for each pair of a clock.
        """
        return self._get_words(1, "hints_bytes")[0]
