"""Slots for background work, which backs off when the foreground is slow."""

from __future__ import annotations

from contextlib import contextmanager
from typing import Iterator, Optional

from ._convert import fits
from ._handle import Handle
from ._library import current
from ._values import SlotCounts


class Slots(Handle):
    """Slots: their target stays between the floor and the ceiling, and starts at the ceiling.

    The target falls if the latency of the foreground is above the threshold, in microseconds. Raises BadRingError if
    the numbers are outside their limits. Several threads may use slots.
    """

    _free = "slots_free"

    def __init__(self, floor: int, ceiling: int, threshold: int) -> None:
        super().__init__(current())
        self._call("slots_new", fits(floor, 32), fits(ceiling, 32), fits(threshold, 32))

    def lend(self) -> None:
        """Lend a slot, before background work. Raises NoSlotError if the slots lent reach the target."""
        self._call("slot_lend")

    def give_back(self) -> None:
        """Give a slot back, after background work. Raises NoSlotError if none is lent."""
        self._call("slot_give_back")

    @contextmanager
    def lent(self) -> Iterator[None]:
        """Lend a slot for the duration of a `with` statement. Raises NoSlotError."""
        self.lend()
        try:
            yield
        finally:
            self.give_back()

    def sample(self, moment: int, micros: int) -> None:
        """Record the latency of a reply in microseconds, with its time in milliseconds. Raises ClockBackError."""
        self._call("slots_sample", fits(moment, 64), fits(micros, 32))

    def adjust(self, now: int) -> Optional[int]:
        """Set the target by the samples of the last minute. Return their 99th percentile in microseconds.

        Without samples it returns None, and the target is unchanged. Raises ClockBackError.
        """
        found, micros = self._change_words(2, "slots_adjust", fits(now, 64))
        return micros if found else None

    def set_target(self, target: int) -> None:
        """Set the target. Slots that are lent stay lent. Raises BadRingError."""
        self._call("slots_set_target", fits(target, 32))

    def count(self) -> SlotCounts:
        """Return the target, and the counts of slots that are lent and free."""
        return SlotCounts(*self._get_words(3, "slots_count"))
