"""Conversions between Python values and C values."""

from __future__ import annotations

from array import array
from ctypes import c_uint64
from typing import Any, List, Optional, Tuple

from ._values import Clock, ClockLike, Kind

#: An empty list of pairs: no pointer may be NULL.
_NO_PAIRS = (c_uint64 * 2)()

#: Numbers of the kinds: reading them from the enum is slow.
_LIVE, _TOMBSTONE = int(Kind.LIVE), int(Kind.TOMBSTONE)


def fits(number: int, bits: int) -> int:
    """Return a number that an unsigned C type of `bits` bits can hold. ctypes truncates other numbers silently."""
    if number >> bits:
        raise OverflowError(f"{number} doesn't fit in {bits} bits")
    return number


def to_bytes(data: Any) -> bytes:
    """Return the bytes of a bytes-like object."""
    return data if isinstance(data, bytes) else bytes(memoryview(data))


def to_first(room: Any, length: int) -> bytes:
    """Return the first bytes of a C array."""
    return bytes(room[:length])


def to_pairs(clock: ClockLike) -> Tuple[Any, int]:
    """Return a clock as an array of pairs, with their number."""
    if not clock:
        return _NO_PAIRS, 0
    pairs = clock.items() if hasattr(clock, "items") else clock
    words = array("Q", [word for node, counter in pairs for word in (node, counter)])
    if not words:
        return _NO_PAIRS, 0
    return (c_uint64 * len(words)).from_buffer(words), len(words) // 2


def to_clock(words: List[int]) -> Clock:
    """Return the clock of an array of pairs."""
    return dict(zip(words[::2], words[1::2]))


def to_kind(value: Optional[bytes]) -> Tuple[int, bytes]:
    """Return the kind and the bytes of a version's value."""
    return (_TOMBSTONE, b"") if value is None else (_LIVE, to_bytes(value))


def to_value(kind: int, data: bytes) -> Optional[bytes]:
    """Return the value of a version: None for a tombstone."""
    return None if kind == _TOMBSTONE else data
