"""The calls that need no replica."""

from __future__ import annotations

from ctypes import byref, c_uint64, create_string_buffer
from struct import Struct

from ._calls import CLOCK_MAX, ROOT_LEN
from ._convert import fits, to_bytes, to_clock, to_pairs
from ._library import current
from ._values import Clock, ClockLike, OfferParts, Order, Spot

_OFFER_PARTS = Struct(f"=3Q{ROOT_LEN}s")


def place(tree_format: int, bits: int, key: bytes) -> Spot:
    """Return the range and the leaf of a key, in a ring of 2^bits ranges. Raises BadRingError or BadKeyError."""
    key, words = to_bytes(key), (c_uint64 * 2)()
    current().check("place", fits(tree_format, 64), fits(bits, 64), key, len(key), words)
    return Spot(*words)


def compare(first: ClockLike, second: ClockLike) -> Order:
    """Compare two clocks. Raises BadClockError or ClockFullError."""
    order = c_uint64()
    current().check("compare", *to_pairs(first), *to_pairs(second), byref(order))
    return Order(order.value)


def merge(*clocks: ClockLike) -> Clock:
    """Merge clocks, for the context of a put that replaces the versions of all these clocks.

    Raises BadClockError or ClockFullError.
    """
    merged: Clock = {}
    for clock in clocks:
        merged = _merge_two(merged, clock)
    return merged


def read_offer(offer: bytes) -> OfferParts:
    """Return the parts of a partner's offer. Raises BadMessageError if the bytes aren't an offer."""
    offer, parts = to_bytes(offer), create_string_buffer(_OFFER_PARTS.size)
    current().check("read_offer", offer, len(offer), parts)
    return OfferParts(*_OFFER_PARTS.unpack(parts.raw))


def _merge_two(first: ClockLike, second: ClockLike) -> Clock:
    words, need = (c_uint64 * (2 * CLOCK_MAX))(), c_uint64()
    current().check("merge", *to_pairs(first), *to_pairs(second), words, CLOCK_MAX, byref(need))
    return to_clock(words[: 2 * need.value])
