"""The calls that a store makes for each key: by the C extension `_native`, or by ctypes without it."""

from __future__ import annotations

from functools import partial
from typing import TYPE_CHECKING, Callable, List, Optional

from ._calls import CLOCK_MAX
from ._convert import fits, to_bytes, to_clock, to_first, to_kind, to_pairs, to_value
from ._handle import Results, refuse_change
from ._library import Library
from ._rows import Rows
from ._values import ClockLike, Counts, Receipt, Version

#: The calls that the extension makes, in the order of its struct.
NATIVE_CALLS = ("put_read", "put", "accept", "share_read", "share_get", "share_count")


class VersionsByCtypes(Rows):
    """A base of a replica, with these calls by ctypes."""

    _free, _get_row, _next_key, _get_about = "free", "get", "key_next", "about"

    def _put_read(self, node: int, key: bytes, value: Optional[bytes], context: ClockLike = ()) -> Receipt:
        return self._put_by("put", self._library.put_read, node, key, value, context)

    def _put_unread(self, node: int, key: bytes, value: Optional[bytes], context: ClockLike = ()) -> Receipt:
        return self._put_by("put_unread", self._library.put, node, key, value, context)

    def _put_by(
        self, name: str, put: Callable[..., int], node: int, key: bytes, value: Optional[bytes], context: ClockLike
    ) -> Receipt:
        key, (pairs, length), (kind, data) = to_bytes(key), to_pairs(context), to_kind(value)
        fits(node, 64)
        with self._to_change():
            results = self._take_results()
            words = results.words
            number = put(self._at, node, key, len(key), pairs, length, kind, data, len(data), words)
            receipt = Receipt(words[0], words[1])
            self._spare.append(results)
        if number:
            raise self._library.refusal(name, number)
        return receipt

    def _accept(self, key: bytes, clock: ClockLike, value: Optional[bytes]) -> bool:
        key, (kind, data) = to_bytes(key), to_kind(value)
        pairs, length = to_pairs(clock)
        return bool(self._change_words(1, "accept", key, len(key), pairs, length, kind, data, len(data))[0])

    def _get(self, key: bytes) -> List[Version]:
        key = to_bytes(key)
        versions: List[Version] = []
        with self._lock:
            results = self._take_results()
            version = self._read_held(results, key, 0)
            while version is not None:
                versions.append(version)
                more = len(versions) < results.reading[0]
                version = self._read_held(results, key, len(versions)) if more else None
            self._spare.append(results)
        return versions

    def _read_held(self, results: Results, key: bytes, index: int) -> Optional[Version]:
        """Return a version of a key, or None for an unknown index. `results.reading` has the number of versions."""
        reading, words, room = results.reading, results.words, results.room
        number = self._library.read(self._share(), key, len(key), index, reading, words, CLOCK_MAX, room, len(room))
        if not number:
            _, pairs, size, kind = reading[:]
            return Version(to_clock(words[: 2 * pairs]), to_value(kind, to_first(room, size)))
        if number == self._library.no_version:
            return None
        raise self._library.refusal("read", number)

    def _count(self) -> Counts:
        return Counts(*self._get_words(7, "count"))


if TYPE_CHECKING:
    Versions = VersionsByCtypes
else:
    try:
        from . import _native
    except ImportError:
        Versions = VersionsByCtypes
    else:

        class Versions(_native.Versions, VersionsByCtypes):
            """A base of a replica, with these calls by the extension."""

            def __init__(self, library: Library) -> None:
                super().__init__(library)
                refuse = partial(refuse_change, type(self).__name__)
                addresses = library.addresses(NATIVE_CALLS)
                self._bind(addresses, self._struct, self._lock, refuse, library.refusal, Receipt, Version, Counts)
