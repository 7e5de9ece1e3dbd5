"""The base class of objects whose rows are read by key."""

from __future__ import annotations

from ctypes import byref, c_uint64, create_string_buffer
from typing import Iterator

from ._calls import KEY_MAX
from ._convert import fits, to_bytes
from ._handle import Handle
from ._refused import BadMessageError
from ._values import About


class Rows(Handle):
    """A handle of rows, which are read by key."""

    #: Name of the call that returns the row of a key.
    _get_row = ""
    #: Name of the call that lists the keys of a leaf.
    _next_key = ""
    #: Name of the call that returns the range and the position.
    _get_about = ""

    def about(self) -> About:
        """Return the identity to store in a checkpoint or a log: format, bits, range and number of the next entry."""
        return About(*self._get_words(4, self._get_about))

    def row(self, key: bytes) -> bytes:
        """Return the text of the row of a key (docs/FORMATS.md), or no bytes if none is held. Raises BadKeyError."""
        return self._row(key)

    def _row(self, key: bytes) -> bytes:
        key = to_bytes(key)
        return self._get_bytes(self._get_row, key, len(key))

    def keys(self) -> Iterator[bytes]:
        """Yield the keys, leaf by leaf. Keys put to a replica meanwhile are included if the loop hasn't passed them."""
        leaf = 0
        while True:
            try:
                yield from self.keys_of(leaf)
            except BadMessageError:
                return
            leaf += 1

    def keys_of(self, leaf: int) -> Iterator[bytes]:
        """Yield the keys of a leaf in ascending order. Raises BadMessageError if the tree has no such leaf."""
        fits(leaf, 64)
        key_next = getattr(self._library, self._next_key)
        key, length = create_string_buffer(KEY_MAX), c_uint64()
        while True:
            with self._lock:
                number = key_next(self._share(), leaf, key, KEY_MAX, byref(length))
            if number == self._library.no_version:
                return
            if number:
                raise self._library.refusal(self._next_key, number)
            yield key.raw[: length.value]
