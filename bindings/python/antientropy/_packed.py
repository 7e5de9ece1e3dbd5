"""Packed entries: the concatenated texts of entries (docs/FORMATS.md, "Row texts")."""

from __future__ import annotations

import struct
from struct import Struct
from typing import Iterator

from ._calls import CLOCK_MAX
from ._convert import to_bytes, to_clock
from ._values import Entry, Kind, Source

#: The source of an entry, and the length of its key.
_HEAD = Struct(">BH")
#: The pairs of a clock of that many, and the length of the value.
_TAILS = [Struct(f">{'HQ' * pairs}I") for pairs in range(CLOCK_MAX + 1)]


# pylint: disable-next=too-many-locals
def unpack_entries(data: bytes, tree_format: int, number: int = 0) -> Iterator[Entry]:
    """Yield the entries in packed bytes of a format, as returned by `Replica.packed_entries`.

    The first one gets the number `number`. Raises ValueError if the bytes aren't whole entries: a log needs checksums,
    too.
    """
    data = to_bytes(data)
    # (for speed, names are local, and an entry of one pair makes few calls)
    head, head_size, tails = _HEAD.unpack_from, _HEAD.size, [(tail.unpack_from, tail.size) for tail in _TAILS]
    sources, tombstone, new = tuple(Source), int(Kind.TOMBSTONE), tuple.__new__
    at, end, has_kind = 0, len(data), tree_format == 2
    try:
        while at < end:
            source, length = head(data, at)
            key_at = at + head_size
            at = key_at + length
            key = data[key_at:at]
            at += 2  # (the number of versions: one)
            is_tombstone = has_kind and data[at] == tombstone
            at += has_kind
            pairs = data[at]
            at += 1
            unpack, size = tails[pairs]
            if pairs == 1:
                node, counter, length = unpack(data, at)
                clock = {node: counter}
            else:
                *words, length = unpack(data, at)
                clock = to_clock(words)
            value_at = at + size
            at = value_at + length
            if at > end:
                raise ValueError("the last entry isn't whole")
            value = None if is_tombstone else data[value_at:at]
            yield new(Entry, (number, key, clock, value, sources[source]))
            number += 1
    except (IndexError, struct.error) as error:
        raise ValueError("the bytes aren't packed entries") from error
