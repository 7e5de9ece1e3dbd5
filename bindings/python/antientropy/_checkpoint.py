"""The frame of a checkpoint: a head, and then the rows of each leaf with their length. See docs/FORMATS.md."""

from __future__ import annotations

from struct import Struct
from typing import TYPE_CHECKING, BinaryIO, Callable

from ._calls import ROOT_LEN
from ._damage import Damage, DamagedError
from ._refused import CrowdedError, OtherRangeError, RowBrokenError

if TYPE_CHECKING:
    from ._replica import Replica
    from ._snapshot import Snapshot

_MAGIC = b"antient\x01"
_HEAD = Struct(f">8sBBH{ROOT_LEN}s")
_LENGTH = Struct(">Q")
_LEAVES = {1: 256, 2: 4096}
#: A damaged length may be huge, so a file is read in pieces.
_PIECE = 1 << 20


def save(file: BinaryIO, snapshot: Snapshot) -> None:
    """Write the checkpoint of a snapshot."""
    _write(file, _HEAD.pack(_MAGIC, snapshot.format, snapshot.bits, snapshot.range, snapshot.root()))
    for leaf in range(_LEAVES[snapshot.format]):
        rows = snapshot.rows(leaf)
        _write(file, _LENGTH.pack(len(rows)) + rows)


def load(file: BinaryIO, new: Callable[[int, int, int], Replica]) -> Replica:
    """Return a replica with the rows of a checkpoint. `new` makes it for a format, bits and a range."""
    magic, tree_format, bits, number, root = _HEAD.unpack(_read(file, _HEAD.size))
    if magic != _MAGIC or tree_format not in _LEAVES:
        raise DamagedError(Damage.NOT_CHECKPOINT)
    replica = new(tree_format, bits, number)
    try:
        _load_leaves(file, replica, _LEAVES[tree_format])
        if replica.root() != root:
            raise DamagedError(Damage.ROOT)
    except BaseException:
        replica.close()
        raise
    return replica


def _load_leaves(file: BinaryIO, replica: Replica, leaves: int) -> None:
    for leaf in range(leaves):
        rows = _read(file, _LENGTH.unpack(_read(file, _LENGTH.size))[0])
        if rows:
            _load_rows(replica, leaf, rows)
    if file.read(1):
        raise DamagedError(Damage.TOO_LONG)


def _load_rows(replica: Replica, leaf: int, rows: bytes) -> None:
    try:
        replica.load_rows(rows)
    except (RowBrokenError, OtherRangeError, CrowdedError) as refused:
        raise DamagedError(Damage.LEAF, leaf) from refused


def _read(file: BinaryIO, length: int) -> bytes:
    """Read `length` bytes."""
    pieces = []
    while length:
        piece = file.read(min(length, _PIECE))
        if not piece:
            raise DamagedError(Damage.TRUNCATED)
        pieces.append(piece)
        length -= len(piece)
    return b"".join(pieces)


def _write(file: BinaryIO, data: bytes) -> None:
    """Write all bytes: an unbuffered file may write fewer at a time."""
    rest = memoryview(data)
    while rest:
        written = file.write(rest)
        if written is None:
            raise BlockingIOError("the file takes no bytes now")
        rest = rest[written:]
