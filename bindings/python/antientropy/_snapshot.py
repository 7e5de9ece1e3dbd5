"""A snapshot of a replica's rows."""

from __future__ import annotations

from typing import TYPE_CHECKING, BinaryIO

from . import _checkpoint
from ._convert import fits, to_bytes
from ._handle import Handle
from ._moment import at_moment
from ._rows import Rows

if TYPE_CHECKING:
    from ._replica import Replica


class Snapshot(Rows):
    """The rows of a replica at one moment. It serves a partner's asks while the replica changes, and may outlive it.

    The rows are held as the replica's moment, and hashed in portions, so that other threads put meanwhile. If `rehash`
    is False nothing is held or hashed, and a node of the replica's tree without a digest raises DirtyError.
    """

    _free, _get_row, _next_key = "snapshot_free", "snapshot_get", "snapshot_key_next"
    _get_about = "snapshot_about"

    #: Format, bits of the ring and range of the rows.
    format: int
    bits: int
    range: int
    #: Number of the replica's next entry at the moment of the snapshot: a log continues there.
    entries: int

    def __init__(self, replica: Replica, rehash: bool = True) -> None:
        super().__init__(replica._library)
        if rehash:
            at_moment(replica, replica._lock, lambda: self._take_moment_held(replica))
        else:
            with replica._lock:
                replica._call_held("snapshot", self._at)
                self._describe_held()

    @classmethod
    def _of_moment_held(cls, replica: Replica) -> Snapshot:
        """Return a snapshot of the moment that a replica keeps."""
        made = cls.__new__(cls)
        Handle.__init__(made, replica._library)
        made._take_moment_held(replica)
        return made

    def _take_moment_held(self, replica: Replica) -> None:
        replica._call_held("moment", self._at)
        self._describe_held()

    def _describe_held(self) -> None:
        self.format, self.bits, self.range, self.entries = self.about()

    def share(self) -> Snapshot:
        """Return another snapshot of the same rows, with a separate lock. It copies no row.

        Threads with separate snapshots don't wait for each other. The last one frees the rows.
        """
        shared = type(self).__new__(type(self))
        Handle.__init__(shared, self._library)
        with self._lock:
            self._call_held("snapshot_share", shared._at)
        shared._describe_held()
        return shared

    def count_bytes(self) -> int:
        """Return the size of the rows in bytes, as `rows` returns them."""
        return self._get_words(1, "snapshot_bytes")[0]

    def root(self) -> bytes:
        """Return the digest of the root: 32 bytes."""
        return self._get_bytes("root")

    def digest(self, depth: int, index: int) -> bytes:
        """Return the digest of a node of the tree: 32 bytes. Raises BadMessageError if the tree has no such node.

        The root is node 0 at depth 0. The leaves are at depth 2, or at 3 in format 2.
        """
        return self._get_bytes("digest", fits(depth, 64), fits(index, 64))

    def offer(self, number: int) -> bytes:
        """Return the message that offers the snapshot. The caller numbers its offers."""
        return self._get_bytes("offer", fits(number, 32))

    def serve(self, number: int, ask: bytes) -> bytes:
        """Return the answer to a partner's ask for the offer of that number. Raises BadMessageError or GoneError."""
        ask = to_bytes(ask)
        return self._get_bytes("serve", fits(number, 32), ask, len(ask))

    def rows(self, leaf: int) -> bytes:
        """Return the texts of the rows of a leaf. Raises BadMessageError if the tree has no such leaf."""
        return self._get_bytes("rows", fits(leaf, 64))

    def save(self, file: BinaryIO) -> None:
        """Write a checkpoint of the rows (docs/FORMATS.md)."""
        _checkpoint.save(file, self)
