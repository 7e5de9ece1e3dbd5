"""The versions of a key that each version overwrote, according to the reads of clients."""

from __future__ import annotations

from typing import Dict, Iterable, List

from .history import TOMBSTONE, Get, Write


class Overwrites:
    """The marks of one key, and for each mark the ones that it overwrote.

    A put overwrote the versions that its client had read, and all that these overwrote. Clocks play no part. If no
    client knows the clock of a tombstone, it is from a delete that began before the tombstone was first read. It is
    unknown which, so it counts for all of these, or for none if only certain overwrites are wanted.

    A set of marks is a number with one bit for each.
    """

    def __init__(self, writes: Iterable[Write], gets: Iterable[Get], is_certain: bool = False) -> None:
        self._bits: Dict[str, int] = {}
        self._overwritten: Dict[str, int] = {}
        #: The deletes that may have made the tombstones that no client knows
        self._deletes: List[Write] = []
        first: Dict[str, float] = {}
        read: Dict[str, set] = {}
        for write in writes:
            if write.mark is not None:
                first[write.mark] = write.begin
                read.setdefault(write.mark, set()).update(write.read)
            if write.is_delete and write.may_have_happened and not is_certain:
                self._deletes.append(write)
        unknown: Dict[str, float] = {}
        for get in gets:
            for version in get.versions:
                if version.mark.startswith(TOMBSTONE) and version.mark not in read:
                    unknown[version.mark] = min(get.end, unknown.get(version.mark, get.end))
        for mark, seen in unknown.items():
            first[mark] = seen
            read[mark] = self._read_by_deletes(seen)
        for mark in sorted(first, key=first.__getitem__):
            self._overwritten[mark] = self.covered(read[mark])

    def _read_by_deletes(self, before: float) -> set:
        return {mark for delete in self._deletes if delete.begin < before for mark in delete.read}

    def bit(self, mark: str) -> int:
        """Returns the set of one mark."""
        return self._bits.setdefault(mark, 1 << len(self._bits))

    def marks(self, bits: int) -> List[str]:
        """Returns the marks of a set."""
        return [mark for mark, bit in self._bits.items() if bit & bits]

    def overwritten(self, mark: str) -> int:
        """Returns the marks that a mark overwrote."""
        if mark not in self._overwritten and mark.startswith(TOMBSTONE):
            self._overwritten[mark] = self.covered(self._read_by_deletes(float("inf")))
        return self._overwritten.get(mark, 0)

    def covered(self, marks: Iterable[str]) -> int:
        """Returns these marks and those that they overwrote."""
        covered = 0
        for mark in marks:
            covered |= self.bit(mark) | self.overwritten(mark)
        return covered
