"""The disk of one program: the changes that a power cut undoes, and the other faults that a disk may have.

The program runs under a library for LD_PRELOAD, `disk_faults.c`, which `build` compiles:

    library = build(folder)                             # None: there is no C compiler
    power = Power(library, disk)                        # `disk` is the folder that the program writes below
    program = Popen(.., env=power.environment())
    ..
    program.kill(); program.wait()
    power.cut()                                         # no unsynced change is left
    power.cut(random.Random(7))                         # or some are, and one write of each file is torn

A kill itself undoes nothing, and changes that weren't synced by then may still be lost at a later cut. After a change
of the folder without the library, call `keep`, once the program has ended.
"""

from __future__ import annotations

import os
import random
import shutil
import struct
import subprocess
from dataclasses import dataclass
from pathlib import Path
from typing import Dict, Iterator, List, Mapping, NamedTuple, Optional, Sequence, Set, Tuple

SOURCE = Path(__file__).with_name("disk_faults.c")
FLAGS = ("-shared", "-fPIC", "-std=c11", "-O2", "-Wall", "-Wextra", "-Werror")

#: Kinds of records, and the numbers of their heads, as in `disk_faults.c`.
WRITTEN, RESIZED, SYNCED, CREATED, MADE, REMOVED, REMOVED_FOLDER, RENAMED = range(1, 9)
HEAD = struct.Struct("=5q")

#: The file `control`: the space, the syncs that fail and their delay; the counts of syncs, failed ones, refusals, and
#: syncs that have begun.
CONTROL = struct.Struct("=7q")
NO_FAULTS, NO_COUNTS = (-1, 0, 0), (0, 0, 0, 0)

#: Number of bytes that a disk writes at once.
SECTOR = 512


class Record(NamedTuple):
    """A change that was recorded before it was made."""

    position: int
    kind: int
    at: int
    count: int
    size: int
    data: bytes


@dataclass
class Cut:
    """The changes that a power cut undid."""

    names: int = 0
    writes: int = 0
    torn: int = 0


class Counts(NamedTuple):
    """The library's counts since the last `heal`."""

    synced: int
    failed: int
    refused: int
    begun: int


def build(folder: Path) -> Optional[Path]:
    """Compiles the library into a folder, and returns its path, or None without a C compiler."""
    if shutil.which("cc") is None:
        return None
    library = folder / "disk_faults.so"
    subprocess.run(["cc", *FLAGS, "-o", str(library), str(SOURCE), "-ldl", "-lpthread"], check=True)
    return library


class Power:
    """The disk of one program: a folder, and its shadow, an adjacent folder on the same file system."""

    def __init__(self, library: Path, folder: Path, shadow: Optional[Path] = None) -> None:
        folder.mkdir(parents=True, exist_ok=True)
        self.folder = folder.resolve()
        self._library = library.resolve()
        self._shadow = (shadow or folder.with_name(folder.name + ".shadow")).resolve()
        self._shadow.mkdir(parents=True, exist_ok=True)
        self._control = self._shadow / "control"
        self._control.write_bytes(CONTROL.pack(*NO_FAULTS, *NO_COUNTS))

    def environment(self, base: Optional[Mapping[str, str]] = None) -> Dict[str, str]:
        """Returns the environment of the program: this process's or a given one, with the library."""
        return {
            **(os.environ if base is None else base),
            "LD_PRELOAD": str(self._library),
            "DISK_FAULTS_FOLDER": str(self.folder),
            "DISK_FAULTS_SHADOW": str(self._shadow),
        }

    # ---- faults, each in force at once

    def fill(self, room: int = 0) -> None:
        """Fills the disk: files may grow by this many bytes. After that there is no space for data or names."""
        self._set(0, room)

    def free(self) -> None:
        """Ends the full disk."""
        self._set(0, -1)

    def fail_syncs(self, count: int = -1) -> None:
        """Makes the next syncs fail with EIO: without a count all of them, until `heal`."""
        self._set(1, count)

    def slow_syncs(self, delay_ms: int) -> None:
        """Delays each sync."""
        self._set(2, delay_ms)

    def heal(self) -> None:
        """Ends all faults, and resets the counts to 0."""
        for index, value in enumerate((*NO_FAULTS, *NO_COUNTS)):
            self._set(index, value)

    def counts(self) -> Counts:
        """Returns the counts of syncs and refusals."""
        return Counts(*CONTROL.unpack(self._control.read_bytes())[3:])

    def _set(self, index: int, value: int) -> None:
        with self._control.open("r+b") as control:
            control.seek(8 * index)
            control.write(struct.pack("=q", value))

    # ---- power cuts, after the program has ended

    def cut(self, chance: Optional[random.Random] = None) -> Cut:
        """Undoes unsynced changes: all of them, or a random number of the last ones, with one torn write in each file.

        The rest is on the disk for good.
        """
        cut = Cut()
        self._take_back_names(chance, cut)
        for path in _files(self.folder):
            self._take_back_writes(path, chance, cut)
        self.keep()
        return cut

    def keep(self) -> None:
        """Counts the whole folder as synced, after a change of it without the library."""
        for path in self._shadow.iterdir():
            if path != self._control:
                path.unlink()

    def _take_back_writes(self, path: Path, chance: Optional[random.Random], cut: Cut) -> None:
        """Undoes the writes to a file since its last sync."""
        records = list(_records(self._shadow / f"undo-{path.stat().st_ino}"))
        synced = max((it.at for it in records if it.kind == SYNCED), default=0)
        lost = [it for it in records if it.kind != SYNCED and it.position >= synced]
        kept = chance.randint(0, len(lost)) if chance else 0
        if kept == len(lost):
            return
        with path.open("r+b") as file:
            for record in reversed(lost[kept + 1 :]):
                _take_back(file.fileno(), record)
            _tear(file.fileno(), lost[kept], chance, cut)
        cut.writes += len(lost) - kept

    def _take_back_names(self, chance: Optional[random.Random], cut: Cut) -> None:
        """Undoes the changes of names since the last syncs of their folders, the last one first."""
        records = list(_records(self._shadow / "names"))
        lost = _lost_names(records)
        kept = chance.randint(0, len(lost)) if chance else 0
        renamed = _Renamed(records, lost)
        for record in reversed(lost[kept:]):
            self._take_back_name(record, renamed)
        cut.names += len(lost) - kept

    def _take_back_name(self, record: Record, renamed: "_Renamed") -> None:
        """Undoes one change of a name, if it was made before the program ended."""
        paths = [renamed.now(record.position, path) for path in _paths(record)]
        gone = self._shadow / f"gone-{record.at}"
        last = paths[-1]
        if record.kind == CREATED:
            if os.path.lexists(last):
                last.unlink()
        elif record.kind == MADE:
            shutil.rmtree(last, ignore_errors=True)
        elif record.kind == REMOVED_FOLDER:
            last.mkdir(exist_ok=True)
        elif record.kind == REMOVED:
            if gone.exists() and not os.path.lexists(last):
                os.link(gone, last)
        elif os.path.lexists(last) and last.lstat().st_ino == record.count:
            os.rename(last, paths[0])
            if gone.exists():
                os.link(gone, last)


class _Renamed:
    """The renames that a power cut leaves, for paths from before them."""

    def __init__(self, records: Sequence[Record], lost: Sequence[Record]) -> None:
        undone = {it.position for it in lost}
        self._left = [it for it in records if it.kind == RENAMED and it.position not in undone]

    def now(self, position: int, path: Path) -> Path:
        """Returns the current path of a file that had this path when a record was written."""
        for record in self._left:
            if record.position > position:
                old, new = _paths(record)
                if old in path.parents:
                    path = new / path.relative_to(old)
        return path


def _lost_names(records: Sequence[Record]) -> List[Record]:
    """Returns the changes of names that a power cut may undo: those since the last sync of their folders.

    A rename between two folders is on the disk with the sync of either, and so are the changes that it needs.
    """
    synced: Dict[Path, int] = {}
    for record in records:
        if record.kind == SYNCED:
            synced[_paths(record)[0]] = record.at
    lost: List[Record] = []
    needed: Set[Path] = set()
    for record in reversed([it for it in records if it.kind != SYNCED]):
        paths = _paths(record)
        if any(synced.get(path.parent, 0) > record.position or path in needed for path in paths):
            needed.update(paths)
        else:
            lost.append(record)
    return lost[::-1]


def _paths(record: Record) -> Tuple[Path, ...]:
    return tuple(Path(os.fsdecode(path)) for path in record.data.split(b"\0"))


def _records(path: Path) -> Iterator[Record]:
    """Returns the whole records of a file. A kill may have cut off the last record, before its change was made."""
    held = path.read_bytes() if path.exists() else b""
    position = 0
    while position + HEAD.size <= len(held):
        kind, at, count, size, length = HEAD.unpack_from(held, position)
        end = position + HEAD.size + length
        if end > len(held):
            return
        yield Record(position, kind, at, count, size, held[position + HEAD.size : end])
        position = end


def _files(folder: Path) -> List[Path]:
    return sorted(path for path in folder.rglob("*") if path.is_file() and not path.is_symlink())


def _take_back(file: int, record: Record) -> None:
    """Undoes one change of a file."""
    if record.data:
        os.pwrite(file, record.data, record.at)
    os.ftruncate(file, record.size)


def _tear(file: int, record: Record, chance: Optional[random.Random], cut: Cut) -> None:
    """Undoes one change of a file, or randomly only its end. The new size may be there without it.

    A sector that was there before is written whole or not at all.
    """
    written = os.pread(file, record.count, record.at) if chance and record.kind == WRITTEN else b""
    _take_back(file, record)
    if not chance or not written or chance.random() < 0.3:
        return
    cut.torn += 1
    end = record.at + chance.randrange(len(written))
    if end < record.size:
        end = max(record.at, end - end % SECTOR)
    os.pwrite(file, written[: end - record.at], record.at)
    if chance.random() < 0.3:
        os.ftruncate(file, max(record.size, record.at + len(written)))
