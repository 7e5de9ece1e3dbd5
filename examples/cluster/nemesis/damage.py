"""Damage to the disk of a node that isn't running: bits change, files and folders vanish, an old disk is back.

A name chooses among the files. Each function returns a description of its deed for the log.
"""

from __future__ import annotations

import random
import re
import shutil
from pathlib import Path
from typing import List, Optional

#: The form of a client's value, and the number of values at a file's end that are damaged often.
VALUE, VALUE_BYTES = re.compile(rb"c\d+-\d{6}"), 9
LAST_VALUES = 30


def flip(disk: Path, chance: random.Random, name: str) -> Optional[str]:
    """Flips one bit of a file."""
    files = _files(disk, name, 1)
    return _flip(disk, chance, chance.choice(files)) if files else None


def flip_each(disk: Path, chance: random.Random, name: str) -> Optional[str]:
    """Flips one bit of the last file of this name in each folder."""
    return "; ".join(_flip(disk, chance, path) for path in _last_of_each(disk, name)) or None


def flip_values(disk: Path, chance: random.Random, name: str) -> Optional[str]:
    """Flips one bit of each of the last values in the last file of this name in each folder."""
    said = []
    for path in _last_of_each(disk, name):
        held = bytearray(path.read_bytes())
        values = [it.start() for it in VALUE.finditer(held)][-LAST_VALUES:]
        for at in values:
            held[at + chance.randrange(VALUE_BYTES)] ^= 1 << chance.randrange(8)
        path.write_bytes(held)
        said.append(f"flipped a bit of each of {len(values)} values of {path.relative_to(disk)}")
    return "; ".join(said) or None


def remove(disk: Path, chance: random.Random, name: str) -> Optional[str]:
    """Removes a file."""
    files = _files(disk, name)
    return _remove(disk, chance.choice(files)) if files else None


def remove_each(disk: Path, _: random.Random, name: str) -> Optional[str]:
    """Removes the last file of this name in each folder."""
    return "; ".join(_remove(disk, path) for path in _last_of_each(disk, name)) or None


def remove_folder(disk: Path, chance: random.Random, _: str) -> Optional[str]:
    """Removes the folder of a range or of the hints."""
    folders = sorted(path for path in disk.iterdir() if path.is_dir() and not _is_aside(path.relative_to(disk)))
    if not folders:
        return None
    path = chance.choice(folders)
    shutil.rmtree(path)
    return f"removed {path.name}"


def empty(disk: Path) -> str:
    """Removes everything."""
    for path in list(disk.iterdir()):
        if path.is_dir():
            shutil.rmtree(path)
        else:
            path.unlink()
    return "removed all"


def copy(disk: Path, to: Path) -> str:
    """Copies a disk."""
    shutil.rmtree(to, ignore_errors=True)
    shutil.copytree(disk, to)
    return "copied"


def put_back(copied: Path, disk: Path) -> str:
    """Replaces a disk with an old copy."""
    shutil.rmtree(disk)
    shutil.move(str(copied), str(disk))
    return "put an old disk back"


def _flip(disk: Path, chance: random.Random, path: Path) -> str:
    """Flips one bit of a file, often in a client's value."""
    held = bytearray(path.read_bytes())
    values = [it.start() for it in VALUE.finditer(held)][-LAST_VALUES:]
    at = chance.randrange(len(held))
    if values and chance.random() < 0.5:
        at = chance.choice(values) + chance.randrange(VALUE_BYTES)
    bit = chance.randrange(8)
    held[at] ^= 1 << bit
    path.write_bytes(held)
    return f"flipped bit {bit} of byte {at} of {len(held)} of {path.relative_to(disk)}"


def _remove(disk: Path, path: Path) -> str:
    size = path.stat().st_size
    path.unlink()
    return f"removed {path.relative_to(disk)} of {size} bytes"


def _files(disk: Path, name: str, least: int = 0) -> List[Path]:
    """Returns the files of at least `least` bytes that a node reads, without those that were kept aside."""
    files = ((path, path.relative_to(disk)) for path in disk.rglob("*") if path.is_file())
    return sorted(path for path, at in files if name in str(at) and not _is_aside(at) and path.stat().st_size >= least)


def _last_of_each(disk: Path, name: str) -> List[Path]:
    """Returns the most recently written file of each folder, among those with bytes."""
    last = {path.parent: path for path in sorted(_files(disk, name, 1), key=lambda path: path.stat().st_mtime_ns)}
    return sorted(last.values())


def _is_aside(path: Path) -> bool:
    return any(part.startswith("aside-") for part in path.parts)
