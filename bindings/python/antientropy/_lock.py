"""The lock of a handle: the extension's, whose calls take it too, or `RLock` without the extension."""

from __future__ import annotations

from threading import RLock
from typing import TYPE_CHECKING

if TYPE_CHECKING:
    Lock = RLock
else:
    try:
        from ._native import Lock
    except ImportError:
        Lock = RLock
