"""The moment of a replica: its rows at one time, which are hashed in portions while other calls use the replica."""

from __future__ import annotations

from threading import get_ident
from typing import TYPE_CHECKING, Any, Callable, ContextManager, TypeVar

from ._handle import Handle
from ._refused import DirtyError

if TYPE_CHECKING:
    from ._replica import Replica

T = TypeVar("T")

#: Maximum number of nodes in a portion.
_NODES = 64


class _Portion(Handle):
    """Some nodes of a moment."""

    _free = "portion_free"


def at_moment(replica: Replica, lock: ContextManager[Any], use: Callable[[], T]) -> T:
    """Hold the current rows as a moment, hash them, and return the result of `use`.

    `use` is called with the replica's lock held, as soon as the moment is whole. The lock is free while nodes are
    hashed, so another thread may hold a later moment meanwhile, which `use` then finds. If another thread drops the
    moment, a new one is held.
    """
    thread = get_ident()
    replica._moment_threads.append(thread)
    try:
        with _Portion(replica._library) as portion:
            return _hash_and_use(replica, lock, use, portion)
    finally:
        replica._moment_threads.remove(thread)


def _hash_and_use(replica: Replica, lock: ContextManager[Any], use: Callable[[], T], portion: _Portion) -> T:
    with lock:
        replica._call_held("hold")
        replica._call_held("take_portion", _NODES, portion._at)
    while True:
        portion._call("hash_portion")
        with lock:
            if not replica._words_held(1, "install_portion", portion._at)[0]:
                try:
                    return _use_held(replica, use)
                except DirtyError:
                    replica._call_held("hold")
            replica._call_held("take_portion", _NODES, portion._at)


def _use_held(replica: Replica, use: Callable[[], T]) -> T:
    """Return the result of `use`, and drop the moment.

    Its rows stay with the result, and no later hold frees them under the lock. A call of a signal handler leaves its
    moment to the call that it interrupted.
    """
    try:
        return use()
    finally:
        if replica._moment_threads.count(get_ident()) == 1:
            replica._call_held("drop_moment")
