"""An exchange of a replica with a partner, and a complete sync by one."""

from __future__ import annotations

from contextlib import suppress
from ctypes import byref, c_uint64
from typing import TYPE_CHECKING, Any, Callable, Iterable, List, Optional, Tuple

from ._calls import ASK_LEN, HandleStruct
from ._convert import fits, to_bytes
from ._handle import Handle
from ._moment import at_moment
from ._refused import NoVersionError, AntientropyError
from ._values import Bounds, Progress, Report, Synced, Verdict, VerdictKind

if TYPE_CHECKING:
    from ._replica import Replica

#: Sends asks to a partner, and returns the answers.
Reach = Callable[[List[bytes]], Iterable[Optional[bytes]]]


def _leave(
    exchange: HandleStruct, replica: HandleStruct, orphans: List[HandleStruct], free: Callable[..., None]
) -> None:
    """Leave an exchange to its replica, since this thread or another one may be in one of the replica's calls."""
    if replica.held:
        orphans.append(exchange)
    else:
        free(byref(exchange))


class Exchange(Handle):
    """A sync with a partner that the program polls: it returns the asks to send, and takes answers in any order.

    The program carries both, and no call waits for the partner. It lasts as long as the program wants, with puts and
    other calls of the replica in between; a renewal or a migration ends it. It has the lock of its replica, so several
    threads may use it. Close it, or use it as a context manager: if it is only collected, the replica closes it when
    the next one is opened, or by `Replica.drop_sessions`.
    """

    _free = "exchange_free"

    def __init__(self, replica: Replica, partner: int, offer: bytes, bounds: Bounds) -> None:
        self._replica = replica
        super().__init__(replica._library)
        self._lock = replica._lock
        *most, self._plain = bounds
        offer, words = to_bytes(offer), (c_uint64 * len(most))(*(fits(bound, 64) for bound in most))
        args = fits(partner, 64), offer, len(offer), words
        at_moment(replica, replica._to_change(), lambda: self._open_held(*args))

    def _open_held(self, *args: object) -> None:
        self._replica._close_orphans_held()
        self._replica._call_held("exchange_open", self._at, *args)

    def asks(self) -> List[bytes]:
        """Return the asks to send now. An ask may be an outline, which makes the partner send only the differences.

        They are in flight from then on: send each of them, or lose it. The list is empty if each outstanding node is in
        flight or was left, if the bounds allow no more, or if the exchange has stopped or is over.
        """
        with self._to_change():
            return list(iter(self._next_held, b""))

    def _next_held(self) -> bytes:
        """Return the next ask to send, or no bytes without one."""
        room = ASK_LEN if self._plain else None
        return self._bytes_held("share_exchange_next", self._replica._share(), room=room)

    def take(self, answer: bytes) -> Verdict:
        """Take a partner's answer, which isn't trusted, and judge it by the node that it names.

        Answers may arrive in any order, late or twice. Lose each ask whose time is over, even if some answer arrived
        instead.
        """
        answer = to_bytes(answer)
        kind, cause, *counts = self._change_words(4, "exchange_take", self._replica._at, answer, len(answer))
        return Verdict(VerdictKind(kind), self._cause(cause), *counts)

    def lose(self, ask: bytes) -> None:
        """Count an ask in flight as lost, so that `asks` may return it again. Raises BadMessageError."""
        ask = to_bytes(ask)
        self._call("exchange_lose", ask, len(ask))

    def go_on(self) -> None:
        """Resume after no space was left for an answer. Asks whose answers were refused are lost.

        If the journal is full, close the exchange and renew the replica instead.
        """
        self._call("exchange_go_on")

    def progress(self) -> Progress:
        """Return the report and the counts."""
        with self._lock:
            words = self._words_held(len(Progress._fields), "share_exchange_report", self._replica._share())
        return Progress(Report(words[0]), self._cause(words[1]), *words[2:])

    def left(self) -> List[int]:
        """Return the leaves that were left because a key in each of them is crowded: merge its versions."""
        leaves: List[int] = []
        with self._lock, suppress(NoVersionError):
            while True:
                node = self._words_held(2, "share_exchange_left", self._replica._share(), len(leaves))
                leaves.append(node[1])
        return leaves

    def close(self) -> None:
        """Cancel the session if it is in progress, and drop it with the others that have ended.

        Later calls are refused as EmptyError.
        """
        with self._to_change():
            is_open = not self._library.exchange_close(self._at, self._replica._at)
            self._free_call(self._at)
            self._finalizer.detach()
            if is_open:
                self._replica._call_held("drop_sessions")
                self._replica._keeper.renew_if_due(self._replica)

    def _freeing(self) -> Tuple[Any, ...]:
        return _leave, self._struct, self._replica._struct, self._replica._orphans, self._free_call

    def _cause(self, number: int) -> Optional[AntientropyError]:
        return self._library.refusal("exchange_take", number) if number else None


def sync(replica: Replica, partner: int, offer: bytes, reach: Reach, bounds: Bounds) -> Synced:
    """Take the versions that a replica is missing from an offer."""
    with Exchange(replica, partner, offer, bounds) as exchange:
        while asks := exchange.asks():
            for answer in reach(asks):
                if answer is not None:
                    exchange.take(answer)
            for ask in asks:
                exchange.lose(ask)
        progress, left = exchange.progress(), exchange.left()
    if progress.cause is not None:
        raise progress.cause
    if progress.report is Report.FAILED:
        raise replica._library.refusal("exchange_take", replica._library.not_canonical)
    return Synced(
        progress.report, progress.accepted, progress.known, progress.asks, progress.bad, progress.lost, left
    )
