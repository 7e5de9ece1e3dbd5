"""The values that calls take and return."""

from __future__ import annotations

from enum import IntEnum
from typing import TYPE_CHECKING, Dict, Iterable, List, Mapping, NamedTuple, Optional, Tuple, Union

if TYPE_CHECKING:
    from ._refused import AntientropyError

#: A clock that a call returns: the counter of each node, by rising node.
Clock = Dict[int, int]

#: A clock that a call takes: the counter of each node, or pairs of a node and its counter, in any order.
ClockLike = Union[Mapping[int, int], Iterable[Tuple[int, int]]]


class Kind(IntEnum):
    """Kinds of versions."""

    LIVE = 0
    TOMBSTONE = 1


class Source(IntEnum):
    """Sources of an entry's version."""

    PUT = 0
    COPY = 1
    HINT = 2
    PARTNER = 3


class VerdictKind(IntEnum):
    """Kinds of verdicts of an exchange on an answer.

    TAKEN: the session took it. LEFT: the leaf was left, since a key in its text is crowded. BAD: it counts as bad.
    LATE: it is late or of another offer, or the exchange is over. REFUSED: no space was left for it. FAILED: the text
    doesn't encode a node, so the session has failed.
    """

    TAKEN = 0
    LEFT = 1
    BAD = 2
    LATE = 3
    REFUSED = 4
    FAILED = 5


class Report(IntEnum):
    """State of an exchange.

    FINISHED: the replica has seen each version of the offer. WAITING: an ask is in flight, or is still to be sent.
    LEFT: only leaves that were left are outstanding. STOPPED: no space was left for an answer: call `go_on` or
    `close`. TOO_MANY_BAD, TOO_MANY_LOST: more answers were bad, or asks lost, than the bounds allow. FAILED: the
    session has failed. CLOSED: no call returns it. GONE: a renewal or a migration has ended the session.
    """

    FINISHED = 0
    WAITING = 1
    LEFT = 2
    STOPPED = 3
    TOO_MANY_BAD = 4
    TOO_MANY_LOST = 5
    FAILED = 6
    CLOSED = 7
    GONE = 8


class Order(IntEnum):
    """Orders of two clocks."""

    BEFORE = 0
    AFTER = 1
    EQUAL = 2
    APART = 3


class Version(NamedTuple):
    """A version of a key. A tombstone has the value None."""

    clock: Clock
    value: Optional[bytes]

    @property
    def kind(self) -> Kind:
        """LIVE or TOMBSTONE."""
        return Kind.TOMBSTONE if self.value is None else Kind.LIVE


class Entry(NamedTuple):
    """An entry of a journal: an accepted version, with its key and its source."""

    number: int
    key: bytes
    clock: Clock
    value: Optional[bytes]
    source: Source

    @property
    def version(self) -> Version:
        """Version of the entry."""
        return Version(self.clock, self.value)


class Packed(NamedTuple):
    """The concatenated texts of journal entries (docs/FORMATS.md, "Row texts").

    `first` is the number of the first entry, `next` the number after the last one, and `format` the texts' format.
    """

    data: bytes
    first: int
    next: int
    format: int


class Hint(NamedTuple):
    """A version that is kept for its owner, a node that is down."""

    number: int
    owner: int
    key: bytes
    clock: Clock
    value: Optional[bytes]

    @property
    def version(self) -> Version:
        """Version of the hint."""
        return Version(self.clock, self.value)


#: A put of `Replica.put_many`: a key, a value or None for a tombstone, and a context if it isn't empty.
Put = Union[Tuple[bytes, Optional[bytes]], Tuple[bytes, Optional[bytes], ClockLike]]


class Receipt(NamedTuple):
    """The result of a put: the entry's number, and the node's counter in the new version's clock.

    The new clock is `{**context, node: receipt.counter}`. After a renewal the number may name another version.
    """

    number: int
    counter: int


class Spot(NamedTuple):
    """The range and the leaf of a key."""

    range: int
    leaf: int


class OfferParts(NamedTuple):
    """The parts of an offer, as received."""

    number: int
    format: int
    range: int
    root: bytes


class Bounds(NamedTuple):
    """The bounds of an exchange.

    `asks` and `bytes` are the maximum numbers of asks in flight and of estimated bytes of their answers; one ask is
    always allowed. One more bad answer than `bad`, or lost ask than `lost`, ends the exchange. If `plain`, no ask is an
    outline: that saves processor time on both sides, and sends more over the link.
    """

    asks: int = 256
    bytes: int = 1 << 20
    bad: int = 8
    lost: int = 256
    plain: bool = False


class Verdict(NamedTuple):
    """The verdict of an exchange on an answer, with the numbers of new and of known versions.

    The cause is BadMessageError, NotAskedError or WrongDigestError of a bad answer, and JournalFullError or
    NoMemoryError of a refused one.
    """

    verdict: VerdictKind
    cause: Optional[AntientropyError]
    accepted: int
    known: int


class Progress(NamedTuple):
    """The report and the counts of an exchange. The cause is JournalFullError or NoMemoryError if it is STOPPED.

    `asks` is the number of asks sent, and `bytes_in_flight` the estimated bytes of the answers to those in flight.
    `accepted`, `known` and `leaves` count new and known versions and leaves in the answers taken.
    """

    report: Report
    cause: Optional[AntientropyError]
    asks: int
    in_flight: int
    bytes_in_flight: int
    bad: int
    lost: int
    accepted: int
    known: int
    leaves: int


class Loaded(NamedTuple):
    """The result of loading rows: numbers of accepted and of known versions."""

    accepted: int
    known: int


class About(NamedTuple):
    """The range of a replica, with its format and the bits of the ring, and the number of its next entry."""

    format: int
    bits: int
    range: int
    entries: int


class Counts(NamedTuple):
    """Counts of a replica.

    `entries` is the number of the next entry, and `first` the number of the journal's first one: 0 before the first
    renewal. The journal is full if `entries - first` is `limit`. `sessions` counts the sessions that are kept: at 1,024
    no other can be opened until ended ones are dropped. `front` is `entries` at the last moment that was whole, or
    `first` without one since the renewal.
    """

    entries: int
    limit: int
    dirty: int
    sessions: int
    open_sessions: int
    first: int
    front: int


class ByteCounts(NamedTuple):
    """The size of a replica: lengths of contents in bytes. Its memory differs.

    `rows` are as `Snapshot.rows` returns them. `journal` is the keys, values and clocks of the entries from
    `count().first` on, 10 bytes for each pair of a clock. `sessions` counts what sessions keep in addition: the texts
    that they took, and the leaves of their rows that have changed since or have no digest now.
    """

    rows: int
    journal: int
    sessions: int


class HintCounts(NamedTuple):
    """Counts of hints."""

    pending: int
    delivered: int


class SlotCounts(NamedTuple):
    """Counts of slots."""

    target: int
    lent: int
    free: int


class Synced(NamedTuple):
    """The result of a sync: the report and the counts of its exchange.

    `left` lists the leaves that were left because a key in each of them is crowded.
    """

    report: Report
    accepted: int
    known: int
    asks: int
    bad: int
    lost: int
    left: List[int]

    @property
    def finished(self) -> bool:
        """True if the replica has seen each version of the offer."""
        return self.report is Report.FINISHED
