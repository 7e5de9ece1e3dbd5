"""The exceptions of refused calls: a base, with a subclass for each cause."""

from __future__ import annotations

from typing import Dict, Optional, Tuple, Type

from ._values import Receipt


class AntientropyError(Exception):
    """A call that the library refused. Except as the header says, it changed nothing.

    Each cause has a subclass with the library's name: StaleContextError for StaleContext. docs/FORMATS.md has the
    remedy for each.
    """

    #: Name of the call without its prefix: "put" for antientropy_put.
    call: str
    #: Number that the call returned.
    number: int
    #: Library's name of the number: "StaleContext" for 6.
    name: str
    #: Receipts of the puts before the refused one, if `Replica.put_many` raised it.
    done: Tuple[Receipt, ...] = ()
    #: Offset of the broken field in bytes, if `Replica.load_rows` was refused as RowBrokenError.
    offset: Optional[int] = None

    def __init_subclass__(cls) -> None:
        cls.__module__ = __package__  # as programs name it

    def __init__(self, call: str, number: int, name: str) -> None:
        super().__init__(call, number, name)
        self.call = call
        self.number = number
        self.name = name

    def __str__(self) -> str:
        return f"{self.call}: {self.name or 'unknown'} ({self.number})"


class BadClockError(AntientropyError):
    """A node is 0, over 65,535 or repeated, or a counter is 0."""


class ClockFullError(AntientropyError):
    """The clock would have more than 32 pairs."""


class CounterFullError(AntientropyError):
    """The counter to raise is 2^64 - 1."""


class BadKeyError(AntientropyError):
    """The key has no byte, or over 255."""


class BadValueError(AntientropyError):
    """Too long; a tombstone with a value, or in format 1; or an unknown kind."""


class StaleContextError(AntientropyError):
    """A held version has seen all of the new clock, or more of the node's puts than the context."""


class CrowdedError(AntientropyError):
    """The key would have over 64 versions."""


class JournalFullError(AntientropyError):
    """The entries don't fit into the journal, or a renewal has no numbers left."""


class OtherRangeError(AntientropyError):
    """A key or an offer belongs to another range, or the rows to two leaves."""


class DirtyError(AntientropyError):
    """Some node has no digest, or the replica has no moment."""


class StaleError(AntientropyError):
    """The replica isn't the renewal's: it was renewed or migrated meanwhile."""


class UnknownSessionError(AntientropyError):
    """No session has this number."""


class NotAskedError(AntientropyError):
    """The node isn't outstanding."""


class WrongDigestError(AntientropyError):
    """The text's digest isn't the expected one."""


class NotCanonicalError(AntientropyError):
    """The digest matches, but the text isn't a node's: the session has failed."""


class OtherFormatError(AntientropyError):
    """The offer or the rows have another format."""


class SessionsFullError(AntientropyError):
    """64 sessions are open, or 1,024 are kept: drop the ended ones."""


class NoSlotError(AntientropyError):
    """No slot is free, or none is lent."""


class ClockBackError(AntientropyError):
    """The time is before the latest one accepted."""


class UnknownHintError(AntientropyError):
    """No pending hint has this number, or no hint can have it."""


class HintsFullError(AntientropyError):
    """10,000 hints are pending, or the last number was used."""


class GoneError(AntientropyError):
    """The ask is for another offer."""


class BadRingError(AntientropyError):
    """A format, or the numbers of a range or of slots, are outside the limits."""


class RowBrokenError(AntientropyError):
    """The bytes aren't texts of rows."""


class BadMessageError(AntientropyError):
    """Not a message, not the expected kind, or a node that isn't in the tree."""


class NoMemoryError(AntientropyError):
    """Malloc or realloc failed."""


class SmallError(AntientropyError):
    """The buffer is too small."""


class EmptyError(AntientropyError):
    """The handle is empty: the object was closed."""


class HeldError(AntientropyError):
    """The handle isn't empty."""


class NoVersionError(AntientropyError):
    """No such version, entry, hint or leaf, or none follows."""


class BadPositionError(AntientropyError):
    """Entries can't be read from this number on: read the whole journal."""


_CLASSES: Dict[str, Type[AntientropyError]] = {each.__name__: each for each in AntientropyError.__subclasses__()}


def class_of(name: str) -> Type[AntientropyError]:
    """Return the subclass for the name of a cause, or `AntientropyError`: a newer library may have more causes."""
    return _CLASSES.get(f"{name}Error", AntientropyError)
