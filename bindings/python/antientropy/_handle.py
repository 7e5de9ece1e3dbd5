"""The base of all classes that own memory of the library."""

from __future__ import annotations

from ctypes import byref, c_uint8, c_uint64, create_string_buffer
from typing import Any, ContextManager, List, NoReturn, Optional, Tuple, TypeVar
from weakref import finalize

from ._calls import CLOCK_MAX, READS, HandleStruct
from ._convert import to_clock, to_first, to_value
from ._library import Library
from ._lock import Lock
from ._values import Clock

_BYTES_ROOM = 1 << 16

Self = TypeVar("Self", bound="Handle")


def refuse_change(name: str) -> NoReturn:
    """Raise RuntimeError: a signal handler interrupted a call of an object of this class, and tried to change it."""
    raise RuntimeError(f"a signal handler interrupted a call of this {name}: it may only read")


class Results:
    """Memory for the results of a call."""

    __slots__ = ("words", "reading", "need", "room")

    def __init__(self) -> None:
        self.words = (c_uint64 * (2 * CLOCK_MAX))()
        self.reading = (c_uint64 * 4)()
        self.need = c_uint64()
        self.room = create_string_buffer(_BYTES_ROOM)


class Handle:
    """A handle of the library, with a lock: one thread at a time is in a call of it.

    A signal handler may run while its own thread has the lock, before or after a call of the library, but not within
    one. It may then read, since each call has separate results, but not change anything: the method that it interrupted
    may make several calls, which must find the same state.

    The names of methods that need the lock held by their caller end with `_held`.
    """

    #: Name of the call that frees the handle.
    _free = ""

    def __init__(self, library: Library) -> None:
        self._library = library
        self._free_call = getattr(library, self._free)
        self._lock = Lock()
        self._struct = HandleStruct()
        self._at = byref(self._struct)
        self._spare: List[Results] = []
        self._finalizer = finalize(self, *self._freeing())
        self._finalizer.atexit = False  # the process ends, and another thread may be in a call

    def _freeing(self) -> Tuple[Any, ...]:
        """Return the call that frees a closed or collected object's memory, and its arguments, without the object."""
        return self._free_call, self._at

    def close(self) -> None:
        """Free the memory. Later calls are refused as EmptyError."""
        with self._to_change():
            self._finalizer()

    def __enter__(self: Self) -> Self:
        return self

    def __exit__(self, *error: object) -> None:
        self.close()

    def __reduce_ex__(self, protocol: object) -> NoReturn:
        """Refuse copies and pickles: two objects would own, and close, one handle."""
        raise TypeError(f"a {type(self).__name__} can't be copied or pickled: it owns memory of the library")

    def _to_change(self) -> ContextManager[Any]:
        """Return the lock, for a call that changes something. Raises RuntimeError if this thread has it."""
        if self._lock._is_owned():  # type: ignore[attr-defined]
            refuse_change(type(self).__name__)
        return self._lock

    def _share(self) -> Any:
        """Return a copy of the handle, for one call that reads it."""
        return byref(HandleStruct.from_buffer_copy(self._struct))

    def _take_results(self) -> Results:
        """Return memory that no other call uses. The caller appends it to `_spare` after a call that isn't refused."""
        try:
            return self._spare.pop()
        except IndexError:
            return Results()

    def _call(self, call: str, *args: Any) -> None:
        with self._to_change():
            self._call_held(call, *args)

    def _call_held(self, call: str, *args: Any) -> None:
        handle = self._share() if call in READS else self._at
        number = getattr(self._library, call)(handle, *args)
        if number:
            raise self._library.refusal(call, number)

    def _get_words(self, length: int, call: str, *args: Any) -> List[int]:
        with self._lock:
            return self._words_held(length, call, *args)

    def _change_words(self, length: int, call: str, *args: Any) -> List[int]:
        with self._to_change():
            return self._words_held(length, call, *args)

    def _words_held(self, length: int, call: str, *args: Any) -> List[int]:
        """Return the words of a struct or a number that a call writes."""
        results = self._take_results()
        self._call_held(call, *args, results.words)
        words = results.words[:length]
        self._spare.append(results)
        return words

    def _get_bytes(self, call: str, *args: Any) -> bytes:
        with self._lock:
            return self._bytes_held(call, *args)

    def _bytes_held(self, call: str, *args: Any, room: Optional[int] = None) -> bytes:
        """Return the bytes that a call writes: first to a buffer of `room` bytes, or of any size if it is None."""
        function, results = getattr(self._library, call), self._take_results()
        need = byref(results.need)
        handle = self._share() if call in READS else self._at
        number = function(handle, *args, results.room, room or len(results.room), need)
        if number == self._library.small:
            results.room = create_string_buffer(results.need.value)
            number = function(handle, *args, results.room, len(results.room), need)
        if number:
            raise self._library.refusal(call, number)
        data = to_first(results.room, results.need.value)
        self._spare.append(results)
        return data

    def _value_held(self, call: str, *args: Any) -> Optional[bytes]:
        kind = c_uint8()
        data = self._bytes_held(call, *args, byref(kind))
        return to_value(kind.value, data)

    def _clock_held(self, call: str, *args: Any) -> Clock:
        results = self._take_results()
        self._call_held(call, *args, results.words, CLOCK_MAX, byref(results.need))
        clock = to_clock(results.words[: 2 * results.need.value])
        self._spare.append(results)
        return clock
