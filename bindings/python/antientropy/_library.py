"""The shared library: its path, and its calls with their C types."""

from __future__ import annotations

import os
from ctypes import CDLL, Array, byref, c_uint64, c_void_p, cast, create_string_buffer
from ctypes.util import find_library
from pathlib import Path
from threading import RLock
from typing import Any, Callable, Optional, Tuple, Union

from ._calls import CALLS, PREFIX, READS, SHARE
from ._convert import to_first
from ._refused import AntientropyError, class_of

_MAJOR = 2
_SONAME = f"libantientropy.so.{_MAJOR}"
_VARIABLE = "ANTIENTROPY_LIBRARY"
#: The library of a package that was built with one.
_PACKAGED = Path(__file__).with_name("libantientropy.so")
_NAME_ROOM = 64
_NUMBERS = range(1, 256)


class Library:
    """A loaded library. A call is bound at its first use, so unused calls may be missing in a library.

    A call that only reads a handle has its name without `share_`, and gets a copy of the handle.
    """

    def __init__(self, path: str) -> None:
        self._dll = CDLL(path)
        major = self.parts()[0]
        if major != _MAJOR:
            raise OSError(f"{path} has the major version {major}, but this package needs {_MAJOR}")
        self.names = {number: name for number in _NUMBERS if (name := self._name(number))}
        self.small = self._number("Small")
        self.no_version = self._number("NoVersion")
        self.not_canonical = self._number("NotCanonical")

    def __getattr__(self, call: str) -> Callable[..., Any]:
        name = SHARE + call if call in READS else call
        if name not in CALLS:
            raise AttributeError(call)
        function = getattr(self._dll, PREFIX + name)
        function.restype, function.argtypes = CALLS[name]
        typed: Callable[..., Any] = function
        setattr(self, call, typed)
        return typed

    def addresses(self, calls: Tuple[str, ...]) -> Array[c_void_p]:
        """Return the addresses of calls, for the extension."""
        return (c_void_p * len(calls))(*(cast(self._dll[PREFIX + call], c_void_p).value for call in calls))

    def parts(self) -> Tuple[int, int, int]:
        """Return the major, the minor and the patch number of the version."""
        rest, patch = divmod(self.version(), 100)
        major, minor = divmod(rest, 100)
        return major, minor, patch

    def refusal(self, call: str, number: int) -> AntientropyError:
        """Return the exception of a call that returned a number other than 0."""
        name = self.names.get(number, "")
        return class_of(name)(call, number, name)

    def check(self, call: str, *args: Any) -> None:
        """Make a call that needs no handle, and raise if it is refused."""
        number = getattr(self, call)(*args)
        if number:
            raise self.refusal(call, number)

    def _name(self, number: int) -> str:
        room, need = create_string_buffer(_NAME_ROOM), c_uint64()
        self.name(number, room, _NAME_ROOM, byref(need))
        return to_first(room, need.value).decode("ascii")

    def _number(self, wanted: str) -> int:
        return next(number for number, name in self.names.items() if name == wanted)


_current: Optional[Library] = None
#: A signal handler may load the library while it is being loaded.
_lock = RLock()


def load_library(path: Union[str, os.PathLike[str]]) -> None:
    """Load the library from a path. All objects made later use it."""
    global _current
    library = Library(os.fspath(path))
    with _lock:
        _current = library


def current() -> Library:
    """Return the library in use. The first call loads it, if `load_library` didn't."""
    global _current
    if _current is None:
        with _lock:
            if _current is None:
                _current = _load_default()
    return _current


def version() -> Tuple[int, int, int]:
    """Return the major, the minor and the patch number of the library's version."""
    return current().parts()


def _load_default() -> Library:
    packaged = str(_PACKAGED) if _PACKAGED.exists() else None
    path = os.environ.get(_VARIABLE) or packaged or find_library("antientropy") or _SONAME
    try:
        return Library(path)
    except OSError as error:
        raise OSError(f"{error}: call antientropy.load_library(path), or set {_VARIABLE}") from error
