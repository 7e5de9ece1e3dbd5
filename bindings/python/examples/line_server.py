#!/usr/bin/env python3
"""A program with a durable store, which answers requests by lines.

    line_server.py create FILE NODE [FORMAT BITS RANGE]          makes the file of a node, whose number was never used
    line_server.py serve FILE [LIMIT]                            answers the lines of standard input, until that ends
    line_server.py renumber OLD FILE NODE [FORMAT BITS RANGE]    makes a file of what is readable of an old one

`serve` never makes a file: a node that lost its file would restart its counters, and needs another number.
"""

from __future__ import annotations

import json
import sqlite3
import sys
from contextlib import closing
from io import TextIOWrapper
from pathlib import Path
from typing import Any, Callable, Dict, Iterator, List, NamedTuple, Optional, TextIO, Tuple

import antientropy
from antientropy import Receipt, Snapshot, Version

from journal_file import Doubt
from sqlite_store import SqliteStore

Pairs = List[Tuple[int, int]]


class Call(NamedTuple):
    """A call that a line can name, with the functions that read its arguments."""

    method: Callable[..., Any]
    readers: Tuple[Callable[[Any], Any], ...]


class LineServer:
    """Answers requests by a store. A request is a line with a JSON list: the name of a call, and its arguments.

    Each answer is a line of JSON, too. Bytes are in hexadecimal, clocks are lists of pairs. The answer to a refused
    call has its cause, such as {"refused": "StaleContext"}, or "BadLine" if the line isn't a request. During a sync the
    server writes a list of asks, and reads the list of the partner's answers: null for a missing one. Entries from null
    on are the whole journal.
    """

    def __init__(self, store: SqliteStore, lines: Iterator[str], output: TextIO) -> None:
        self._store, self._lines, self._output = store, lines, output
        self._offered: Optional[Snapshot] = None
        self._offers = 0
        self._calls: Dict[str, Call] = {
            "put": Call(self._put, (_read_bytes, _read_value, _read_clock)),
            "get": Call(self._get, (_read_bytes,)),
            "accept": Call(store.accept, (_read_bytes, _read_clock, _read_value)),
            "offer": Call(self._offer, ()),
            "serve": Call(self._serve, (_read_asks,)),
            "sync": Call(self._sync, (_read_number, _read_bytes)),
            "entries": Call(self._entries, (_read_start,)),
            "renew": Call(store.renew, ()),
        }

    def run(self) -> None:
        """Answer until the lines end. The first output line has the number of the node."""
        self._say(self._store.node)
        for line in self._lines:
            self._say(self._answer(line))

    def _answer(self, line: str) -> Any:
        try:
            call, args = self._read_request(line)
        except (ValueError, RecursionError):
            return {"refused": "BadLine"}
        try:
            return call(*args)
        except antientropy.AntientropyError as refused:
            return {"refused": refused.name}
        except Doubt as doubt:
            return {"refused": "Doubt", "why": str(doubt)}

    def _read_request(self, line: str) -> Tuple[Callable[..., Any], List[Any]]:
        """Return a call with its arguments. Raises ValueError if the line isn't a call."""
        name, *args = _read_list(json.loads(line))
        call = self._calls.get(_read_text(name))
        if call is None or len(args) != len(call.readers):
            raise ValueError("there is no such call")
        return call.method, [read(arg) for read, arg in zip(call.readers, args)]

    def _say(self, said: Any) -> None:
        print(json.dumps(said), file=self._output, flush=True)

    def _put(self, key: bytes, value: Optional[bytes], context: Pairs) -> Receipt:
        return self._store.put(key, value, context)

    def _get(self, key: bytes) -> List[Any]:
        return [_to_json(version) for version in self._store.get(key)]

    def _entries(self, start: Optional[int]) -> List[Any]:
        return [[entry.number, entry.key.hex(), *_to_json(entry.version)] for entry in self._store.entries(start)]

    def _offer(self) -> str:
        """Offer a new snapshot in place of the last."""
        if self._offered is not None:
            self._offered.close()
        self._offered = self._store.snapshot()
        self._offers += 1
        return self._offered.offer(self._offers).hex()

    def _serve(self, asks: List[bytes]) -> Any:
        """Answer asks for the last offer."""
        if self._offered is None:
            return {"refused": "NoOffer"}
        return [self._offered.serve(self._offers, ask).hex() for ask in asks]

    def _sync(self, partner: int, offer: bytes) -> int:
        return self._store.sync(partner, offer, self._reach).accepted

    def _reach(self, asks: List[bytes]) -> List[Optional[bytes]]:
        """Send asks to the partner. A line that isn't a list of answers counts as an empty one."""
        self._say([ask.hex() for ask in asks])
        try:
            return [_read_value(answer) for answer in _read_list(json.loads(next(self._lines, "[]")))]
        except (ValueError, RecursionError):
            return []


def _to_json(version: Version) -> List[Any]:
    return [list(version.clock.items()), None if version.value is None else version.value.hex()]


# ---- the parts of a line: each function raises ValueError for another value


def _read_list(said: Any) -> List[Any]:
    if not isinstance(said, list):
        raise ValueError("this isn't a list")
    return said


def _read_text(said: Any) -> str:
    if not isinstance(said, str):
        raise ValueError("this isn't a text")
    return said


def _read_bytes(said: Any) -> bytes:
    return bytes.fromhex(_read_text(said))


def _read_value(said: Any) -> Optional[bytes]:
    return None if said is None else _read_bytes(said)


def _read_number(said: Any) -> int:
    if type(said) is not int or said < 0 or said >> 64:
        raise ValueError("this isn't a number of 64 bits")
    return said


def _read_start(said: Any) -> Optional[int]:
    return None if said is None else _read_number(said)


def _read_clock(said: Any) -> Pairs:
    return [(_read_number(node), _read_number(counter)) for node, counter in map(_read_list, _read_list(said))]


def _read_asks(said: Any) -> List[bytes]:
    return [_read_bytes(ask) for ask in _read_list(said)]


def start(call: str, path: str, *words: str) -> Optional[SqliteStore]:
    """Run a command. Return the store, if it is to be served."""
    if call == "create":
        SqliteStore.create(Path(path), *map(int, words))
    elif call == "renumber":
        new, *numbers = words
        versions = SqliteStore.renumber(Path(path), Path(new), *map(int, numbers))
        print(f"{new} has {versions} versions of {path}")
    elif call == "serve":
        return SqliteStore(Path(path), *map(int, words))
    else:
        raise ValueError(f"{call} isn't a command")
    return None


def main() -> None:
    """Make, renumber or serve a store, or print the reason for a failure in one line."""
    if isinstance(sys.stdin, TextIOWrapper):
        sys.stdin.reconfigure(errors="replace")
    try:
        store = start(*sys.argv[1:])
    except Doubt as doubt:
        sys.exit(f"{sys.argv[2]} is in doubt, and its number isn't used again: {doubt}")
    except (OSError, ValueError, sqlite3.Error, antientropy.AntientropyError) as error:
        sys.exit(f"{sys.argv[2]}: {error}")
    if store is not None:
        with closing(store):
            LineServer(store, iter(sys.stdin.readline, ""), sys.stdout).run()


if __name__ == "__main__":
    main()
