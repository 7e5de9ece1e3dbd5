"""The logs of a run, as its judge reads them.

A version is known by its mark: its value, or `tombstone CLOCK`. The values of a run are unique.
"""

from __future__ import annotations

import base64
import functools
import json
from dataclasses import dataclass, field
from pathlib import Path
from typing import Any, Dict, Iterator, List, Mapping, NamedTuple, Optional, Tuple

TOMBSTONE = "tombstone "

#: Statuses of definite refusals.
REFUSED = (400, 409)

#: Statuses of a get with a result.
FOUND = (200, 300, 404)

#: The mode of a run: all faults and all repair, only rounds, or only hints.
ALL, BY_ROUNDS, BY_HINTS = "all", "repair", "handoff"


class BadLog(Exception):
    """A log that a run doesn't write in this form."""


@dataclass(frozen=True)
class Line:
    """A line of a log, which a breach shows."""

    file: str
    number: int
    text: str

    def __str__(self) -> str:
        return f"{self.file}:{self.number}: {self.text if len(self.text) <= 400 else self.text[:400] + '..'}"


@dataclass(frozen=True)
class Version:
    """A version of a key in a response or a dump."""

    mark: str
    clock: str


@dataclass(frozen=True)
class Write:
    """A put or a delete, and its response."""

    line: Line
    key: str
    #: None for a delete with an unknown clock
    mark: Optional[str]
    #: The marks that its client had read
    read: Tuple[str, ...]
    begin: float
    end: float
    status: int
    clock: str
    on: Tuple[int, ...]
    #: True if it was refused without `perhaps`, so that it happened nowhere
    is_refused: bool

    @property
    def acknowledged(self) -> bool:
        return self.status == 200

    @property
    def is_delete(self) -> bool:
        return self.mark is None or self.mark.startswith(TOMBSTONE)

    @property
    def may_have_happened(self) -> bool:
        return not self.is_refused


@dataclass(frozen=True)
class Get:
    """A get with a result."""

    line: Line
    key: str
    #: The place that coordinated it
    by: int
    versions: Tuple[Version, ...]
    begin: float
    end: float


class Request(NamedTuple):
    """A request of a client, with or without a response."""

    line: Line
    is_get: bool
    key: str
    place: int
    begin: float
    end: float
    status: int
    #: The name of a refusal
    refused: str


@dataclass(frozen=True)
class Event:
    """A deed of the nemesis, or a line that a node printed."""

    line: Line
    at: float
    op: str
    place: int
    life: int
    #: The exit status of a process: a signal is negative
    status: int
    #: The expectation, and its outcome
    what: str
    met: bool
    #: All members of its line
    members: Mapping[str, Any]


@dataclass(frozen=True)
class Replica:
    """A range of a dump."""

    line: Line
    place: int
    root: Optional[str]
    rows: Dict[str, Tuple[Version, ...]]


@dataclass(frozen=True)
class Dump:
    """The rows and hints of a node in the end."""

    line: Line
    place: int
    life: int
    pending: int
    ranges: Dict[int, Replica]


@dataclass(frozen=True)
class Held:
    """The rows of a node that started cut off from all others, after it was killed or its power was cut."""

    dump: Dump
    #: The last time at which it was running, and the time of its dump
    since: float
    at: float


@dataclass
class History:
    """A run."""

    requests: List[Request] = field(default_factory=list)
    writes: List[Write] = field(default_factory=list)
    gets: List[Get] = field(default_factory=list)
    events: List[Event] = field(default_factory=list)
    dumps: Dict[int, Dump] = field(default_factory=dict)
    held: List[Held] = field(default_factory=list)
    mode: str = ALL

    def replicas(self) -> Dict[int, List[Replica]]:
        """Returns the replicas of each range, by their places."""
        ranges: Dict[int, List[Replica]] = {}
        for place in sorted(self.dumps):
            for number, replica in self.dumps[place].ranges.items():
                ranges.setdefault(number, []).append(replica)
        return ranges


def read(folder: Path) -> History:
    """Reads the logs of a folder."""
    history = History()
    for path in sorted(folder.glob("client-*.log")):
        for line, data in _lines(path):
            history.requests.append(_request(line, data))
            if data["op"] != "get":
                history.writes.append(_write(line, data))
            elif data["status"] in FOUND:
                history.gets.append(_get(line, data))
    for line, data in _lines(folder / "nemesis.log"):
        history.events.append(_event(line, data))
        if data["op"] == "run":
            history.mode = data["mode"]
        elif data["op"] == "held":
            dumps = [_dump(*it) for it in _lines(folder / data["file"])]
            history.held += [Held(dump, data["since"], data["t"]) for dump in dumps]
    for path in sorted(folder.glob("dump-*.log")):
        for line, data in _lines(path):
            history.dumps[data["place"]] = _dump(line, data)
    return history


@functools.lru_cache(maxsize=None)
def clock_pairs(clock: str) -> Tuple[Tuple[int, int], ...]:
    """Returns the lives and counters of a clock as text, `67:3,34:1`."""
    pairs = (pair.split(":") for pair in clock.split(",") if pair)
    return tuple(sorted((int(life), int(counter)) for life, counter in pairs))


def _lines(path: Path) -> Iterator[Tuple[Line, dict]]:
    if not path.exists():
        raise BadLog(f"there is no {path.name}")
    for number, text in enumerate(path.read_text().splitlines(), 1):
        line = Line(path.name, number, text)
        try:
            yield line, json.loads(text)
        except (ValueError, KeyError, TypeError) as fault:
            raise BadLog(f"{line}: {fault!r}") from fault


def _request(line: Line, data: dict) -> Request:
    return Request(
        line,
        data["op"] == "get",
        data["key"],
        data.get("place", 0),
        data["t"],
        data["end"],
        data["status"],
        data.get("refused", ""),
    )


def _write(line: Line, data: dict) -> Write:
    clock = _clock(data.get("clock", ""))
    mark = data.get("value")
    if data["op"] == "delete":
        mark = TOMBSTONE + clock if clock else None
    return Write(
        line,
        data["key"],
        mark,
        tuple(_mark(it) for it in data["read"]),
        data["t"],
        data["end"],
        data["status"],
        clock,
        tuple(data.get("on", ())),
        not data.get("perhaps") and ("refused" in data or data["status"] in REFUSED),
    )


def _get(line: Line, data: dict) -> Get:
    versions = (Version(_mark(mark), _clock(clock)) for mark, clock in zip(data["values"], data["clocks"]))
    return Get(line, data["key"], int(data.get("by") or 0), tuple(versions), data["t"], data["end"])


def _event(line: Line, data: dict) -> Event:
    place, life, status = data.get("place", 0), data.get("life", 0), data.get("status", 0)
    return Event(line, data["t"], data["op"], place, life, status, data.get("what", ""), data.get("met", True), data)


def _dump(line: Line, data: dict) -> Dump:
    ranges = {}
    for it in data["ranges"]:
        rows = {_text(row["key"]): tuple(_version(version) for version in row["versions"]) for row in it["rows"]}
        ranges[it["range"]] = Replica(line, data["place"], it["root"], rows)
    return Dump(line, data["place"], data["life"], data["pending"], ranges)


def _version(data: dict) -> Version:
    clock = _clock(data["clock"])
    return Version(TOMBSTONE + clock if data["kind"] == "tombstone" else _text(data["value"]), clock)


def _text(encoded: str) -> str:
    return base64.b64decode(encoded).decode(errors="backslashreplace")


def _clock(text: str) -> str:
    """Returns a clock as text with its lives in order."""
    return ",".join(f"{life}:{counter}" for life, counter in clock_pairs(text))


def _mark(mark: str) -> str:
    return TOMBSTONE + _clock(mark[len(TOMBSTONE) :]) if mark.startswith(TOMBSTONE) else mark
