"""The HTTP fronts of the nodes, as one thread sees them."""

from __future__ import annotations

import base64
import http.client
import json
from dataclasses import dataclass
from typing import Any, Dict, List, Mapping, Optional, Sequence, Tuple
from urllib.parse import quote

from .places import PLACES

HOST = "127.0.0.1"
TOMBSTONE = "tombstone "

#: Seconds after which a client gives up. A call between nodes has half a second, and a put may be forwarded.
PATIENCE_S = 2.5


@dataclass(frozen=True)
class Answer:
    """A node's response. The status is 0 if there was none."""

    status: int
    headers: Mapping[str, str]
    body: bytes

    def json(self) -> Any:
        """Returns the body as JSON, an empty object if it isn't."""
        try:
            return json.loads(self.body)
        except ValueError:
            return {}


NO_ANSWER = Answer(0, {}, b"")


@dataclass(frozen=True)
class Found:
    """The result of a get: the marks of the versions with their clocks, and the context that covers them."""

    answer: Answer
    marks: Sequence[str]
    clocks: Sequence[str]
    context: Optional[str]


class Front:
    """Requests to the nodes, over one connection per port. For a single thread."""

    def __init__(self, base: int, patience_s: float = PATIENCE_S) -> None:
        self._base, self._patience_s = base, patience_s
        self._open: Dict[int, http.client.HTTPConnection] = {}

    def ask(
        self, place: int, method: str, path: str, body: Optional[bytes] = None, headers: Mapping[str, str] = {}
    ) -> Answer:
        """Sends a request of a client, and returns the response."""
        return self._ask(client_port(self._base, place), method, path, body, headers)

    def _ask(
        self, port: int, method: str, path: str, body: Optional[bytes] = None, headers: Mapping[str, str] = {}
    ) -> Answer:
        link = self._open.get(port)
        if link is None:
            link = http.client.HTTPConnection(HOST, port, timeout=self._patience_s)
            self._open[port] = link
        try:
            link.request(method, path, body, dict(headers))
            answer = link.getresponse()
            named = {name.lower(): value for name, value in answer.getheaders()}
            return Answer(answer.status, named, answer.read())
        except (OSError, http.client.HTTPException):
            link.close()
            del self._open[port]
            return NO_ANSWER

    def put(self, place: int, key: str, value: str, context: Optional[str] = None) -> Answer:
        """Puts a value over the versions of a context."""
        return self.ask(place, "PUT", _path(key), value.encode(), _context(context))

    def delete(self, place: int, key: str, context: Optional[str] = None) -> Answer:
        """Puts a tombstone over the versions of a context."""
        return self.ask(place, "DELETE", _path(key), None, _context(context))

    def get(self, place: int, key: str) -> Found:
        """Reads the versions of a key."""
        answer = self.ask(place, "GET", _path(key))
        marks, clocks = _versions(answer)
        return Found(answer, marks, clocks, answer.headers.get("x-context"))

    def status(self, place: int) -> Optional[dict]:
        """Returns a node's counts, or None if it doesn't respond."""
        return self._json(place, "GET", "/status")

    def dump(self, place: int) -> Optional[dict]:
        """Returns a node's dump, or None if it doesn't respond."""
        return self._json(place, "GET", "/dump")

    def repair(self, place: int) -> bool:
        """Starts a round of a node's repair, and waits for its end."""
        return self._json(place, "PUT", "/repair", {}) is not None

    def close(self) -> None:
        for link in self._open.values():
            link.close()
        self._open.clear()

    def _json(self, place: int, method: str, path: str, body: Optional[dict] = None) -> Any:
        """Sends a request that may be repeated: the node may have restarted since the connection was made."""
        for _ in range(2):
            text = None if body is None else json.dumps(body).encode()
            answer = self._ask(admin_port(self._base, place), method, path, text)
            if answer.status == 200:
                return answer.json()
        return None


def client_port(base: int, place: int) -> int:
    """Returns the port of a node's front for clients."""
    return base + place


def admin_port(base: int, place: int) -> int:
    """Returns the port of a node's front for an administrator."""
    return base + len(PLACES) + place


def _path(key: str) -> str:
    return "/keys/" + quote(key, safe="")


def _context(context: Optional[str]) -> Mapping[str, str]:
    return {} if context is None else {"x-context": context}


def _versions(answer: Answer) -> Tuple[List[str], List[str]]:
    """Returns the marks and the clocks of the versions in a response."""
    if answer.status == 300:
        siblings = answer.json()["siblings"]
        return [_mark(it) for it in siblings], [it["clock"] for it in siblings]
    clocks = [clock for clock in answer.headers.get("x-clock", "").split(";") if clock]
    if answer.status == 200:
        return [_text(answer.body)], clocks
    return [TOMBSTONE + clock for clock in clocks], clocks


def _mark(sibling: dict) -> str:
    if sibling["kind"] == "tombstone":
        return TOMBSTONE + sibling["clock"]
    return _text(base64.b64decode(sibling["value"]))


def _text(value: bytes) -> str:
    """Returns a value as text. A value that no client put may have any bytes."""
    return value.decode(errors="backslashreplace")
