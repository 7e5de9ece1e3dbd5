"""Requests of a client, which logs the responses."""

from __future__ import annotations

from typing import Any, Dict, Optional, Sequence, Tuple

from .front import Answer, Front, Found
from .log import Log

#: A context, and the marks of the versions that it covers.
Context = Tuple[Optional[str], Sequence[str]]
BLIND: Context = (None, ())


class Caller:
    """Reads and puts keys. Each request is a line of its log. For a single thread."""

    def __init__(self, number: int, base: int, log: Log) -> None:
        self._number, self._log = number, log
        self._front = Front(base)
        self._values = 0

    def get(self, place: int, key: str) -> Found:
        """Reads a key at a place."""
        begin = self._log.now()
        found = self._front.get(place, key)
        self._log.write(
            t=begin,
            end=self._log.now(),
            client=self._number,
            op="get",
            key=key,
            place=place,
            by=found.answer.headers.get("x-place"),
            status=found.answer.status,
            values=found.marks,
            clocks=found.clocks,
            **_refusal(found.answer),
        )
        return found

    def put(self, place: int, key: str, context: Context, deletes: bool = False) -> Tuple[int, Optional[Context]]:
        """Puts a new value, or a tombstone, at a place. Returns the status, and the context that covers the version."""
        begin, value = self._log.now(), None if deletes else self._new_value()
        if value is None:
            answer = self._front.delete(place, key, context[0])
        else:
            answer = self._front.put(place, key, value, context[0])
        body = answer.json() if answer.status == 200 else {}
        self._log.write(
            t=begin,
            end=self._log.now(),
            client=self._number,
            op="delete" if deletes else "put",
            key=key,
            value=value,
            read=context[1],
            place=place,
            by=answer.headers.get("x-place"),
            status=answer.status,
            **{name: body[name] for name in ("clock", "on") if name in body},
            **_refusal(answer),
        )
        if answer.status != 200:
            return answer.status, None
        return answer.status, (body["context"], (f"tombstone {body['clock']}" if value is None else value,))

    def close(self) -> None:
        self._front.close()
        self._log.close()

    def _new_value(self) -> str:
        self._values += 1
        return f"c{self._number}-{self._values:06}"


def context_of(found: Found) -> Context:
    """Returns the context that covers a get's result: the empty one if it found no version, or got no response."""
    return BLIND if found.context is None else (found.context, found.marks)


def _refusal(answer: Answer) -> Dict[str, Any]:
    """Returns the members of a refusal with any status: its name, `perhaps`, and the places that it is for."""
    body = answer.json() if answer.status not in (0, 200, 300) else {}
    return {name: body[name] for name in ("refused", "perhaps", "for") if name in body}
