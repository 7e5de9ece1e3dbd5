"""Small logs, written by hand.

They have five places that begin with the lives 33 to 37. The key `k` is in range 0, at the places 1 to 3.
"""

import base64
import json
import tempfile
from pathlib import Path

from nemesis import history, judge

PLACES = (1, 2, 3, 4, 5)
#: The number of a place's first life, less the place
FIRST = 32
HOLDERS = {0: (1, 2, 3), 1: (2, 3, 4), 2: (3, 4, 5), 3: (4, 5, 1)}


def put(value, clock, read=(), t=1.0, on=(1, 2), status=200, key="k"):
    """A put, which took half a second. Without a clock it got no response, unless there is a status."""
    return _write("put", clock, read, t, on, status, key, value=value)


def delete(clock, read=(), t=1.0, on=(1, 2), status=200, key="k"):
    """A delete."""
    return _write("delete", clock, read, t, on, status, key)


def get(*versions, t=2.0, key="k", by=1):
    """A get that shows these versions, each a mark and its clock."""
    marks, clocks = [mark for mark, _ in versions], [clock for _, clock in versions]
    status = 200 if len(marks) == 1 else 300 if marks else 404
    shown = {"by": str(by), "status": status, "values": marks, "clocks": clocks}
    return {"t": t, "end": t + 0.5, "op": "get", "key": key, **shown}


def refused(line, name, place=1, t=5.0, **more):
    """A request that a place refused with a name."""
    return {**line, "t": t, "end": t + 0.5, "place": place, "status": 503, "refused": name, **more}


def event(op, t=1.0, **more):
    """A deed of the nemesis."""
    return {"t": t, "op": op, **more}


def held(*versions):
    """The versions that a replica holds of a key, each a mark and its clock."""
    return [_version(mark, clock) for mark, clock in versions]


class Run:
    """A valid run, except for the changes of a test."""

    def __init__(self, *clients, everywhere=(), at=None, alone=None, events=(), mode="all"):
        """Makes a run. `everywhere` has the versions that each replica holds of `k`, `at` those of some places instead.

        `alone` has the versions of places that were killed at the time 4, and then were dumped while cut off.
        """
        self.client = list(clients)
        starts = [event("start", 0.0, place=place) for place in PLACES]
        lives = [event("life", 0.0, place=place, life=FIRST + place) for place in PLACES]
        ready = [event("ready", 0.0, place=place) for place in PLACES]
        self.alone = {place: _dump(place, held(*versions)) for place, versions in (alone or {}).items()}
        dumped = [event("held", 5.0, place=it, life=FIRST + it, since=4.0, file=f"held-{it}.log") for it in self.alone]
        self.nemesis = [event("run", 0.0, mode=mode), *starts, *lives, *ready, *events, *dumped, event("settled", 9.0)]
        rows = {place: held(*everywhere) for place in PLACES}
        rows.update({place: held(*versions) for place, versions in (at or {}).items()})
        self.dumps = {place: _dump(place, rows[place]) for place in PLACES}

    def broken(self):
        """Returns the rules that a run breaks."""
        with tempfile.TemporaryDirectory() as folder:
            logs = Path(folder)
            _write_lines(logs / "client-1.log", self.client)
            _write_lines(logs / "nemesis.log", self.nemesis)
            for name, dumps in (("dump", self.dumps), ("held", self.alone)):
                for place, dump in dumps.items():
                    _write_lines(logs / f"{name}-{place}.log", [dump])
            verdict = judge.judge(history.read(logs))
        return [rule for rule, breaches in verdict.items() if breaches]


def _write(op, clock, read, t, on, status, key, **more):
    line = {"t": t, "end": t + 0.5, "op": op, "key": key, "read": list(read), **more}
    if clock:
        return {**line, "status": status, "clock": clock, "on": list(on)}
    return {**line, "status": 0 if status == 200 else status}


def _dump(place, row):
    ranges = []
    for number, places in HOLDERS.items():
        if place in places:
            rows = [{"key": _encode("k"), "versions": row}] if number == 0 and row else []
            ranges.append({"range": number, "root": f"root of {rows}", "rows": rows})
    return {"place": place, "life": FIRST + place, "ranges": ranges, "pending": 0}


def _version(mark, clock):
    if mark == "tombstone":
        return {"value": "", "clock": clock, "kind": "tombstone"}
    return {"value": _encode(mark), "clock": clock, "kind": "live"}


def _encode(text):
    return base64.b64encode(text.encode()).decode()


def _write_lines(path, lines):
    path.write_text("".join(json.dumps(line) + "\n" for line in lines))
