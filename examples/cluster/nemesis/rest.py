"""A cluster at rest: all replicas have equal roots and no hint is pending, or only one of the two."""

from __future__ import annotations

import json
import time
from pathlib import Path
from typing import Dict, Optional

from .front import Front
from .log import Log
from .modes import ALL, Mode
from .nodes import Nodes
from .places import PLACES

#: Replicas of a range.
COPIES = 3

#: Seconds between two looks.
LOOK_S = 0.25

#: Seconds that a whole dump may take, on a busy machine.
DUMP_S = 300.0


def settle(base: int, most_s: float, mode: Mode = ALL) -> Optional[float]:
    """Waits until the cluster is at rest, and returns the seconds that it took, or None if it took too long.

    The time for which it must be at rest is counted in looks: it may pass while the machine does nothing.
    """
    front, began = Front(base), time.monotonic()
    since: Optional[float] = None
    looks = 0
    try:
        while True:
            now = time.monotonic()
            since = (now if since is None else since) if is_at_rest(front, mode) else None
            looks = 0 if since is None else looks + 1
            if since is not None and looks > mode.steady_s / LOOK_S:
                return since - began
            if now - began > most_s:
                return None
            time.sleep(LOOK_S)
    finally:
        front.close()


def is_at_rest(front: Front, mode: Mode = ALL) -> bool:
    """Returns true if all nodes are up, replicas are equal, and no hint is pending, as far as a mode requires."""
    roots: Dict[int, list] = {}
    for place in PLACES:
        status = front.status(place)
        if status is None or status["life"] is None or (mode.needs_no_hints and status["hints"]["pending"]):
            return False
        for it in status["ranges"]:
            roots.setdefault(it["range"], []).append(it["root"])
    are_equal = all(found == found[:1] * COPIES and None not in found for found in roots.values())
    return bool(roots) and (are_equal or not mode.needs_equal_roots)


def dump(base: int, logs: Path) -> None:
    """Writes each node's dump to the logs."""
    front = Front(base, DUMP_S)
    for place in PLACES:
        dump_one(front, place, logs / f"dump-{place}.log")
    front.close()


def dump_one(front: Front, place: int, file: Path) -> Optional[dict]:
    """Writes a node's dump to a file, and returns it, or None if it doesn't respond."""
    held = front.dump(place)
    if held is not None:
        file.write_text(json.dumps(held) + "\n")
    return held


def end(nodes: Nodes, log: Log, most_s: float, mode: Mode = ALL) -> Optional[float]:
    """Waits until the cluster is at rest, logs the outcome, and returns the seconds that it took."""
    took = settle(nodes.base, most_s, mode)
    for (place, what), times in nodes.links.unslotted().items():
        log.write(op="unslotted", place=place, what=what, times=times)
    log.write(op="unsettled" if took is None else "settled", seconds=took)
    return took
