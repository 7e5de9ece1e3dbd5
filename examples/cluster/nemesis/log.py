"""A log of a run: lines of JSON."""

from __future__ import annotations

import json
import threading
import time
from pathlib import Path
from typing import Any, Optional


class Watch:
    """The time since a run began, in seconds, for all its logs, including those of other processes."""

    def __init__(self, began: Optional[float] = None) -> None:
        self.began = time.monotonic() if began is None else began

    def now(self) -> float:
        return round(time.monotonic() - self.began, 6)


class Log:
    """A file with a line for each deed or response."""

    def __init__(self, path: Path, watch: Watch) -> None:
        self._file = path.open("w", encoding="utf-8", buffering=1)
        self._watch = watch
        self._lock = threading.Lock()

    def now(self) -> float:
        """Returns the time of the run."""
        return self._watch.now()

    def write(self, **members: Any) -> None:
        """Appends a line, and adds the time if the line doesn't have it."""
        with self._lock:
            line = members if "t" in members else {"t": self.now(), **members}
            if not self._file.closed:
                self._file.write(json.dumps(line) + "\n")

    def close(self) -> None:
        self._file.close()
