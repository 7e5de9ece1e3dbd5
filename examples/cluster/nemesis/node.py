"""The process of one node, and the lines that it prints."""

from __future__ import annotations

import subprocess
import threading
from pathlib import Path
from typing import Mapping, Optional, Sequence

from .log import Log

#: Seconds that a process may take to end after it was killed, on a busy machine.
END_S = 120.0


class Node:
    """A process. It prints `life N` once it has its number, and `ready` once it serves; both again in a new life."""

    def __init__(
        self, place: int, words: Sequence[str], environment: Mapping[str, str], errors: Path, log: Log
    ) -> None:
        self._place, self._log = place, log
        self._changed = threading.Condition()
        self.life: Optional[int] = None
        self.is_ready = self.has_ended = False
        with errors.open("ab") as stderr:
            self.process = subprocess.Popen(
                words,
                stdin=subprocess.DEVNULL,
                stdout=subprocess.PIPE,
                stderr=stderr,
                start_new_session=True,
                env=environment,
                text=True,
            )
        self._listener = threading.Thread(target=self._listen, name=f"place {place}", daemon=True)
        self._listener.start()

    def await_ready(self, most_s: float) -> bool:
        """Waits until the node serves. Returns false if it ended, or took too long."""
        with self._changed:
            self._changed.wait_for(lambda: self.is_ready or self.has_ended, most_s)
            return self.is_ready and not self.has_ended

    def await_end(self, most_s: float) -> bool:
        """Waits until the node has ended by itself."""
        with self._changed:
            return self._changed.wait_for(lambda: self.has_ended, most_s)

    def send(self, number: int) -> None:
        """Sends a signal."""
        self.process.send_signal(number)

    def end(self) -> None:
        """Kills the process, if it hasn't ended, and waits for its end."""
        self.process.kill()
        try:
            self.process.wait(END_S)
        except subprocess.TimeoutExpired:
            self.process.kill()
            self.process.wait()
        self._listener.join(END_S)

    def _listen(self) -> None:
        """Notes the node's lines, until its end."""
        with self.process.stdout:
            for line in self.process.stdout:
                word, _, rest = line.strip().partition(" ")
                with self._changed:
                    if word == "life" and rest.isdigit():
                        self.life, self.is_ready = int(rest), False
                        self._log.write(op="life", place=self._place, life=self.life)
                    elif word == "ready":
                        self.is_ready = True
                        self._log.write(op="ready", place=self._place)
                    self._changed.notify_all()
        self.process.wait()
        with self._changed:
            self.has_ended = True
            self._log.write(op="end", place=self._place, status=self.process.returncode)
            self._changed.notify_all()
