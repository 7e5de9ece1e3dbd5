"""How late the machine is. A node can't be blamed for what it doesn't do while the machine does nothing for anybody."""

from __future__ import annotations

import hashlib
import os
import threading
from contextlib import contextmanager
from pathlib import Path
from typing import Callable, Iterator

from .log import Log

#: Seconds between two works, and the seconds by which one may be late.
EACH_S, LATE_S = 0.2, 0.25

#: Bytes of which a work takes a digest: some milliseconds of a processor, as some requests do.
WORK = bytes(2_000_000)

#: Seconds that the last works may take.
END_S = 120.0


class Machine:
    """Writes to the disk of a folder, and works on each processor, again and again, and logs the works that were late.

    A processor may be late for its own: the host takes single ones away. All are late if the processes are stopped.
    """

    def __init__(self, folder: Path, log: Log) -> None:
        self._file, self._log = folder / "machine", log
        self._ended = threading.Event()
        self._threads = [self._thread(self._watch_disk)]
        self._threads += [self._thread(self._watch_processor, number) for number in sorted(os.sched_getaffinity(0))]

    def __enter__(self) -> "Machine":
        for thread in self._threads:
            thread.start()
        return self

    def __exit__(self, *error: object) -> None:
        self._ended.set()
        for thread in self._threads:
            thread.join(END_S)

    def _thread(self, watch: Callable[..., None], *words: int) -> threading.Thread:
        return threading.Thread(target=watch, args=words, name="machine", daemon=True)

    def _watch_disk(self) -> None:
        with self._file.open("wb", buffering=0) as file:
            while not self._ended.is_set():
                with self.in_time():
                    self._ended.wait(EACH_S)
                    os.pwrite(file.fileno(), b"x", 0)
                    os.fsync(file.fileno())

    def _watch_processor(self, number: int) -> None:
        try:
            os.sched_setaffinity(0, [number])
        except OSError:
            # (it was taken away for good: the thread may run on any other)
            pass
        while not self._ended.is_set():
            with self.in_time():
                self._ended.wait(EACH_S)
                hashlib.sha256(WORK)

    @contextmanager
    def in_time(self) -> Iterator[None]:
        """Logs the time in which something happens that takes no longer than a work and the time between two."""
        begin = self._log.now()
        yield
        took = self._log.now() - begin
        if took > EACH_S + LATE_S:
            self._log.write(t=begin, op="late", seconds=round(took, 3))
