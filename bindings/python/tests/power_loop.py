"""Puts of several threads into a store of examples/sqlite_store.py, power cuts, and restarts.

    python3 -B -m tests.power_loop [PUTS [SEED]]

It ends when that many puts were acknowledged, 10,000 for instance. None of them may be lost, and no counter is used
twice. The power cuts are from examples/cluster/nemesis/power.py. They need a C compiler; a few minutes are enough.
"""

import os
import random
import subprocess
import sys
import tempfile
import threading
import time
from contextlib import closing
from pathlib import Path

from tests.store_case import SqliteStore
from tests.support import PACKAGE

sys.path.append(str(PACKAGE.parents[1] / "examples/cluster"))

THREADS, LIMIT = 8, 500


def say(*words):
    """Writes a line in one piece."""
    os.write(1, (" ".join(map(str, words)) + "\n").encode())


def put_for_ever(store, key):
    """Puts a key again and again, and prints the counter of each acknowledged put."""
    while True:
        context = store.get(key)[0].clock if store.get(key) else {}
        counter = context.get(1, 0) + 1
        say("put", key.decode(), store.put(key, b"%d" % counter, context).counter)


def serve(path):
    """Prints the state of each key of a store, and puts until it is killed."""
    store = SqliteStore(Path(path), LIMIT)
    keys = [b"%d" % thread for thread in range(THREADS)]
    for key in keys:
        (version,) = store.get(key) or [None]
        counter = version.clock[1] if version else 0
        assert version is None or version.value == b"%d" % counter
        say("has", key.decode(), counter)
    for key in keys:
        threading.Thread(target=put_for_ever, args=(store, key)).start()


class Loop:
    """A store whose power is cut, and the counters that it has acknowledged."""

    def __init__(self, folder, chance):
        from nemesis.power import Power, build

        disk = Path(folder) / "disk"
        self.path, self.chance = disk / "1.db", chance
        self.power = Power(build(Path(folder)), disk)
        self.counters = dict.fromkeys(map(str, range(THREADS)), 0)
        self.puts = self.cuts = self.taken_back = 0
        SqliteStore.create(self.path, 1)

    def run(self, puts):
        """Continues until that many puts were acknowledged."""
        while self.puts < puts:
            self.live()
            cut = self.power.cut(self.chance if self.chance.random() < 0.7 else None)
            self.cuts += 1
            self.taken_back += cut.writes

    def live(self):
        """Runs the store for a while, and kills it, even while it starts."""
        command = [sys.executable, "-B", "-m", "tests.power_loop", "serve", self.path]
        program = subprocess.Popen(command, env=self.power.environment(), stdout=subprocess.PIPE, cwd=PACKAGE)
        timer = threading.Timer(self.chance.uniform(0.1, 0.8), program.kill)
        timer.start()
        with program.stdout:
            for line in program.stdout:
                if line.endswith(b"\n"):
                    self.hear(*line.decode().split())
        if program.wait() >= 0:
            raise SystemExit(f"the store ended by itself, after {self.cuts} power cuts")
        timer.join()

    def hear(self, word, key, said):
        """Compares the store's output with its earlier output."""
        counter, before = int(said), self.counters[key]
        if word == "has" and counter < before:
            raise SystemExit(f"a put is lost: key {key} has counter {counter} after {before}")
        if word == "put" and counter <= before:
            raise SystemExit(f"a counter is used twice: key {key} has counter {counter} after {before}")
        self.puts += word == "put"
        self.counters[key] = counter


def main():
    """Serves a store, or runs the loop."""
    if sys.argv[1:2] == ["serve"]:
        return serve(sys.argv[2])
    puts, seed = (*map(int, sys.argv[1:]), *(10_000, time.time_ns() % 1_000_000)[len(sys.argv) - 1 :])
    print(f"SEED={seed}")
    with tempfile.TemporaryDirectory() as folder:
        loop = Loop(folder, random.Random(seed))
        loop.run(puts)
    print(f"{loop.puts} puts, {loop.cuts} power cuts, {loop.taken_back} writes taken back: 0 lost")


if __name__ == "__main__":
    main()
