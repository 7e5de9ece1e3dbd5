"""Cuts the power of nodes again and again while writers put, until enough puts were acknowledged, and judges the run.

    python3 -m nemesis.power_loop --library FOLDER [--puts 10000] [--seed N]

One node, two or all of them lose their power, some of them again while they recover. The last line is `N passed, M
failed`.
"""

from __future__ import annotations

import argparse
import random
import sys
import threading
import time
from pathlib import Path
from typing import Dict, List

from . import judge, program, rest
from .caller import BLIND, Caller, Context, context_of
from .history import read
from .log import Log, Watch
from .modes import ALL
from .nodes import Nodes, build
from .places import PLACES

#: Number of keys of each writer, which nobody else puts.
KEYS_EACH = 40

#: Seconds that the cluster may take to be at rest in the end, on a busy machine.
REST_S = 300.0

#: Few entries per log, so that a run has checkpoints.
SETTINGS = {"limit": "4000", "checkpoint_entries": "200", "round_ms": "400"}


class Count:
    """The number of acknowledged puts of all writers."""

    def __init__(self, wanted: int) -> None:
        self._lock, self._wanted = threading.Lock(), wanted
        self.acknowledged = 0

    def add(self) -> None:
        with self._lock:
            self.acknowledged += 1

    def is_done(self) -> bool:
        """Returns true once there are enough puts."""
        return self.acknowledged >= self._wanted

    def end(self) -> None:
        """Ends the writers."""
        self._wanted = 0


class Writer(threading.Thread):
    """A client that puts its keys repeatedly, and reads acknowledged puts at another place."""

    def __init__(self, number: int, seed: int, caller: Caller, count: Count) -> None:
        super().__init__(name=f"writer {number}", daemon=True)
        self._number, self._caller, self._count = number, caller, count
        self._chance = random.Random(f"{seed}/{number}")
        self._contexts: Dict[str, Context] = {}

    def run(self) -> None:
        while not self._count.is_done():
            self._step()
        self._caller.close()

    def _step(self) -> None:
        key = f"w{self._number}-{self._chance.randrange(KEYS_EACH)}"
        status, covers = self._caller.put(self._chance.choice(PLACES), key, self._contexts.get(key, BLIND))
        if covers is not None:
            self._count.add()
            self._contexts[key] = covers
        found = self._caller.get(self._chance.choice(PLACES), key)
        if found.context is not None:
            self._contexts[key] = context_of(found)
        if status == 0:
            time.sleep(0.05)


def cut_until_done(nodes: Nodes, chance: random.Random, count: Count, log: Log) -> int:
    """Cuts the power of nodes until there are enough puts, and returns the number of cuts."""
    cuts = 0
    while not count.is_done():
        time.sleep(chance.uniform(0.5, 2.0))
        places = chance.sample(PLACES, chance.choice((1, 1, 1, 2, 2, 5)))
        nodes.cut(places, chance)
        cuts += 1
        while chance.random() < 0.3:
            nodes.start(places)
            time.sleep(chance.uniform(0.1, 1.5))
            nodes.cut(places, chance)
            cuts += 1
        if not nodes.bring_up():
            log.write(op="expect", what=f"all nodes serve, and not {nodes.up()} alone", met=False)
            break
    count.end()
    log.write(op="quiet")
    return cuts


def words() -> argparse.Namespace:
    """Parses the command's arguments."""
    form = argparse.RawDescriptionHelpFormatter
    parser = argparse.ArgumentParser(prog="python3 -m nemesis.power_loop", description=__doc__, formatter_class=form)
    parser.add_argument("--puts", type=int, default=10_000, help="puts that must be acknowledged")
    parser.add_argument("--writers", type=int, default=6)
    parser.add_argument("--seed", type=int, default=1)
    return program.parse(parser)


def work(given: argparse.Namespace, room: Path) -> int:
    """Runs the loop, prints its verdict, and returns the status."""
    logs, out = given.keep or room / "logs", given.out or room / "out"
    logs.mkdir(parents=True, exist_ok=True)
    if not given.out:
        build(given.library, out)
    watch, count = Watch(), Count(given.puts)
    log = Log(logs / "nemesis.log", watch)
    log.write(op="run", seed=given.seed, seconds=0, mode=ALL.name)
    with Nodes(out, room, logs, log, SETTINGS, given.ports, has_disk_faults=True) as nodes:
        if not nodes.powers:
            print("skipped: there is no C compiler\n0 passed, 0 failed")
            return 0
        nodes.begin()
        writers: List[Writer] = []
        for number in range(1, given.writers + 1):
            caller = Caller(number, nodes.base, Log(logs / f"client-{number}.log", watch))
            writers.append(Writer(number, given.seed, caller, count))
            writers[-1].start()
        cuts = cut_until_done(nodes, random.Random(given.seed), count, log)
        for writer in writers:
            writer.join()
        took = rest.end(nodes, log, REST_S)
        rest.dump(nodes.base, logs)
    print(f"{count.acknowledged} puts were acknowledged, {cuts} times the power was cut, {watch.now():.0f} seconds")
    print("the cluster didn't come to rest" if took is None else f"at rest after {took:.1f} s")
    return 1 if judge.report(judge.judge(read(logs))) else 0


if __name__ == "__main__":
    GIVEN = words()
    sys.exit(program.run(lambda room: work(GIVEN, room)))
