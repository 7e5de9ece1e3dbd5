"""Runs the nemesis, and judges the run. The logs of a bad run are kept. The last line is `N passed, M failed`."""

from __future__ import annotations

import argparse
import shutil
import sys
import tempfile
from pathlib import Path

from . import figures, judge, program, rest
from .clients import Clients
from .history import read
from .log import Log, Watch
from .machine import Machine
from .modes import ALL, MODES
from .nodes import Nodes, build
from .schedule import Nemesis

#: Seconds that the cluster may take to be at rest in the end, on a busy machine.
REST_S = 300.0

#: Few entries per range and log, and short rounds, so that a run has renewals, checkpoints and syncs.
SETTINGS = {"limit": "4000", "checkpoint_entries": "200", "round_ms": "400"}


def words() -> argparse.Namespace:
    """Parses the command's arguments."""
    parser = argparse.ArgumentParser(prog="python3 -m nemesis", description=__doc__)
    parser.add_argument("--seed", type=int, default=1, help="chooses the faults and the clients' deeds")
    parser.add_argument("--seconds", type=float, default=30, help="time under faults")
    parser.add_argument("--clients", type=int, default=24)
    only = [name for name in MODES if name != ALL.name]
    parser.add_argument("--only", choices=only, help="what alone brings versions to replicas after a put")
    return program.parse(parser)


def work(given: argparse.Namespace, room: Path) -> int:
    """Builds the cluster if it isn't built, breaks it, prints the figures and the verdict, and returns the status."""
    logs, out = given.keep or room / "logs", given.out or room / "out"
    logs.mkdir(parents=True, exist_ok=True)
    for old in [*logs.glob("*.log"), *logs.glob("*.err")]:
        old.unlink()
    if not given.out:
        build(given.library, out)
    watch, mode = Watch(), MODES[given.only or ALL.name]
    log = Log(logs / "nemesis.log", watch)
    log.write(op="run", seed=given.seed, seconds=given.seconds, mode=mode.name)
    settings = {**SETTINGS, **mode.settings}
    with Nodes(out, room, logs, log, settings, given.ports, has_disk_faults=True) as nodes:
        if not nodes.powers:
            print("there is no C compiler: disks have no faults")
        nodes.begin()
        with Machine(room, log), figures.Counts(nodes.base, Log(logs / "status.log", watch)) as counts:
            with Clients(given.clients, given.seed, nodes.base, logs, watch) as clients:
                begin = watch.now()
                Nemesis(given.seed, nodes, clients, log, room, logs, mode).run(given.seconds)
                quiet = watch.now()
            took = rest.end(nodes, log, REST_S, mode)
            sums = counts.look()
        rest.dump(nodes.base, logs)
        lives = nodes.lives()
    figures.show(figures.requests(logs), begin, quiet, f"seed {given.seed}")
    print(f"lives {lives}, " + ", ".join(f"{name.replace('_', ' ')} {count}" for name, count in sums.items()))
    print("the cluster didn't come to rest" if took is None else f"at rest after {took:.1f} s")
    verdict = judge.judge(read(logs))
    if any(verdict.values()) and not given.keep:
        kept = tempfile.mkdtemp(prefix="nemesis-")
        shutil.copytree(logs, kept, dirs_exist_ok=True)
        print(f"the logs are in {kept}")
    return 1 if judge.report(verdict) else 0


if __name__ == "__main__":
    GIVEN = words()
    sys.exit(program.run(lambda room: work(GIVEN, room)))
