"""The processes of a cluster: epmd, and a node for each place. All of them end with it."""

from __future__ import annotations

import os
import random
import secrets
import signal
import socket
import subprocess
import time
from pathlib import Path
from typing import Callable, Dict, List, Optional, Pattern, Sequence, Tuple

from . import power
from .front import HOST, admin_port, client_port
from .links import Links
from .log import Log
from .node import Node
from .places import PLACES, incarnation_of
from .power import Power

EXAMPLE = Path(__file__).resolve().parents[1]

#: A cluster listens on consecutive ports: two of HTTP for each place, and then one of epmd. It claims them by a socket
#: that is bound to the first.
PORTS = range(20000, 30000)
PORTS_EACH = 2 * len(PLACES) + 2

#: The settings of all nodes: five places of one host, and four ranges.
SYS_CONFIG = """[{{cluster, [
    {{places, [
{places}
    ]}},
    {{bits, 2}},
    {{quorums, {{3, 2, 2}}}}
]}}].
"""

#: Seconds that a process may take to start, on a busy machine, and that epmd may take to end.
START_S, END_S = 300.0, 5.0

#: Seconds that all nodes may take to serve again, on a busy machine.
AGAIN_S = 300.0

#: Seconds between two looks at processes that start.
LOOK_S = 0.05


class NoStart(Exception):
    """A build that failed, or a process that didn't start."""


def build(library: Path, out: Path) -> None:
    """Builds the cluster with the library of a folder."""
    command = ["make", "-s", "-C", str(EXAMPLE), f"LIBRARY={library.resolve()}", f"OUT={out}"]
    done = subprocess.run(command, stdout=subprocess.PIPE, stderr=subprocess.STDOUT, text=True, check=False)
    if done.returncode:
        raise NoStart(f"the build failed:\n{done.stdout}")


class Nodes:
    """The processes of a cluster with their disks. Each process is known by its id.

    `links` has the faults of messages. If faults of disks are wanted and there is a C compiler, each node runs under
    their library, and `powers` has them.
    """

    def __init__(
        self,
        out: Path,
        room: Path,
        logs: Path,
        log: Log,
        settings: Optional[Dict[str, str]] = None,
        ports: Optional[int] = None,
        has_disk_faults: bool = False,
    ) -> None:
        self._claim, self.base = _claim(ports)
        self._epmd_port = self.base + PORTS_EACH - 1
        self._out, self._logs, self._log = out, logs, log
        self.links = Links(room, log)
        library = power.build(room) if has_disk_faults else None
        self._disks = {place: room / "disks" / str(place) for place in PLACES}
        self.powers: Dict[int, Power] = {}
        if library is not None:
            self.powers = {place: Power(library, disk) for place, disk in self._disks.items()}
        self._config = _config(room / "config")
        self._settings = [word for setting in (settings or {}).items() for word in setting]
        self._environment = {
            **os.environ,
            **self.links.environment(),
            "ERL_EPMD_PORT": str(self._epmd_port),
            "ERL_EPMD_ADDRESS": HOST,
        }
        self._epmd: Optional[subprocess.Popen] = None
        self._nodes: Dict[int, Node] = {}
        self._lives: Dict[int, int] = {}
        self._paused: set = set()

    def __enter__(self) -> "Nodes":
        return self

    def __exit__(self, *error: object) -> None:
        self.end()

    def begin(self) -> None:
        """Starts epmd and all nodes, and waits until they serve."""
        self._epmd = subprocess.Popen(
            ["epmd", "-port", str(self._epmd_port), "-address", HOST],
            stdin=subprocess.DEVNULL,
            stdout=subprocess.DEVNULL,
            stderr=subprocess.DEVNULL,
            start_new_session=True,
        )
        _await_port(self._epmd_port)
        self.start(PLACES)
        self.await_ready(PLACES)

    def end(self) -> None:
        """Ends all processes that it started."""
        before = signal.signal(signal.SIGINT, signal.SIG_IGN)
        try:
            for node in self._nodes.values():
                node.process.kill()
            for node in self._nodes.values():
                node.end()
            if self._epmd is not None:
                self._epmd.terminate()
                _await_end(self._epmd)
            self._claim.close()
        finally:
            signal.signal(signal.SIGINT, before)

    def start(self, places: Sequence[int]) -> None:
        """Starts nodes. A node with a new disk serves once all others have responded to it."""
        for place in places:
            self._disks[place].mkdir(parents=True, exist_ok=True)
            self._log.write(op="start", place=place)
            ports = ["http_port", client_port(self.base, place), "admin_port", admin_port(self.base, place)]
            words = [EXAMPLE / "node", self._out, self._config, place, self._disks[place], *ports, *self._settings]
            environment = self._environment
            if place in self.powers:
                environment = self.powers[place].environment(environment)
            errors = self._logs / f"node-{place}.err"
            self.life(place)
            self._nodes[place] = Node(place, [str(word) for word in words], environment, errors, self._log)

    def await_ready(self, places: Sequence[int]) -> None:
        """Waits until nodes serve."""
        until = time.monotonic() + START_S
        for place in places:
            node = self._nodes[place]
            if not node.await_ready(max(0.0, until - time.monotonic())):
                how = "ended" if node.has_ended else "isn't ready"
                raise NoStart(f"the node of place {place} {how}: see node-{place}.err")

    def bring_up(self) -> bool:
        """Starts all nodes that are down, and restarts those that end by themselves, until all serve.

        Returns false if they don't all serve in time.
        """
        until = time.monotonic() + AGAIN_S
        while self.down() or not all(_serves(node) for node in self._nodes.values()):
            if time.monotonic() > until:
                return False
            self.start(self.down())
            time.sleep(LOOK_S)
        return True

    def life(self, place: int) -> int:
        """Returns the last life that a place had, 0 before the first."""
        node = self._nodes.get(place)
        if node is not None and node.life is not None:
            self._lives[place] = node.life
        return self._lives.get(place, 0)

    def asides(self, place: int) -> int:
        """Returns the number of lives whose disks a place has kept aside."""
        return sum(1 for _ in self._disks[place].glob("aside-*"))

    def lives(self) -> int:
        """Returns the number of lives that all places have had."""
        return sum(incarnation_of(self.life(place)) for place in PLACES)

    def up(self) -> List[int]:
        """Returns the places whose nodes serve and aren't paused."""
        return [it for it, node in sorted(self._nodes.items()) if _serves(node) and it not in self._paused]

    def running(self) -> List[int]:
        """Returns the places with a process, ready or not."""
        return [place for place, node in sorted(self._nodes.items()) if not node.has_ended]

    def down(self) -> List[int]:
        """Returns the places without a process."""
        return [place for place in PLACES if place not in self.running()]

    def kill(self, places: Sequence[int]) -> None:
        """Kills nodes, all at once. Their writes stay."""
        for place in places:
            self._log.write(op="kill", place=place)
        self._kill(places)

    def cut(self, places: Sequence[int], chance: random.Random) -> None:
        """Cuts the power of nodes, all at once: all unsynced changes are gone, or a part of them."""
        self._kill(places)
        for place in places:
            taken = self.powers[place].cut(chance if chance.random() < 0.5 else None)
            self._log.write(op="cut", place=place, **vars(taken))

    def damage(self, place: int, op: str, deed: Callable[[Path], Optional[str]]) -> bool:
        """Damages the disk of a node that isn't running. Returns false if there was nothing to damage."""
        what = deed(self._disks[place])
        if place in self.powers:
            self.powers[place].keep()
        if what is not None:
            self._log.write(op=op, place=place, life=self.life(place), what=what)
        return what is not None

    def pause(self, place: int) -> None:
        """Stops a node: it doesn't respond, but isn't down."""
        self._log.write(op="pause", place=place)
        self._nodes[place].send(signal.SIGSTOP)
        self._paused.add(place)

    def resume(self, place: int) -> None:
        """Resumes a paused node."""
        self._log.write(op="resume", place=place)
        self._nodes[place].send(signal.SIGCONT)
        self._paused.discard(place)

    def paused(self) -> List[int]:
        """Returns the places whose nodes are paused."""
        return sorted(self._paused)

    def have_printed(self, pattern: Pattern[bytes]) -> bool:
        """Returns true if a node has printed this to its standard error."""
        return any(pattern.search(path.read_bytes()) for path in self._logs.glob("node-*.err"))

    def _kill(self, places: Sequence[int]) -> None:
        running = [self._nodes[place] for place in places if place in self._nodes]
        for node in running:
            node.process.kill()
        for node in running:
            node.end()
        self._paused.difference_update(places)


def _config(folder: Path) -> Path:
    """Makes the configuration of all nodes, with a cookie that nobody else may read."""
    folder.mkdir(mode=0o700)
    places = ",\n".join(f'        {{{place}, "{HOST}"}}' for place in PLACES)
    (folder / "sys.config").write_text(SYS_CONFIG.format(places=places))
    cookie = folder / ".erlang.cookie"
    cookie.write_text(secrets.token_hex(16))
    cookie.chmod(0o400)
    return folder


def _serves(node: Node) -> bool:
    return node.is_ready and not node.has_ended


def _claim(first: Optional[int]) -> Tuple[socket.socket, int]:
    """Claims free ports, from this one on or from one that depends on the process. Returns the first."""
    if first is None:
        slots = len(PORTS) // PORTS_EACH
        wanted = [PORTS.start + (os.getpid() + step) % slots * PORTS_EACH for step in range(slots)]
    else:
        wanted = [first]
    for port in wanted:
        claim = socket.socket()
        try:
            claim.bind((HOST, port))
        except OSError:
            claim.close()
            continue
        if all(_is_free(port + step) for step in range(1, PORTS_EACH)):
            return claim, port
        claim.close()
    raise NoStart(f"the ports from {wanted[0]} to {wanted[-1] + PORTS_EACH - 1} aren't free")


def _is_free(port: int) -> bool:
    with socket.socket() as probe:
        probe.setsockopt(socket.SOL_SOCKET, socket.SO_REUSEADDR, 1)
        try:
            probe.bind((HOST, port))
        except OSError:
            return False
    return True


def _await_port(port: int) -> None:
    until = time.monotonic() + START_S
    while time.monotonic() < until:
        with socket.socket() as probe:
            if probe.connect_ex((HOST, port)) == 0:
                return
        time.sleep(0.05)
    raise NoStart(f"nothing listens at {port}")


def _await_end(process: subprocess.Popen) -> None:
    try:
        process.wait(END_S)
    except subprocess.TimeoutExpired:
        process.kill()
        process.wait()
