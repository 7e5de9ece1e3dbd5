"""The deeds of a nemesis' episodes. Each deed is logged, and a deed that would lose too much isn't done."""

from __future__ import annotations

import random
import threading
import time
from pathlib import Path
from typing import Callable, List, Optional, Sequence, Tuple

from . import links, rest
from .clients import Clients
from .crowd import KEYS
from .front import PATIENCE_S, Front
from .log import Log
from .nodes import Nodes
from .places import PLACES

#: Seconds that the cluster may take to be at rest between two lost disks.
REST_S = 30.0

#: Maximum number of lives before no more disks are lost: a key's clock can have 32, and each life may put the key.
MOST_LIVES = 28

#: Seconds that a node may take to serve, or to end, after a fault of its disk, on a busy machine, and seconds between
#: two looks.
PATIENT_S, LOOK_S, LOOK_SOON_S = 300.0, 0.2, 0.05

#: Seconds that an episode waits for nodes to serve. Nodes that are cut off may serve only later. They are counted in
#: looks: time may pass while the machine does nothing.
START_S = 3.0

#: Number of keys that are read at a node whose disk is full.
READ = 5

#: Damages a disk, and returns a description, or None if there was nothing to damage.
Damage = Callable[[Path], Optional[str]]


class Deeds:
    """The random deeds of a nemesis.

    At most one disk is lost, damaged or old at a time: the cluster must have been at rest since the previous one.
    """

    def __init__(self, seed: int, nodes: Nodes, clients: Clients, log: Log) -> None:
        self.chance = random.Random(seed)
        self.nodes, self.links, self.clients, self.log = nodes, nodes.links, clients, log
        self._front = Front(nodes.base)
        self._lost: List[Tuple[int, str, int]] = []
        self._may_lose = True
        self._until = 0.0
        #: False if the nodes don't all serve although nothing prevents it
        self.has_healed = True

    def set_end(self, seconds: float) -> None:
        """Sets the duration of the run."""
        self._until = time.monotonic() + seconds

    def is_over(self) -> bool:
        """Returns true once the run's time is over."""
        return time.monotonic() >= self._until

    def wait(self, least_s: float, most_s: float) -> None:
        """Waits a random time, until the end of the run at most."""
        time.sleep(max(0.0, min(self.chance.uniform(least_s, most_s), self._until - time.monotonic())))

    def some(self, count: int) -> List[int]:
        """Chooses places."""
        return self.chance.sample(PLACES, count)

    def some_up(self, count: int) -> List[int]:
        """Chooses places whose nodes serve, if there are enough, and any places otherwise."""
        up = self.nodes.up()
        return self.chance.sample(up if len(up) >= count else PLACES, count)

    # ---- messages

    def cut_off(self, drops: Sequence[links.Link], is_instant: Optional[bool] = None) -> None:
        """Drops messages, mostly in silence, as a network does. Sometimes their calls fail at once."""
        if is_instant is None:
            is_instant = self.chance.random() < 0.2
        self.links.partition(drops, is_instant)

    # ---- processes

    def stop(self, places: Sequence[int]) -> None:
        """Kills nodes, or cuts their power."""
        if self.nodes.powers and self.chance.random() < 0.5:
            self.nodes.cut(places, self.chance)
        else:
            self.nodes.kill(places)

    def restart(self) -> None:
        """Starts the nodes that are down, and waits a while until they serve."""
        self.nodes.start(self.nodes.down())
        self._wait_for(lambda: len(self.nodes.up()) == len(PLACES))

    def heal(self) -> None:
        """Ends all faults, waits until all nodes serve, and after a lost disk until the cluster is at rest."""
        for place in self.nodes.paused():
            self.nodes.resume(place)
        self.links.heal()
        self.relieve()
        self.has_healed = self.nodes.bring_up()
        if not self.has_healed:
            self.log.write(op="expect", what=f"all nodes serve, and not {self.nodes.up()} alone", met=False)
            return
        self._check_lost()
        if not self._may_lose and not self.is_over():
            self.clients.rest()
            self.log.write(op="rest")
            self._may_lose = rest.settle(self.nodes.base, min(REST_S, self._until - time.monotonic())) is not None
            self.log.write(op="work", settled=self._may_lose)
        else:
            self.wait(0.2, 1.0)
        self.clients.work()

    def come_to_rest(self) -> None:
        """Waits a short time until all replicas are equal and no hint is pending."""
        rest.settle(self.nodes.base, REST_S)

    # ---- disks

    def strain(self, places: Sequence[int]) -> None:
        """Often makes entries of a few keys wait for slow syncs."""
        if self.chance.random() < 0.7:
            self.clients.skew(self.chance.sample(KEYS, 3), places)
            for place in places:
                self.slow_disk(place, self.chance.choice((100, 250, 400)))
            self.wait(0.5, 1.5)

    def slow_disk(self, place: int, delay_ms: int) -> None:
        """Delays each sync of a node."""
        if self.nodes.powers:
            self.log.write(op="slow", place=place, slow_disk_ms=delay_ms)
            self.nodes.powers[place].slow_syncs(delay_ms)

    def relieve(self) -> None:
        """Ends all faults of disks, and the skew of the load."""
        self.clients.skew()
        for power in self.nodes.powers.values():
            power.heal()
        self.log.write(op="disks")

    def can_lose(self) -> bool:
        """Returns true if a disk may be lost now: no other disk is lost, and clocks can have another life."""
        return self._may_lose and self.nodes.lives() < MOST_LIVES

    def lose(self, place: int, op: str, damage: Damage) -> None:
        """Kills a node, damages its disk if one may be lost now, and starts the node.

        Its power isn't cut: otherwise a damaged last record would look like an unfinished one. Waits a while until the
        node serves, or has given up its life. In that case it may need links to serve.
        """
        if not self.can_lose():
            return
        self.nodes.kill([place])
        if self.nodes.damage(place, op, damage):
            self._may_lose = False
            self._lost.append((place, op, self.nodes.life(place)))
        self.wait(0.1, 0.3)
        asides = self.nodes.asides(place)
        self.nodes.start(self.nodes.down())
        self._wait_for(lambda: place in self.nodes.up() or self.nodes.asides(place) > asides)

    def await_life(self, place: int) -> None:
        """Waits a while until a node gives up the life of its lost disk."""
        before = max((life for lost, _, life in self._lost if lost == place), default=0)
        self._wait_for(lambda: self.nodes.life(place) > before)

    def _wait_for(self, holds: Callable[[], bool]) -> None:
        """Waits a while until a condition holds."""
        for _ in range(int(START_S / LOOK_SOON_S)):
            if holds():
                return
            time.sleep(LOOK_SOON_S)

    def _check_lost(self) -> None:
        """Expects that nodes whose disks were lost have a new life or everything, and show the files kept aside."""
        for place, op, before in self._lost:
            life = self.nodes.life(place)
            if op == "destroy":
                self.log.write(op="expect", what=f"place {place} with an empty disk has a new life", met=life > before)
            elif life > before:
                self.expect(f"place {place} shows what it kept aside", lambda it=place: bool(self.status(it)["aside"]))
        self._lost.clear()

    # ---- what must hold meanwhile

    def expect(self, what: str, holds: Callable[[], bool]) -> bool:
        """Waits until a condition holds, and logs and returns the outcome."""
        until = time.monotonic() + PATIENT_S
        while not holds():
            if time.monotonic() > until:
                self.log.write(op="expect", what=what, met=False)
                return False
            time.sleep(LOOK_S)
        self.log.write(op="expect", what=what, met=True)
        return True

    def status(self, place: int) -> dict:
        """Returns a node's status. If it doesn't respond, returns one of an empty node with a full disk."""
        return self._front.status(place) or {"hints": {"pending": 0}, "aside": [], "full": True}

    def reads(self, place: int) -> bool:
        """Returns true if a node answers gets."""
        gets = (self._front.get(place, key) for key in self.chance.sample(KEYS, READ))
        return all(found.answer.status in (200, 300, 404) for found in gets)

    def dump_alone(self, place: int, file: Path) -> Optional[dict]:
        """Writes a node's dump to a file, as soon as it has one, and returns it, or None after the time limit."""
        until = time.monotonic() + START_S
        while True:
            held = rest.dump_one(self._front, place, file)
            if held is not None or time.monotonic() > until:
                return held
            time.sleep(LOOK_S)

    def sync_neighbours(self, place: int) -> None:
        """Starts a round at the two nodes that hold most ranges of a place, and waits until one has ended."""
        ended = threading.Event()

        def repair(neighbour: int) -> None:
            front = Front(self.nodes.base)
            front.repair(neighbour)
            front.close()
            ended.set()

        for step in (-1, 1):
            neighbour = (place - 1 + step) % len(PLACES) + 1
            threading.Thread(target=repair, args=(neighbour,), daemon=True).start()
        ended.wait(PATIENCE_S)
