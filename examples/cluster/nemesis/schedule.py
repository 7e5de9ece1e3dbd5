"""The episodes of the nemesis, in an order that a seed chooses."""

from __future__ import annotations

import random
import time
from concurrent.futures import ThreadPoolExecutor
from pathlib import Path
from typing import Callable, Iterator, List, Optional, Sequence

from . import damage, links, rest
from .caller import BLIND
from .clients import Clients
from .crowd import KEYS
from .deeds import Deeds
from .log import Log
from .modes import Mode
from .nodes import Nodes
from .places import PLACES
from .probes import Probes

#: Delay of each sync on the slowest disk, in milliseconds: a call between nodes may take 500.
SLOWEST_DISK_MS = 400

#: Number of puts of a key, one over the other, while others read it, and the delay of each sync meanwhile in
#: milliseconds. A place that takes 500 for an answer, or even less on a busy machine, isn't asked any more.
SPREAD, SPREAD_DISK_MS = 3, 250

#: Maximum number of bytes that a disk takes before it's full.
MOST_ROOM = 20_000


Episode = Callable[[], None]


class Nemesis(Deeds):
    """Breaks a cluster while its clients work, in one episode after another.

    The faults of an episode last until they are healed before the next one. Power cuts undo no synced change, so they
    may hit all nodes at once.
    """

    def __init__(
        self, seed: int, nodes: Nodes, clients: Clients, log: Log, room: Path, logs: Path, mode: Mode
    ) -> None:
        super().__init__(seed, nodes, clients, log)
        self._old_disk, self._logs, self._mode = room / "old", logs, mode
        self._held_alone = 0

    def run(self, seconds: float) -> None:
        """Runs episodes for this time, and then ends all faults."""
        self.set_end(seconds)
        self.clients.work()
        self._calm()
        for episode in self._episodes():
            if self.is_over() or not self.has_healed:
                break
            self.log.write(op="episode", name=episode.__name__.strip("_"))
            episode()
            self.heal()
        self.clients.rest()
        is_secret = not self.nodes.have_printed(damage.VALUE)
        self.log.write(op="expect", what="no node prints a value of a client", met=is_secret)
        self.log.write(op="quiet")

    def _episodes(self) -> Iterator[Episode]:
        """Returns an endless sequence of episodes: each kind that the mode has, in turn."""
        of_messages: List[Episode] = [self._halves, self._one_way, self._bridge, self._flapping, self._flaky]
        of_messages += [self._slow, self._pause, self._silence, self._skew, self._contention, self._calm]
        of_kills: List[Episode] = [self._kill, self._held]
        of_losses: List[Episode] = [self._destroy, self._carriers]
        if self.nodes.powers:
            of_kills += [self._power_cut, self._power_cut, self._recovery, self._forget, self._spread]
            of_kills += [self._spread]
            of_losses += [self._flipped, self._flipped, self._missing, self._missing, self._damage, self._old]
            of_losses += [self._full, self._failed_sync, self._hints]
        kinds = [self._in_rounds(of_messages)]
        if self._mode.has_kills:
            kinds.append(self._in_rounds(of_kills))
        if self._mode.has_losses:
            kinds.append(self._in_rounds(of_losses))
        while True:
            for kind in kinds:
                yield next(kind)

    def _in_rounds(self, episodes: Sequence[Episode]) -> Iterator[Episode]:
        """Returns an endless sequence of episodes: all of them in a random order, then all in another order."""
        while True:
            yield from self.chance.sample(episodes, len(episodes))

    # ---- messages and processes

    def _halves(self) -> None:
        self.cut_off(links.halves(self.some(2)))
        self._meanwhile()

    def _one_way(self) -> None:
        self.cut_off(links.one_way(self.some(self.chance.choice((1, 2)))))
        self._meanwhile()

    def _bridge(self) -> None:
        *side, middle = self.some(3)
        self.cut_off(links.bridge(side, middle))
        self._meanwhile()

    def _flapping(self) -> None:
        """Cuts places off again and again, so that the work after their return, like a hand-off, often fails."""
        side = links.halves(self.some(self.chance.choice((1, 2))))
        for _ in range(self.chance.randint(3, 6)):
            self.cut_off(side)
            self.wait(0.3, 1.5)
            self.links.heal()
            self.wait(0.1, 0.6)

    def _flaky(self) -> None:
        """Has links whose messages are late and overtake each other, and calls that are served twice.

        Some are served long after their callers have given up.
        """
        late = self.chance.choice((links.everywhere(), links.halves(self.some(2)), links.one_way(self.some(1))))
        self.links.late(late, 0, self.chance.choice((50, 500, 2000)))
        self.links.repeat(self.chance.choice((0, 50, 300)))
        self.wait(1.0, 3.0)
        self._meanwhile()

    def _pause(self) -> None:
        """Pauses a node, so that its answers are late."""
        (place,) = self.some_up(1)
        self.nodes.pause(place)
        self.wait(1.0, 4.0)
        self.nodes.resume(place)
        self.wait(0.5, 1.5)

    def _silence(self) -> None:
        """Pauses one node or two for long enough that the others notice."""
        places = self.some_up(self.chance.choice((1, 2)))
        for place in places:
            self.nodes.pause(place)
        self.wait(5.0, 9.0)
        for place in places:
            self.nodes.resume(place)
        self.wait(0.5, 1.5)

    def _kill(self) -> None:
        """Kills one node or two, often while a slow disk makes entries of a few keys wait."""
        places = self.some_up(self.chance.choice((1, 1, 2)))
        self.strain(places)
        self.nodes.kill(places)
        self.relieve()
        self.wait(0.1, 1.0)
        self.restart()
        self.wait(0.5, 1.0)

    def _slow(self) -> None:
        """Has a slow node, or one with a slow disk."""
        place = self.chance.choice(PLACES)
        if self.chance.random() < 0.5 or not self._mode.has_kills:
            self.links.slow(place, self.chance.choice((20, 100, 200)))
        else:
            self.slow_disk(place, self.chance.choice((20, 100, 300)))
        self.wait(2.0, 4.0)

    def _skew(self) -> None:
        """Has clients that all want a few keys, mostly at one or two places."""
        self.clients.skew(self.chance.sample(KEYS, 3), self.some(self.chance.choice((1, 2))))
        self._meanwhile()

    def _contention(self) -> None:
        """Has clients that all read and put one key, everywhere, as fast as they can."""
        self.clients.skew(self.chance.sample(KEYS, 1))
        self.wait(2.0, 4.0)

    def _calm(self) -> None:
        """Has no fault, so that every refusal would be wrong."""
        self.wait(4.0, 5.0)

    def _meanwhile(self) -> None:
        """Makes a fault last for a while, and sometimes adds a pause or a kill."""
        self.wait(1.0, 2.5)
        other = self.chance.choice((None, None, self._pause, self._kill if self._mode.has_kills else None))
        if other is not None:
            other()
        self.wait(0.5, 1.5)

    def _held(self) -> None:
        """Kills a node or cuts its power, starts it cut off from all others, and logs its rows."""
        place = self.chance.choice(PLACES)
        self.strain([place])
        since = self.log.now()
        self.stop([place])
        self.relieve()
        self.cut_off(links.halves([place]), is_instant=True)
        self.restart()
        self._held_alone += 1
        file = f"held-{self._held_alone}.log"
        held = self.dump_alone(place, self._logs / file)
        if held is not None:
            self.log.write(op="held", place=place, life=held["life"], since=since, file=file)

    # ---- power

    def _power_cut(self) -> None:
        """Cuts the power of one node, of two or of all, often while slow syncs make entries wait."""
        places = self.some(self.chance.choice((1, 1, 2, 5)))
        self.strain(places)
        self.nodes.cut(places, self.chance)
        self.relieve()
        self.wait(0.1, 0.5)
        self.restart()
        self.wait(0.5, 1.0)

    def _recovery(self) -> None:
        """Kills nodes again and again in the first second of their start."""
        places = self.some(self.chance.choice((1, 2, 5)))
        self.stop(places)
        for _ in range(self.chance.randint(2, 4)):
            self.nodes.start(places)
            time.sleep(self.chance.uniform(0.1, 1.0))
            self.stop(places)
        self.restart()
        self.wait(0.3, 1.0)

    def _forget(self) -> None:
        """Cuts the power of a node whose slow disk makes puts wait, just after others have synced with it."""
        place = self.chance.choice(PLACES)

        def others_sync(probes: Probes, pool: ThreadPoolExecutor) -> None:
            probes.put_in(pool)
            self.wait(0.05, 0.15)
            self.sync_neighbours(place)

        self._forget_after(place, SLOWEST_DISK_MS, others_sync)

    def _spread(self) -> None:
        """Cuts the power of a node whose slow disk makes puts wait, while others read these keys from it."""

        def others_read(probes: Probes, pool: ThreadPoolExecutor) -> None:
            seconds = self.chance.uniform(0.3, 0.9)
            probes.put_in(pool, SPREAD)
            probes.read_in(pool, self.clients.readers, seconds)
            time.sleep(seconds)

        self._forget_after(self.chance.choice(PLACES), SPREAD_DISK_MS, others_read)

    def _forget_after(self, place: int, delay_ms: int, others: Callable[[Probes, ThreadPoolExecutor], None]) -> None:
        """Cuts the power of a node whose slow disk makes puts wait, after a deed of the others.

        It starts cut off, so no other node reports its loss. If it gave away versions that weren't on its disk, it uses
        a clock for a second value, and all nodes are asked for both.
        """
        callers = self.clients.directed
        self.clients.rest()
        probes = Probes(callers, place, self.chance)
        self.slow_disk(place, delay_ms)
        with ThreadPoolExecutor(len(callers) + len(self.clients.readers)) as pool:
            others(probes, pool)
            self.nodes.cut([place], self.chance)
        self.relieve()
        self.cut_off(links.halves([place]), is_instant=True)
        self.restart()
        probes.put_again()
        self.links.heal()
        probes.look()

    # ---- lost and damaged disks

    def _destroy(self) -> None:
        """Empties a disk, sometimes during a partition."""
        if self.chance.random() < 0.5:
            self.cut_off(links.halves(self.some(2)))
            self.wait(0.5, 2.0)
        self.lose(self.chance.choice(PLACES), "destroy", damage.empty)
        self.wait(1.0, 2.0)

    def _carriers(self) -> None:
        """Leaves puts only at one replica and at carriers. Then carriers restart, and the replica's disk is lost."""
        place = self.chance.choice(PLACES[:-1])
        others = [(place + step - 1) % len(PLACES) + 1 for step in (1, 2)]
        carriers = [it for it in PLACES if it != place and it not in others]
        self.cut_off(links.between([place, *carriers], others))
        self.wait(1.5, 3.0)
        self.stop(carriers)
        self.restart()
        self.lose(place, "destroy", damage.empty)
        self.wait(0.3, 1.0)

    def _damage(self) -> None:
        """Flips a bit on a node's disk, or removes a file or a folder."""
        deed, name = self.chance.choice(
            (
                (damage.flip, ""),
                (damage.flip, "log"),
                (damage.flip, "checkpoint"),
                (damage.remove, ""),
                (damage.remove, "log"),
                (damage.remove, "checkpoint"),
                (damage.remove_folder, ""),
            )
        )
        self.lose(self.chance.choice(PLACES), "damage", lambda disk: deed(disk, self.chance, name))
        self.wait(0.5, 1.5)

    def _flipped(self) -> None:
        self._alone(damage.flip_each)

    def _missing(self) -> None:
        self._alone(damage.remove_each)

    def _alone(self, deed: Callable[[Path, random.Random, str], Optional[str]]) -> None:
        """Damages all logs of a node, starts it cut off, so that no other node reports its loss, and asks it to put.

        Its last puts are in the logs, and it mustn't use their clocks again.
        """
        if not self.can_lose():
            return
        place = self.chance.choice(PLACES)
        self.clients.rest()
        probes = Probes(self.clients.directed, place, self.chance)
        probes.put()
        self.clients.work()
        self.cut_off(links.halves([place]), is_instant=True)
        self.lose(place, "damage", lambda disk: deed(disk, self.chance, "log."))
        probes.put_again()
        self.links.heal()
        probes.put_on()
        probes.look()

    def _old(self) -> None:
        """Puts an old disk back, and asks its node at once to repeat the puts that it made since.

        Its node may start cut off. Then nobody asks it for anything until it has links again. The cluster is at rest
        when the node ends, since nobody can miss a version that no other disk has yet.
        """
        if not self.can_lose():
            return
        place = self.chance.choice(PLACES)
        self.clients.rest()
        self.nodes.cut([place], self.chance)
        self.nodes.damage(place, "copy", lambda disk: damage.copy(disk, self._old_disk))
        self.restart()
        self.clients.work()
        self.wait(1.0, 3.0)
        self.clients.rest()
        probes = Probes(self.clients.directed, place, self.chance)
        probes.put()
        self.come_to_rest()
        if self.chance.random() < 0.7:
            self.cut_off(links.halves([place]), is_instant=True)
        self.lose(place, "old", lambda disk: damage.put_back(self._old_disk, disk))
        self.links.heal()
        probes.put_again()
        self.await_life(place)
        probes.look()

    def _hints(self) -> None:
        """Cuts a node off until others have hints for it, and damages the last hints of one of them."""
        owner = self.chance.choice(PLACES)
        self.cut_off(links.halves([owner]))
        self.wait(1.5, 3.0)
        pending = {place: self.status(place)["hints"]["pending"] for place in PLACES if place != owner}
        carrier = max(sorted(pending), key=pending.__getitem__)
        self.lose(carrier, "damage", lambda disk: damage.flip_values(disk, self.chance, "hints/log."))
        self.wait(0.3, 1.0)

    # ---- full and failing disks

    def _full(self) -> None:
        """Fills the disks of some nodes. They still serve gets, also start, and take puts once there is space."""
        places = self.some(self.chance.choice((1, 1, 2, 3)))
        for place in places:
            room = self.chance.choice((0, self.chance.randrange(MOST_ROOM)))
            self.log.write(op="full", place=place, room=room)
            self.nodes.powers[place].fill(room)
        self.wait(1.0, 3.0)
        if self.chance.random() < 0.5:
            self.stop(places[:1])
            self.restart()
        for place in places:
            self.expect(f"the full place {place} answers gets", lambda it=place: self.reads(it))
        for place in places:
            refused = self.nodes.powers[place].counts().refused
            self.nodes.powers[place].heal()
            self.log.write(op="free", place=place, refused=refused)
        for place in places:
            if self.expect(f"place {place} takes puts after there is room", lambda it=place: self._writes(it)):
                self.log.write(op="room", place=place)

    def _writes(self, place: int) -> bool:
        """Returns true if a node takes a put, or refuses a stale one."""
        status, _ = self.clients.directed[0].put(place, self.chance.choice(KEYS), BLIND)
        return status in (200, 409) and not self.status(place)["full"]

    def _failed_sync(self) -> None:
        """Makes a sync of a node fail, which ends it. Sometimes its power is cut as well."""
        place = self.chance.choice(PLACES)
        self.log.write(op="failing", place=place)
        self.nodes.powers[place].fail_syncs(self.chance.choice((1, -1)))
        self.expect(f"place {place} ends after a failed sync", lambda: place in self.nodes.down())
        if self.chance.random() < 0.5:
            self.nodes.cut([place], self.chance)
        self.relieve()
        self.restart()
        self.wait(0.5, 1.0)
