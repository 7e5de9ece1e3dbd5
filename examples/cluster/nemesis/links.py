"""Faults of the messages between nodes: some are dropped, some are late and overtake each other, some are repeated.

They are in a file that each node reads, in the module that the nemesis loads in place of the product's
(`erlang/cluster_link.erl`). They are therefore in force for all nodes soon after the file is written, and for nodes
that start later. The module also notes the calls of background work that were made without a slot.
"""

from __future__ import annotations

import os
import subprocess
import time
from collections import Counter
from pathlib import Path
from typing import Dict, Iterable, List, Sequence, Set, Tuple

from .log import Log
from .places import PLACES

#: A link for messages, from a place to another.
Link = Tuple[int, int]

SOURCE = Path(__file__).with_name("erlang") / "cluster_link.erl"

#: Number of threads for files in each node: a slow disk takes some, and a message needs one for the file of its faults.
THREADS = 16

#: Seconds until all nodes have seen a change of the file.
SEEN_S = 0.01


class Links:
    """The faults of all messages. Each change logs all of them."""

    def __init__(self, folder: Path, log: Log) -> None:
        self._folder, self._file, self._log = folder, folder / "links", log
        self._drops: Set[Link] = set()
        self._is_instant = False
        self._slow: Dict[int, int] = {}
        self._late: Dict[Link, Tuple[int, int]] = {}
        self._repeat = 0
        self._limit_ms = 0
        self._write()

    def environment(self) -> Dict[str, str]:
        """Compiles the module, and returns the additions to a node's environment."""
        subprocess.run(["erlc", "-Wall", "-Werror", "-o", str(self._folder), str(SOURCE)], check=True)
        return {
            "NEMESIS_LINKS": str(self._file),
            "NEMESIS_UNSLOTTED": str(self._folder / "unslotted"),
            "CLUSTER_FLAGS": f"-pa {self._folder} +SDio {THREADS}",
        }

    def partition(self, drops: Iterable[Link], is_instant: bool = False) -> None:
        """Drops messages of these links, in addition to the dropped ones.

        A call then waits for its limit, or fails at once.
        """
        self._drops.update(drops)
        self._is_instant = is_instant
        self._change()

    def slow(self, place: int, delay_ms: int) -> None:
        """Delays each message that a node sends by the same time."""
        self._slow[place] = delay_ms
        self._change()

    def late(self, links: Iterable[Link], least_ms: int, most_ms: int) -> None:
        """Delays each message of these links by a random time, mostly near the least."""
        self._late.update((link, (least_ms, most_ms)) for link in links)
        self._change()

    def repeat(self, per_mille: int) -> None:
        """Serves this many of 1,000 calls twice, the second time up to a second later."""
        self._repeat = per_mille
        self._change()

    def limit(self, least_ms: int) -> None:
        """Gives each call at least this time from now on. This is no fault: `heal` leaves it."""
        self._limit_ms = least_ms
        self._write()

    def heal(self) -> None:
        """Ends all faults."""
        if self._drops or self._slow or self._late or self._repeat:
            self._drops.clear()
            self._slow.clear()
            self._late.clear()
            self._repeat, self._is_instant = 0, False
            self._change()

    def unslotted(self) -> Dict[Tuple[int, str], int]:
        """Returns the numbers of calls that were made without a slot, by place and function."""
        counts: Dict[Tuple[int, str], int] = {}
        for place in PLACES:
            noted = self._folder / f"unslotted-{place}"
            for what, count in Counter(noted.read_text().split() if noted.exists() else ()).items():
                counts[place, what] = count
        return counts

    def _change(self) -> None:
        """Logs all faults, and puts them in force."""
        late = sorted([*link, *times] for link, times in self._late.items())
        drops, slow = sorted(self._drops), {str(place): delay_ms for place, delay_ms in sorted(self._slow.items())}
        self._log.write(op="links", drop=drops, instant=self._is_instant, late=late, repeat=self._repeat, slow=slow)
        self._write()
        time.sleep(SEEN_S)

    def _write(self) -> None:
        slow = {link: (delay, delay) for place, delay in self._slow.items() for link in one_way([place])}
        late = {**slow, **self._late}
        lines = [f"drop {source} {target}" for source, target in sorted(self._drops)]
        lines += [f"late {source} {target} {least} {most}" for (source, target), (least, most) in sorted(late.items())]
        lines += [f"repeat {self._repeat}"] if self._repeat else []
        lines += [f"limit {self._limit_ms}"] if self._limit_ms else []
        lines += ["instant"] if self._is_instant else []
        new = self._file.with_suffix(".new")
        new.write_text("".join(f"{line}\n" for line in lines))
        os.replace(new, self._file)


def between(one: Iterable[int], other: Iterable[int]) -> List[Link]:
    """Returns the links between two sides."""
    others = list(other)
    return [link for a in one for b in others for link in ((a, b), (b, a))]


def halves(side: Sequence[int]) -> List[Link]:
    """Returns the links between a side and all other places."""
    return between(side, [place for place in PLACES if place not in side])


def one_way(side: Sequence[int]) -> List[Link]:
    """Returns the links over which the other places hear a side. Without them, the side still hears the others."""
    return [(a, b) for a in side for b in PLACES if b not in side]


def bridge(side: Sequence[int], middle: int) -> List[Link]:
    """Returns the links to drop so that two sides reach each other only over one place."""
    return between(side, [place for place in PLACES if place not in side and place != middle])


def everywhere() -> List[Link]:
    """Returns all links."""
    return [(a, b) for a in PLACES for b in PLACES if a != b]
