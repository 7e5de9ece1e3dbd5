#!/usr/bin/env python3
"""Measures the number of journal entries that one thread reads per second of processor time.

The argument is the number of entries, 200000 by default. Each is the put of another key: keys have 10 bytes, values 32,
and clocks one pair. Prints a line of JSON: the best of five runs.
"""

import json
import sys
import time
from typing import Any, Callable

from antientropy import Replica

RUNS = 5


def measure(count: int, call: Callable[[], Any]) -> int:
    """Return the entries per second of a function that reads `count` of them."""
    best = 0.0
    for _ in range(RUNS):
        start = time.process_time()
        call()
        best = max(best, count / (time.process_time() - start))
    return round(best)


def read_all(replica: Replica) -> int:
    """Read each entry as an object. Return their number."""
    count = 0
    for _ in replica.entries():
        count += 1
    return count


def read_packed(replica: Replica) -> int:
    """Read all entries as bytes. Return the number after the last one."""
    packed = replica.packed_entries()
    while packed.data:
        packed = replica.packed_entries(packed.next)
    return packed.next


def main() -> None:
    """Put the keys, and read their entries as objects and as bytes."""
    count = int(sys.argv[1]) if len(sys.argv) > 1 else 200_000
    with Replica() as replica:
        replica.put_many(1, ((b"key-%06d" % n, n.to_bytes(8, "big") * 4) for n in range(count)))
        assert read_all(replica) == read_packed(replica) == count
        figures = {
            "entries": count,
            "entries_per_s": measure(count, lambda: read_all(replica)),
            "packed_entries_per_s": measure(count, lambda: read_packed(replica)),
        }
    print(json.dumps(figures, separators=(",", ":")))


main()
