#!/usr/bin/env python3
"""Measures the calls of the package that one thread makes, for bench/bindings.

The arguments are the number of keys, 100000 by default, and the format, 1 by default. Keys and values equal those in
bench/puts_gets.c, and are prepared first. Of the results only the receipts of `put_many` are kept, since a list of all
versions would cost more than the gets. Prints a line of JSON: calls per second of elapsed time, and the processor time
of a call in nanoseconds.
"""

import json
import sys
import time
from typing import Any, Callable, Dict

from antientropy import Replica


def main() -> None:
    """Put the keys, one by one and by one `put_many`, and get each."""
    count = int(sys.argv[1]) if len(sys.argv) > 1 else 100_000
    tree_format = int(sys.argv[2]) if len(sys.argv) > 2 else 1
    items = [(b"key-%06d" % n, n.to_bytes(8, "big") * 4) for n in range(count)]
    figures: Dict[str, int] = {"keys": count}

    def measure(rate: str, nanoseconds: str, call: Callable[[], Any]) -> None:
        start, before = time.perf_counter(), time.process_time_ns()
        call()
        used, took = time.process_time_ns() - before, time.perf_counter() - start
        figures[rate] = round(count / took)
        figures[nanoseconds] = round(used / count)

    with Replica(tree_format) as replica:

        def puts() -> None:
            for key, value in items:
                replica.put(1, key, value)

        def each(read: Callable[[bytes], Any]) -> None:
            for key, _ in items:
                read(key)

        measure("puts_per_s", "put_ns", puts)
        measure("gets_per_s", "get_ns", lambda: each(replica.get))
        measure("rows_per_s", "row_ns", lambda: each(replica.row))
        assert replica.get(items[-1][0])[0].value == items[-1][1]
    with Replica(tree_format) as replica:
        measure("put_many_per_s", "put_many_ns", lambda: replica.put_many(1, items))
        assert replica.count().entries == count
    print(json.dumps(figures, separators=(",", ":")))


main()
