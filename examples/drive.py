#!/usr/bin/env python3
"""Drives the program from Python: starts it, sends a command, and waits for the answer (docs/SCRIPTS.md).

    with Cluster() as c:
        c.ring(copies=2, nodes=[1, 2])
        c.put(1, b"cart", b"milk")
        c.do("down", node=2)

Keys and values are bytes; the value None is a tombstone (format 2). A refused command raises Refused. As a program it
takes the path of the built program, and prints a small outage and its repair.
"""
import json
import os
import subprocess
import sys
from collections import namedtuple

PROGRAM = os.path.join(os.path.dirname(os.path.abspath(__file__)), "../crates/antientropy/out/antientropy")
Version = namedtuple("Version", "clock value")


class Refused(Exception):
    """A refused command: its cause and number, the clocks that a stale put shows (held), and the whole answer."""

    def __init__(self, answer):
        super().__init__(f"{answer['cause']} ({answer['refused']})")
        self.cause, self.number, self.answer = answer["cause"], answer["refused"], answer
        self.held = answer.get("held", [])


def merge(clocks):
    """Returns the clock that has for each node the greatest counter of these clocks."""
    merged = {}
    for node, counter in (pair for clock in clocks for pair in clock):
        merged[node] = max(counter, merged.get(node, 0))
    return [list(pair) for pair in sorted(merged.items())]


class Cluster:
    """The cluster of a running program. `do` sends any command and returns its answer; other methods are shorter."""

    def __init__(self, program=PROGRAM):
        self.sides = (set(), set())
        self.program = subprocess.Popen([program, "run"], stdin=subprocess.PIPE, stdout=subprocess.PIPE, text=True)

    def __enter__(self):
        return self

    def __exit__(self, *error):
        self.program.communicate()

    def do(self, command, **members):
        self.program.stdin.write(json.dumps({command: members}) + "\n")
        self.program.stdin.flush()
        line = self.program.stdout.readline()
        if not line:
            raise RuntimeError(f"the program has ended with status {self.program.wait()}")
        answer = json.loads(line)
        if "refused" in answer:
            raise Refused(answer)
        return answer

    def ring(self, copies, nodes, bits=0, **more):
        return self.do("ring", bits=bits, copies=copies, nodes=nodes, **more)

    def partition(self, a=(), b=()):
        """From now on puts at nodes of one set send nothing to the other set. Deliveries and syncs aren't affected."""
        self.sides = (set(a), set(b))

    def put(self, node, key, value, context=()):
        a, b = self.sides
        lose = sorted((b if node in a else set()) | (a if node in b else set()))
        value = None if value is None else value.hex()
        return self.do("put", node=node, key=key.hex(), context=list(context), value=value, lose=lose)

    def get(self, node, key):
        """Returns the versions that the node holds."""
        found = self.do("get", node=node, key=key.hex())["versions"]
        return [Version(it["clock"], None if it["value"] is None else bytes.fromhex(it["value"])) for it in found]

    def sync(self, node, partner, range=0):
        """Rehashes both replicas, and then syncs that of `node` from that of `partner`."""
        for one in (node, partner):
            self.do("rehash", node=one, range=range)
        return self.do("sync", node=node, range=range, **{"from": partner})


def main():
    with Cluster(*sys.argv[1:]) as c:
        c.ring(copies=2, nodes=[1, 2])
        first = c.put(1, b"cart", b"milk")
        print(f"both nodes hold milk: clock {first['clock']}, {first['copied']} copy")
        c.partition({1}, {2})
        c.put(1, b"cart", b"milk, bread", first["clock"])
        c.put(2, b"cart", b"milk, eggs", first["clock"])
        print("during a partition node 1 holds bread, node 2 eggs")
        try:
            c.put(1, b"cart", b"nothing")
        except Refused as refused:
            print(f"a put without a read: {refused}, held {refused.held}")
        c.partition()
        for node, partner in ((1, 2), (2, 1)):
            print(f"node {node} syncs: {c.sync(node, partner)['accepted']} accepted")
        found = c.get(1, b"cart")
        for clock, value in found:
            print(f"node 1 holds {value.decode()}: clock {clock}")
        merged = c.put(1, b"cart", b"milk, bread, eggs", merge(version.clock for version in found))
        print(f"merged: clock {merged['clock']}")
        print(f"node 2 holds {[version.value.decode() for version in c.get(2, b'cart')]}")


if __name__ == "__main__":
    main()
