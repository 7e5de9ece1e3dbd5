#!/usr/bin/env python3
"""An outage and its repair: two replicas accept writes separately, sync, and merge the key that both wrote."""

from antientropy import Replica, Synced, merge

A, B = 1, 2


def sync(replica: Replica, partner: Replica, node: int) -> Synced:
    """Sync from the partner. Its snapshot is called directly here; in production the messages travel over a network."""
    with partner.snapshot() as snapshot:
        return replica.sync(node, snapshot.offer(1), lambda asks: [snapshot.serve(1, ask) for ask in asks])


def count(number: int) -> str:
    """Format a number of versions."""
    return f"{number} version" if number == 1 else f"{number} versions"


def equal(a: Replica, b: Replica) -> str:
    """Return "yes" if the roots are equal."""
    return "yes" if a.root() == b.root() else "no"


def values(replica: Replica, key: bytes) -> str:
    """Return the values of a key."""
    return " | ".join(version.value.decode() for version in replica.get(key) if version.value is not None)


def main() -> None:
    """Run the example."""
    with Replica() as a, Replica() as b:
        a.put(A, b"order", b"paid")
        sync(b, a, A)
        a.put(A, b"cart", b"milk")
        a.put(A, b"gift", b"wrapped")
        b.put(B, b"cart", b"eggs")
        print(f"a has {len(list(a.keys()))} keys, b has {len(list(b.keys()))}")
        print("roots equal:", equal(a, b))
        print("b took", count(sync(b, a, A).accepted))
        print("a took", count(sync(a, b, B).accepted))
        if values(a, b"cart") == values(b, b"cart"):
            print("cart at both:", values(a, b"cart"))
        context = merge(*(version.clock for version in a.get(b"cart")))
        a.put(A, b"cart", b"milk, eggs", context)
        sync(b, a, A)
        print("merged:", values(b, b"cart"))
        print("roots equal:", equal(a, b))


main()
