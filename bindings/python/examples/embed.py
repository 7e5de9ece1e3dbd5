#!/usr/bin/env python3
"""Two processes with a replica each and a socket pair between them, over the C library.

One keeps writing while the other syncs from its offer; then both have equal roots. The argument is the folder that
./build-c made, crates/antientropy_c/out by default.
"""

import os
import socket
import struct
import sys
from pathlib import Path
from typing import Callable, List

PACKAGE = Path(__file__).resolve().parents[1]
sys.path.insert(0, str(PACKAGE))

from antientropy import Receipt, Replica, load_library  # noqa: E402  pylint: disable=wrong-import-position

FOLDER = Path(sys.argv[1]) if len(sys.argv) > 1 else PACKAGE.parents[1] / "crates/antientropy_c/out"
KEYS, LACKED, LATE, OFFERS = 2000, 40, 100, 2
DONE = b"done"


def send(link: socket.socket, message: bytes) -> None:
    """Send a message with its length."""
    link.sendall(struct.pack(">I", len(message)) + message)


def receive(link: socket.socket) -> bytes:
    """Return the next message."""
    length = struct.unpack(">I", link.recv(4, socket.MSG_WAITALL))[0]
    return link.recv(length, socket.MSG_WAITALL)


def reach_over(link: socket.socket) -> Callable[[List[bytes]], List[bytes]]:
    """Return a function that sends asks to the partner over the socket, and returns its answers."""

    def reach(asks: List[bytes]) -> List[bytes]:
        for ask in asks:
            send(link, ask)
        return [receive(link) for _ in asks]

    return reach


def offer(
    link: socket.socket, replica: Replica, number: int, write: Callable[[], None] = lambda: None
) -> bytes:
    """Offer the rows of a replica, answer asks until the partner is done, and return its last message.

    It writes alongside each answer.
    """
    with replica.snapshot() as snapshot:
        send(link, snapshot.offer(number))
        while not (message := receive(link)).startswith(DONE):
            write()
            send(link, snapshot.serve(number, message))
    return message


def follow(link: socket.socket) -> None:
    """Sync from the other process, and offer the rows at the end."""
    with Replica(limit=100_000) as replica:
        for n in range(0, KEYS, 2):
            if n % LACKED:
                replica.put(2, b"key %d" % n, b"of the follower")
        for _ in range(OFFERS):
            synced = replica.sync(1, receive(link), reach_over(link))
            send(link, DONE + b" %d" % synced.accepted)
        offer(link, replica, 1)
        send(link, replica.root())


def lead(link: socket.socket) -> None:
    """Keep writing while the other process syncs, and sync from it at the end."""
    written: List[Receipt] = []

    def write() -> None:
        if len(written) < LATE:
            written.append(replica.put(1, b"late %d" % len(written), b"written meanwhile"))

    with Replica(limit=100_000) as replica:
        for n in range(KEYS):
            replica.put(1, b"key %d" % n, b"of the leader")
        for number in range(1, OFFERS + 1):
            accepted = offer(link, replica, number, write).decode().split()[1]
            print(f"offer {number}: {accepted} versions accepted, {len(written)} written meanwhile")
        synced = replica.sync(2, receive(link), reach_over(link))
        send(link, DONE)
        print(f"the other way: {synced.accepted} versions accepted")
        print("roots equal:", "yes" if replica.root() == receive(link) else "no")


def main() -> None:
    """Lead in this process, and follow in a child."""
    load_library(FOLDER / "libantientropy.so")
    ours, theirs = socket.socketpair()
    child = os.fork()
    if child == 0:
        ours.close()
        follow(theirs)
        os._exit(0)
    theirs.close()
    lead(ours)
    ours.close()
    if os.waitpid(child, 0)[1] != 0:
        raise SystemExit("the other process failed")


main()
