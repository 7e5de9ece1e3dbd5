#!/usr/bin/env python3
"""A sync in asyncio: asks are concurrent coroutines, and a late answer is asked for again."""

import asyncio
from typing import Awaitable, Callable

from antientropy import Progress, Replica

TIMEOUT = 1.0


async def sync(replica: Replica, node: int, offer: bytes, reply_to: Callable[[bytes], Awaitable[bytes]]) -> Progress:
    """Take the versions that a replica is missing from an offer. `reply_to` awaits the partner's reply to an ask."""
    with await asyncio.to_thread(replica.exchange, node, offer) as exchange:

        async def take(ask: bytes) -> None:
            try:
                exchange.take(await asyncio.wait_for(reply_to(ask), TIMEOUT))
            except (OSError, asyncio.TimeoutError):
                exchange.lose(ask)

        while asks := exchange.asks():
            await asyncio.gather(*map(take, asks))
        return exchange.progress()


async def main() -> None:
    """Sync two replicas over a link that loses each fifth message."""
    with Replica() as a, Replica() as b:
        a.put_many(1, [(b"key %d" % n, b"value") for n in range(100)])
        asked = 0
        with await asyncio.to_thread(a.snapshot) as snapshot:

            async def reply_to(ask: bytes) -> bytes:
                nonlocal asked
                asked += 1
                await asyncio.sleep(0.001)
                if asked % 5 == 0:
                    raise ConnectionResetError
                return snapshot.serve(1, ask)

            progress = await sync(b, 1, snapshot.offer(1), reply_to)
        print(f"{progress.report.name}: {progress.accepted} versions accepted, {progress.lost} asks lost")
        print("roots equal:", "yes" if a.root() == b.root() else "no")


asyncio.run(main())
