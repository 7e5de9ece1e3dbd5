"""A whole host: two nodes, each a process with a replica of the same range.

A node syncs its log before it replies, starts from its checkpoint and log, keeps hints while its partner is down, and
syncs from it under a deadline. `python3 host.py` starts both nodes, writes to them, kills node 2 by SIGKILL and starts
it again. It ends when the roots are equal, and counts the acknowledged writes that are lost. docs/EMBEDDING_C.md,
"Restarts", has further checks of a damaged log.
"""

import contextlib
import fcntl
import io
import itertools
import json
import os
import signal
import socket
import socketserver
import struct
import subprocess
import sys
import tempfile
import threading
import time
import traceback
import zlib
from typing import Any, BinaryIO, Callable, Dict, Iterator, List, Optional, Tuple

from antientropy import AntientropyError, BadPositionError, Bounds, Exchange, Hints, Replica, merge, unpack_entries

RECORDS_MAX = 60                # records of a log: then a checkpoint begins a new one
HINTS_MAX = 40                  # pending hints: a sync delivers further versions
PERIOD = 0.05                   # seconds between syncs
PATIENCE = 0.1                  # seconds for each answer of a sync, which continues in the next period
BOUNDS = Bounds(asks=16)        # the asks fit in the buffer of a link
SCRIPT = os.path.abspath(__file__)
HEAD = struct.Struct(">QII")    # a record's place among all that were ever logged, its length, and a checksum


class Refused(Exception):
    """A refusal by another node."""


def encode(message: object) -> bytes:
    """Return a message as a line of JSON, with its bytes in hexadecimal."""
    return json.dumps(message, default=lambda data: {"hex": data.hex()}).encode() + b"\n"


def decode(line: bytes) -> Any:
    """Return the message of a line."""
    return json.loads(line, object_hook=lambda fields: bytes.fromhex(fields["hex"]))


def path(node: int, name: str) -> str:
    """Return the path of a file of a node."""
    return f"{node}.{name}"


@contextlib.contextmanager
def connect(node: int, patience: float) -> Iterator[io.BufferedRWPair]:
    """Connect to a node. The link raises an OSError when it gives up."""
    with socket.socket(socket.AF_UNIX) as link:
        link.settimeout(patience)
        link.connect(path(node, "socket"))
        with link.makefile("rwb") as file:
            yield file


def receive(link: io.BufferedRWPair) -> Any:
    """Return the result of a call."""
    line = link.readline(1 << 26)
    if not line.endswith(b"\n"):
        raise ConnectionError("the link is lost")
    result, cause = decode(line)
    if cause:
        raise Refused(cause)
    return result


def call(node: int, *message: object) -> Any:
    """Make one call of a node."""
    with connect(node, 100 * PATIENCE) as link:
        link.write(encode(message))
        link.flush()
        return receive(link)


def checksum(place: int, data: bytes) -> int:
    """Return the checksum of a record."""
    return zlib.crc32(data, zlib.crc32(place.to_bytes(8, "big")))


def read_records(log: BinaryIO) -> Iterator[Tuple[int, bytes]]:
    """Yield the place and the data of the records, up to the first one that isn't whole."""
    while len(head := log.read(HEAD.size)) == HEAD.size:
        place, length, expected = HEAD.unpack(head)
        data = log.read(length)
        if len(data) < length or checksum(place, data) != expected:
            break
        yield place, data


def take_answers(exchange: Exchange, link: io.BufferedRWPair) -> bool:
    """Send the asks, and take the answers. Return False if one is late: its ask is lost, and asked again later."""
    while asks := exchange.asks():
        try:
            link.write(b"".join(encode(["serve", ask]) for ask in asks))
            link.flush()
            while asks:
                exchange.take(receive(link))
                del asks[0]
        except OSError:
            for ask in asks:
                exchange.lose(ask)
            return False
    return True


class Node:
    """A node: its replica, its log and its hints."""

    def __init__(self, node: int, first: bool) -> None:
        self.node = node
        self.partner = 3 - node
        self.hints = Hints()                # in memory: a sync delivers the versions of lost ones
        self.exchange: Optional[Exchange] = None    # in progress
        self.late = 0                       # deadlines that passed before a sync ended
        self.lock = threading.Lock()        # guards the log
        self.log: BinaryIO = io.BytesIO()
        self.place = 0                      # of the next record
        self.records = 0                    # in the log
        self.position = 0                   # of the next entry to log
        # Has the place that the synced records reach. Only a first start may find no files of the node.
        self.synced = os.open(path(node, "synced"), os.O_RDWR | (os.O_CREAT | os.O_EXCL if first else 0))
        fcntl.flock(self.synced, fcntl.LOCK_EX | fcntl.LOCK_NB)     # no other process is this node
        self.replica = Replica(renew=True) if first else self.load()
        self.checkpoint()                   # syncs all that was loaded
        self.offered = self.replica.snapshot()
        self.delay = 0.0
        while self.pull():                  # before the first put, if the partner can be reached
            pass

    def reply(self, line: bytes) -> bytes:
        """Make a call, and return its reply. All versions in it are on the disk."""
        name, *arguments = decode(line)
        calls: Dict[str, Callable[..., object]] = {"put": self.put, "accept": self.accept, "get": self.get,
                                                   "offer": self.offer, "serve": self.serve, "state": self.state}
        result, cause = None, None
        try:
            result = calls[name](*arguments)
        except AntientropyError as error:
            cause = error.name
        self.commit()
        return encode((result, cause))

    def put(self, key: bytes, context: List[Tuple[int, int]], value: Optional[bytes]) -> None:
        """Put a value, or a tombstone for None. Send the version to the partner, or keep a hint."""
        if value is None:
            receipt = self.replica.delete(self.node, key, context)
        else:
            receipt = self.replica.put(self.node, key, value, context)
        self.commit()
        clock = {**dict(context), self.node: receipt.counter}
        try:
            call(self.partner, "accept", key, list(clock.items()), value)
        except (OSError, Refused):
            if self.hints.count().pending < HINTS_MAX:
                self.hints.keep(self.partner, key, clock, value)

    def accept(self, key: bytes, clock: List[Tuple[int, int]], value: Optional[bytes]) -> bool:
        """Accept a copy or a hint. Return False if it was known."""
        return self.replica.accept(key, clock, value)

    def get(self, key: bytes) -> List[Tuple[List[Tuple[int, int]], Optional[bytes]]]:
        """Return the clocks and values of a key's versions."""
        return [(list(version.clock.items()), version.value) for version in self.replica.get(key)]

    def offer(self) -> bytes:
        """Return an offer of the current rows. The number of the next entry is its number."""
        self.offered = offered = self.replica.snapshot()
        self.delay = 2 * PATIENCE           # the first answer is too late for the partner, to show its deadline
        return offered.offer(offered.entries)

    def serve(self, ask: bytes) -> bytes:
        """Return the answer to an ask."""
        offered, delay, self.delay = self.offered, self.delay, 0.0
        time.sleep(delay)
        return offered.serve(offered.entries, ask)

    def state(self) -> Tuple[bytes, int, int]:
        """Return the root, and the numbers of late syncs and of pending hints."""
        return self.replica.root(), self.late, self.hints.count().pending

    def deliver(self) -> None:
        """Send the pending hints to the partner."""
        for hint in self.hints.pending(self.partner):
            accepted = call(self.partner, "accept", hint.key, list(hint.clock.items()), hint.value)
            self.hints.confirm(hint.number, known=not accepted)
        self.hints.renew()                  # drops the delivered ones

    def pull(self) -> bool:
        """Sync from the partner. Return True if its answers are late: the next call continues with the exchange."""
        try:
            with connect(self.partner, PATIENCE) as link:
                if not self.exchange:
                    link.write(encode(["offer"]))
                    link.flush()
                    self.exchange = self.replica.exchange(self.partner, receive(link), BOUNDS)
                if not take_answers(self.exchange, link):
                    self.late += 1
                    return True
        except OSError:
            return False                    # the partner is down
        except Refused:
            pass                            # the partner has restarted, and doesn't have the offer
        if self.exchange:
            self.exchange.close()
        self.exchange = None
        return False

    def commit(self) -> None:
        """Log the new entries. If that fails, the process ends without a reply."""
        try:
            with self.lock:
                self.log_entries()
        except (OSError, AntientropyError):
            traceback.print_exc()
            os.abort()

    def log_entries(self) -> None:
        """Log the new entries, and replace a long log."""
        try:
            while (packed := self.replica.packed_entries(self.position)).data:
                self.append(packed.data)
                self.note()
                self.position = packed.next
            if self.records < RECORDS_MAX:
                return
        except BadPositionError:            # a renewal has overtaken the log
            pass
        self.checkpoint()

    def checkpoint(self) -> None:
        """Replace the log by one that begins with a checkpoint."""
        rows = io.BytesIO()
        self.position = self.replica.save(rows)
        self.log.close()
        self.log = open(path(self.node, "new"), "wb")
        self.records = 0
        self.append(rows.getvalue())
        os.rename(path(self.node, "new"), path(self.node, "log"))
        folder = os.open(".", os.O_RDONLY)
        os.fsync(folder)
        os.close(folder)
        self.note()
        os.fsync(self.synced)

    def append(self, data: bytes) -> None:
        """Append a record to the log, and sync it."""
        self.log.write(HEAD.pack(self.place, len(data), checksum(self.place, data)) + data)
        self.log.flush()
        os.fsync(self.log.fileno())
        self.place += 1
        self.records += 1

    def note(self) -> None:
        """Note the place that the synced records reach. A crash of the machine may undo that."""
        os.pwrite(self.synced, HEAD.pack(self.place, 0, checksum(self.place, b"")), 0)

    def load(self) -> Replica:
        """Load the log. End the process if acknowledged records are lost: the node has to return with a new number."""
        with open(path(self.node, "log"), "rb") as log, open(path(self.node, "synced"), "rb") as synced:
            records = read_records(log)
            self.place, rows = next(records, (0, b""))
            replica = Replica.load(io.BytesIO(rows), renew=True)
            for self.place, data in records:
                for entry in unpack_entries(data, replica.format):
                    replica.accept(entry.key, entry.clock, entry.value)
            self.place += 1
            noted = next(read_records(synced), None)
        if noted is None or self.place < noted[0]:
            sys.exit(f"the log of node {self.node} is damaged")
        return replica


def run(node: Node) -> None:
    """Run a node until its standard input ends."""
    class Handler(socketserver.StreamRequestHandler):
        def handle(self) -> None:
            with contextlib.suppress(ConnectionError):      # the caller has given up
                for line in self.rfile:
                    self.wfile.write(node.reply(line))

    def work() -> None:
        while True:
            time.sleep(PERIOD)
            with contextlib.suppress(OSError, Refused):     # the partner is down
                node.deliver()
            node.pull()
            node.commit()

    with contextlib.suppress(FileNotFoundError):            # of a process that was killed
        os.unlink(path(node.node, "socket"))
    server = socketserver.ThreadingUnixStreamServer(path(node.node, "socket"), Handler)
    threading.Thread(target=server.serve_forever, daemon=True).start()
    threading.Thread(target=work, daemon=True).start()
    sys.stdin.read()


def start(node: int, mode: str) -> "subprocess.Popen[bytes]":
    """Start the process of a node, and wait until it listens."""
    process = subprocess.Popen([sys.executable, SCRIPT, mode, str(node)], stdin=subprocess.PIPE)
    while True:
        with contextlib.suppress(OSError):
            call(node, "state")
            return process
        time.sleep(PERIOD)


def demonstrate() -> None:
    """Write to both nodes while one is killed, and compare them."""
    signal.alarm(120)                       # ends the process if the roots stay different
    one, two = start(1, "first"), start(2, "first")
    acknowledged: Dict[bytes, Optional[bytes]] = {}

    def put(node: int, number: int, value: Optional[bytes]) -> None:
        key = b"key %d" % number
        versions = call(node, "get", key)
        call(node, "put", key, list(merge(*(clock for clock, _ in versions)).items()), value)
        acknowledged[key] = value

    for number in range(50):
        put(1 + number % 2, number, b"both are up")
    with contextlib.suppress(OSError):
        for number in itertools.count(100):
            put(2, number, b"node 2 is killed")
            if number == 107:
                threading.Thread(target=two.kill).start()
    two.wait()
    for number in range(20):
        put(1, number, None)
    for number in range(1000, 1060):
        put(1, number, b"node 2 is down")
    print("node 1 keeps hints:", call(1, "state")[2] > 0)
    two = start(2, "again")
    while call(1, "state")[0] != call(2, "state")[0] or call(1, "state")[2] > 0:
        time.sleep(PERIOD)
    print("node 2 continued a sync after its deadline:", call(2, "state")[1] > 0)
    lost = [key for key, value in acknowledged.items() if all(held != value for _, held in call(2, "get", key))]
    print("acknowledged writes lost:", len(lost))
    for process in (one, two):
        process.communicate()


if __name__ == "__main__":
    if len(sys.argv) == 3:
        run(Node(int(sys.argv[2]), sys.argv[1] == "first"))
    else:
        with tempfile.TemporaryDirectory() as scratch:
            os.chdir(scratch)
            demonstrate()
