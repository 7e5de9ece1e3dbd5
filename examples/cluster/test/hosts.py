"""The hosts of a cluster on this machine: network namespaces if they can be made, and loopback addresses otherwise.

There is a namespace for each host. They are joined by a bridge, in a namespace of the test, which also has separate
processes and mounts, so all of this ends with the test, even if it is killed.
"""

from __future__ import annotations

import ctypes
import os
import shutil
import socket
import subprocess
import sys
from contextlib import contextmanager
from typing import Dict, Iterator, List, Optional, Sequence

PLACES = (1, 2, 3)

#: Ends with this process. The shell is the first process of its namespace, and reaps orphans.
UNSHARED = ["setpriv", "--pdeathsig", "KILL", "unshare", "--net", "--pid", "--fork", "--kill-child", "--mount-proc"]
UNSHARED += ["sh", "-c", 'mount -t tmpfs none /run && "$@"; exit $?', "sh"]
INSIDE = "--inside"

#: Makes one of each device that the hosts need.
TRIAL = "ip netns add t && ip link add name t type veth peer name eth0 netns t && ip link add name bridge type bridge"


class Loopback:
    """An address for each host, and one epmd for all of them."""

    NAME = "loopback addresses"
    ADDRESSES = {place: f"127.0.0.{place + 1}" for place in PLACES}
    WITH_EPMD: Sequence[int] = PLACES[:1]
    KERNEL = ""

    def __init__(self) -> None:
        probes = [socket.create_server(("127.0.0.1", 0)) for _ in range(2 * len(PLACES) + 1)]
        self._ports = [probe.getsockname()[1] for probe in probes]
        for probe in probes:
            probe.close()
        self.environment = {"ERL_EPMD_PORT": str(self._ports.pop())}
        self.environment["ERL_EPMD_ADDRESS"] = ",".join(self.ADDRESSES.values())

    def port(self, place: int, is_admin: bool = False) -> int:
        return self._ports[2 * (place - 1) + is_admin]

    def words(self, place: int) -> List[str]:
        """Returns the words before a command that runs at a host."""
        return []


class Namespaces:
    """A network namespace for each host, with the ports of the page."""

    NAME = "network namespaces"
    ADDRESSES = {place: f"10.77.0.{place}" for place in PLACES}
    WITH_EPMD: Sequence[int] = PLACES
    KERNEL = "{kernel, [{inet_dist_listen_min, 4370}, {inet_dist_listen_max, 4370}]}, "
    environment: Dict[str, str] = {}

    def __init__(self) -> None:
        _ip("link set lo up")
        _ip("link add name bridge type bridge")
        _ip("address add 10.77.0.254/24 dev bridge")
        _ip("link set bridge up")
        for place, address in self.ADDRESSES.items():
            host = _name(place)
            _ip(f"netns add {host}")
            _ip(f"link add name {host} type veth peer name eth0 netns {host}")
            _ip(f"link set {host} master bridge up")
            _ip(f"-n {host} address add {address}/24 dev eth0")
            _ip(f"-n {host} link set lo up")
            _ip(f"-n {host} link set eth0 up")

    def port(self, place: int, is_admin: bool = False) -> int:
        return 8099 if is_admin else 8098

    def words(self, place: int) -> List[str]:
        """Returns the words before a command that runs at a host."""
        return ["ip", "netns", "exec", _name(place)]

    @contextmanager
    def inside(self, place: int) -> Iterator[None]:
        """Connects from a host: the sockets that this thread makes in this context are there."""
        with open("/proc/thread-self/ns/net") as ours, open(f"/run/netns/{_name(place)}") as theirs:
            _set_namespace(theirs.fileno())
            try:
                yield
            finally:
                _set_namespace(ours.fileno())

    def cut(self, place: int) -> None:
        """Pulls the cable of a host."""
        _ip(f"link set {_name(place)} down")

    def join(self, place: int) -> None:
        _ip(f"link set {_name(place)} up")

    def delay(self, place: int, milliseconds: int) -> bool:
        """Delays messages to and from a host. Returns false if the kernel can't."""
        for namespace, device in (([], _name(place)), (self.words(place), "eth0")):
            rule = f"tc qdisc add dev {device} root netem delay {milliseconds}ms"
            if subprocess.run([*namespace, *rule.split()], stderr=subprocess.DEVNULL).returncode != 0:
                return False
        return True


def why_not() -> Optional[str]:
    """Returns why there can't be namespaces, or None if there can."""
    if os.geteuid() != 0:
        return "this isn't root"
    for program in ("ip", "tc", "setpriv", "unshare", "mount"):
        if shutil.which(program) is None:
            return f"there is no {program}"
    tried = subprocess.run([*UNSHARED, "sh", "-c", TRIAL], stdout=subprocess.PIPE, stderr=subprocess.STDOUT, text=True)
    return None if tried.returncode == 0 else " ".join(tried.stdout.split())


def run_inside() -> int:
    """Runs this program in another namespace, and returns its status."""
    return subprocess.run([*UNSHARED, sys.executable, *sys.argv, INSIDE]).returncode


def _name(place: int) -> str:
    return f"host{place}"


def _ip(words: str) -> None:
    _run(["ip", *words.split()])


def _run(words: Sequence[str]) -> None:
    subprocess.run(words, check=True, stdin=subprocess.DEVNULL)


def _set_namespace(file: int) -> None:
    """Moves this thread into a network namespace. (Python has os.setns from 3.12 on.)"""
    libc = ctypes.CDLL(None, use_errno=True)
    if libc.setns(file, 0) != 0:
        raise OSError(ctypes.get_errno(), "setns")
