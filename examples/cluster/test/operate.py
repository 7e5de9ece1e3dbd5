#!/usr/bin/env python3
"""Operates a release by its page: three nodes with TLS between them and for clients, on a folder that make built.

Tests a put, a kill, a partition, a damaged disk, different settings, a stranger without a certificate, a slow link, and
the nodes' reports of all that. Hosts are network namespaces if possible, and loopback addresses otherwise, in which
case the partition and the slow link are skipped. Lines that begin with 'note:' name the kind of hosts, and what was
skipped. All processes that it starts end with it. The last line is 'N passed, M failed'.
"""

from __future__ import annotations

import base64
import csv
import http.client
import json
import os
import re
import secrets
import signal
import socket
import ssl
import subprocess
import sys
import tarfile
import tempfile
import threading
import time
import unittest
import urllib.error
import urllib.request
import xml.etree.ElementTree
from concurrent.futures import ThreadPoolExecutor
from pathlib import Path
from typing import Dict, Mapping, Optional, Sequence, Set, Tuple, Union

HERE = Path(__file__).resolve().parent
sys.path.insert(0, str(HERE.parent))
sys.dont_write_bytecode = True

import hosts  # noqa: E402
from hosts import PLACES, Loopback, Namespaces  # noqa: E402
from nemesis.log import Log, Watch  # noqa: E402
from nemesis.machine import EACH_S, LATE_S, Machine  # noqa: E402

REL = HERE.parent / "rel"
PLOT = HERE.parent / "plot"

#: Seconds that a step may take on a busy machine, and seconds between two looks.
STEP_S, LOOK_S = 180.0, 0.1

#: Seconds after which a connection without ticks is closed: net_ticktime and a quarter.
TICKS_S = 5.0

#: Seconds in which nodes find out what has changed: a node that was late for another one is called again.
NOTICED_S = 3.0

#: Seconds after a partition until each host has all puts, unless the machine is late; the number of keys that a host
#: misses over a slow link, and that of the clients that put them.
JOINED_S, MISSED, PUTTERS = 10.0, 1000, 8
DELAY_MS = 50

SYS_CONFIG = """[{kernel}{{cluster, [
    {{places, [
{places}
    ]}},
    {{bits, {bits}}},
    {{quorums, {{3, 2, 2}}}},
    {{http_token, "{folder}/token"}},
    {{admin_token, "{folder}/token"}},
    {{https, {{"{folder}/node.pem", "{folder}/node.key"}}}}
]}}].
"""


class Site:
    """The configuration and the nodes of a cluster."""

    def __init__(self, out: Path, room: Path, its_hosts: Union[Loopback, Namespaces]) -> None:
        self.room, self.hosts = room, its_hosts
        with tarfile.open(next(out.glob("cluster-*.tar.gz"))) as packed:
            packed.extractall(room / "release")
        self.program = room / "release/bin/cluster"
        self.token, cookie = secrets.token_hex(16), secrets.token_hex(16)
        self.config = self.make_config("config", cookie)
        self.other_ring = self.make_config("other-ring", cookie, bits=3)
        self.guest = self.make_config("guest", secrets.token_hex(16))
        self.stranger = self.make_config("stranger", cookie, authority=self.make_authority("strangers"))
        self._environment = {**os.environ, **its_hosts.environment}
        self._epmd = next((room / "release").glob("erts-*/bin/epmd"))
        self._beside = [self._begin(place, self._epmd) for place in its_hosts.WITH_EPMD]
        self.watch, self._late = Watch(), room / "late"
        self._machine = Machine(room, Log(self._late, self.watch))
        self._machine.__enter__()
        self.samples = room / "run.csv"
        urls = [f"{place}={self.url(place, True)}" for place in PLACES]
        secret = ["--ca", self.config / "ca.pem", "--token", self.config / "token"]
        with self.samples.open("w") as samples:
            self._beside.append(subprocess.Popen([PLOT, "sample", *secret, *urls], stdout=samples))

    def _begin(self, place: int, *command: Union[str, Path], **given: object) -> subprocess.Popen:
        """Begins a command at a host."""
        words = {"env": self._environment, "stdin": subprocess.DEVNULL, **given}
        return subprocess.Popen([*self.hosts.words(place), *command], **words)

    def make_authority(self, name: str) -> Path:
        """Makes an authority, and returns the path of its files without their endings."""
        made = self.room / name
        words = ["-x509", "-keyout", f"{made}.key", "-out", f"{made}.pem", "-subj", f"/CN={name}", "-days", "2"]
        _openssl("req", *words, *KEY)
        return made

    def make_config(self, name: str, cookie: str, bits: int = 2, authority: Optional[Path] = None) -> Path:
        """Makes the folder of a configuration, as an operator does."""
        folder = self.room / name
        folder.mkdir(mode=0o700)
        if authority is None:
            authority = self.room / "authority"
            if not authority.with_suffix(".pem").exists():
                self.make_authority("authority")
        wanted = ["-keyout", f"{folder}/node.key", "-out", f"{folder}/node.csr", "-subj", "/CN=node"]
        _openssl("req", "-new", *wanted, *KEY)
        names = folder / "names"
        its_names = [f"IP:{host},DNS:{host}" for host in self.hosts.ADDRESSES.values()]
        names.write_text(f"subjectAltName={','.join(its_names)}\n")
        signed = ["-CA", f"{authority}.pem", "-CAkey", f"{authority}.key", "-CAcreateserial", "-days", "2"]
        files = ["-in", f"{folder}/node.csr", "-out", f"{folder}/node.pem", "-extfile", str(names)]
        _openssl("x509", "-req", *files, *signed)
        (folder / "ca.pem").write_bytes(authority.with_suffix(".pem").read_bytes())
        places = ",\n".join(f'        {{{place}, "{host}"}}' for place, host in self.hosts.ADDRESSES.items())
        settings = {"kernel": self.hosts.KERNEL, "places": places, "bits": bits, "folder": folder}
        (folder / "sys.config").write_text(SYS_CONFIG.format(**settings))
        (folder / "ssl_dist.conf").write_text((REL / "ssl_dist.conf").read_text().replace("/etc/cluster", str(folder)))
        for secret, text in ((".erlang.cookie", cookie), ("token", self.token)):
            (folder / secret).write_text(text)
            (folder / secret).chmod(0o400)
        return folder

    def disk(self, place: int) -> Path:
        return self.room / f"disk-{place}"

    def url(self, place: int, is_admin: bool = False) -> str:
        return f"https://{self.hosts.ADDRESSES[place]}:{self.hosts.port(place, is_admin)}"

    def run(
        self, place: int, word: str, config: Optional[Path] = None, disk: Optional[Path] = None, settings: str = ""
    ) -> subprocess.Popen:
        """Begins a command of the release."""
        ports = f"http_port {self.hosts.port(place)} admin_port {self.hosts.port(place, True)}"
        fronts = f'http_host "{self.hosts.ADDRESSES[place]}" admin_host "{self.hosts.ADDRESSES[place]}"'
        environment = {
            **self._environment,
            "CLUSTER_PLACE": str(place),
            "CLUSTER_CONFIG": str(config or self.config),
            "CLUSTER_FOLDER": str(disk or self.disk(place)),
            "CLUSTER_LOG": str(self.log_file(place)),
            "CLUSTER_SETTINGS": f"{ports} {fronts} {settings}",
            "CLUSTER_FLAGS": "+S 2:2 +SDcpu 2:2 +SDio 4",
        }
        words = {"stdout": subprocess.PIPE, "stderr": subprocess.STDOUT, "text": True}
        return self._begin(place, self.program, word, env=environment, **words)

    def done(self, place: int, word: str, **given: Path) -> Tuple[int, str]:
        """Runs a command of the release, and returns its status and its output."""
        command = self.run(place, word, **given)
        printed, _ = command.communicate(timeout=STEP_S)
        return command.returncode, printed

    def start(self, places: Sequence[int], settings: str = "") -> None:
        """Starts nodes, and waits until they serve."""
        commands = [self.run(place, "start", settings=settings) for place in places]
        for command in commands:
            printed, _ = command.communicate(timeout=STEP_S)
            if command.returncode:
                raise AssertionError(f"a node didn't start: {printed}")

    def log(self, place: int) -> str:
        return self.log_file(place).read_text()

    def log_file(self, place: int) -> Path:
        return self.room / f"log-{place}"

    def node_port(self, place: int) -> int:
        """Returns the port of a node for other nodes, as epmd knows it."""
        names, _ = self._begin(place, self._epmd, "-names", stdout=subprocess.PIPE, text=True).communicate()
        return int(re.search(rf"name p{place} at port (\d+)", names)[1])

    def pid(self, place: int) -> int:
        """Returns the process of a node by its disk."""
        disk = f'"{self.disk(place)}"'.encode()
        for folder in Path("/proc").glob("[0-9]*"):
            try:
                words = (folder / "cmdline").read_bytes().split(b"\0")
            except OSError:
                continue
            if disk in words and words[0].endswith(b"beam.smp"):
                return int(folder.name)
        raise AssertionError(f"the node of place {place} doesn't run")

    def ask(
        self, place: int, method: str, path: str, body: Optional[bytes] = None, is_admin: bool = False, **headers: str
    ) -> Tuple[int, Mapping[str, str], bytes]:
        """Sends a request by HTTPS, and trusts only the cluster's authority."""
        named = {name.replace("_", "-"): value for name, value in headers.items()}
        request = urllib.request.Request(self.url(place, is_admin) + path, body, named, method=method)
        try:
            with urllib.request.urlopen(request, timeout=STEP_S, context=self._trust()) as answer:
                return answer.status, dict(answer.headers), answer.read()
        except urllib.error.HTTPError as answer:
            return answer.code, dict(answer.headers), answer.read()

    def was_late(self, since: float) -> bool:
        """Returns true if the machine was late, or is late now, so that a node may have refused what it could do."""
        # (it is logged afterwards)
        time.sleep(2 * (EACH_S + LATE_S))
        late = [json.loads(line) for line in self._late.read_text().splitlines()]
        return any(it["t"] + it["seconds"] > since - NOTICED_S for it in late)

    def put(self, place: int, key: str, value: str, **headers: str) -> dict:
        """Puts a key. A put that is refused while the machine is late is done again, over what it may have done."""
        while True:
            begun = self.watch.now()
            status, _, body = self.ask(place, "PUT", f"/keys/{key}", value.encode(), **self.bearer(), **headers)
            if status == 200:
                return json.loads(body)
            if status != 503 or not self.was_late(begun):
                raise AssertionError(f"the put was answered by {status}: {body!r}")
            _, found, _ = self.ask(place, "GET", f"/keys/{key}", **self.bearer(), x_r="1")
            context = {name.lower(): text for name, text in found.items()}.get("x-context")
            headers = {**headers, **({"x_context": context} if context else {})}

    def put_all(self, place: int, keys: Sequence[str]) -> None:
        """Puts keys, each with its name as its value, over one connection."""
        host, port = self.hosts.ADDRESSES[place], self.hosts.port(place)
        link = http.client.HTTPSConnection(host, port, timeout=STEP_S, context=self._trust())
        for key in keys:
            link.request("PUT", f"/keys/{key}", key.encode(), self.bearer())
            begun = self.watch.now()
            with link.getresponse() as answer:
                answer.read()
            if answer.status != 200:
                if not self.was_late(begun):
                    raise AssertionError(f"a put was answered by {answer.status}")
                self.put(place, key, key)
        link.close()

    def get(self, place: int, key: str, **headers: str) -> Tuple[int, bytes]:
        """Reads a key, again if it is refused while the machine is late."""
        while True:
            begun = self.watch.now()
            status, _, body = self.ask(place, "GET", f"/keys/{key}", **self.bearer(), **headers)
            if status != 503 or not self.was_late(begun):
                return status, body

    def has_sampled(self, place: int, name: str) -> bool:
        """Returns true if a sample has a number of a place that isn't 0."""
        with self.samples.open() as samples:
            lines = [line for line in csv.DictReader(samples) if line["place"] == str(place)]
        return any(float(line[name] or 0) > 0 for line in lines)

    def is_up(self, place: int, other: int) -> bool:
        """Returns true if another place is up for a place."""
        return self.metrics(place)[f'cluster_place_up{{place="{other}"}}'] == 1

    def siblings(self, place: int, key: str) -> Set[str]:
        """Returns the values that a place has itself."""
        status, body = self.get(place, key, x_r="1")
        if status != 300:
            return {body.decode()}
        return {base64.b64decode(it["value"]).decode() for it in json.loads(body)["siblings"]}

    def keys(self, place: int) -> Set[str]:
        """Returns the keys that a place has itself."""
        dump = json.loads(self.ask(place, "GET", "/dump", is_admin=True, **self.bearer())[2])
        return {base64.b64decode(row["key"]).decode() for range_ in dump["ranges"] for row in range_["rows"]}

    def _trust(self) -> ssl.SSLContext:
        return ssl.create_default_context(cafile=self.config / "ca.pem")

    def bearer(self) -> Dict[str, str]:
        return {"authorization": f"Bearer {self.token}"}

    def metrics(self, place: int) -> Dict[str, float]:
        """Returns the metrics of a node by name and labels."""
        text = self.ask(place, "GET", "/metrics", is_admin=True, **self.bearer())[2].decode()
        lines = [line.rsplit(" ", 1) for line in text.splitlines() if not line.startswith("#")]
        return {name: float(value) for name, value in lines}

    def end(self) -> None:
        """Ends all processes that it started."""
        for place in PLACES:
            try:
                os.kill(self.pid(place), signal.SIGKILL)
            except (AssertionError, ProcessLookupError):
                pass
        for process in self._beside:
            process.kill()
            process.wait()
        self._machine.__exit__()


#: Words for a key without a passphrase.
KEY = ["-newkey", "ec", "-pkeyopt", "ec_paramgen_curve:prime256v1", "-nodes"]


def _openssl(*words: str) -> None:
    subprocess.run(["openssl", *words], check=True, stdout=subprocess.DEVNULL, stderr=subprocess.DEVNULL)


def until(condition, what: str) -> None:
    """Waits until a condition is true."""
    end = time.monotonic() + STEP_S
    while not condition():
        if time.monotonic() > end:
            raise AssertionError(f"in vain: {what}")
        time.sleep(LOOK_S)


class Operate(unittest.TestCase):
    """The steps, in order: the later ones use the cluster of the first."""

    site: Site

    def cable(self) -> Namespaces:
        """Returns the hosts if their links can be cut."""
        if isinstance(self.site.hosts, Loopback):
            self.skipTest("loopback addresses have no links")
        return self.site.hosts

    def test_1_puts_and_gets(self) -> None:
        """Any node takes a request by HTTPS with the token, and each is refused without it."""
        site = self.site
        site.start(PLACES)
        put = site.put(1, "cart", "milk")
        self.assertEqual(len(put["on"]), 2)
        self.assertEqual(site.get(3, "cart"), (200, b"milk"))
        self.assertEqual(len(site.put(2, "cart", "eggs", x_context=put["context"], x_w="3")["on"]), 3)
        self.assertEqual(site.ask(1, "GET", "/keys/cart")[0], 401)
        self.assertEqual(site.ask(1, "GET", "/health")[0], 200)
        with self.assertRaises(urllib.error.URLError):
            urllib.request.urlopen(f"{site.url(1)}/health", context=ssl.create_default_context())

    def test_2_secrets(self) -> None:
        """Nobody else can read disks, nor the cookie, which is in no command line."""
        site = self.site
        cookie = (site.config / ".erlang.cookie").read_text()
        for place in PLACES:
            words = Path(f"/proc/{site.pid(place)}/cmdline").read_bytes().decode()
            self.assertNotIn(cookie, words)
            self.assertNotIn(site.token, words)
            for path in [site.disk(place), *site.disk(place).rglob("*")]:
                self.assertEqual(path.stat().st_mode & 0o077, 0, path)
        (site.config / ".erlang.cookie").chmod(0o444)
        said = f"others may read {site.config}/.erlang.cookie: give it mode 0400\n"
        self.assertEqual(site.done(1, "status"), (1, said))
        (site.config / ".erlang.cookie").chmod(0o400)

    def test_3_kill(self) -> None:
        """A killed node is down for the others, which continue. After a start it has everything again."""
        site = self.site
        before = len(site.log(1))
        os.kill(site.pid(3), signal.SIGKILL)
        until(lambda: "event down place=3" in site.log(1)[before:], "place 1 says that place 3 is down")
        self.assertFalse(site.is_up(1, 3))
        site.put(1, "cup", "tea")
        until(lambda: site.has_sampled(1, "hints") or site.has_sampled(2, "hints"), "a hint for place 3 is sampled")
        site.start([3])
        until(lambda: "event up place=3" in site.log(1)[before:], "place 1 says that place 3 is up")
        until(lambda: site.is_up(1, 3), "it is up in the metrics")
        self.assertEqual(site.get(3, "cup"), (200, b"tea"))

    def test_3_partition(self) -> None:
        """Both sides of a partition take puts, and after it each host has both values."""
        site, cable = self.site, self.cable()
        cable.cut(3)
        try:
            for place, other in ((1, 3), (2, 3), (3, 1), (3, 2)):
                with cable.inside(place):
                    until(lambda: not site.is_up(place, other), f"place {other} is down for place {place}")
            self.assertEqual(site.put(1, "fork", "left")["on"], [1, 2])
            with cable.inside(3):
                self.assertEqual(site.ask(3, "PUT", "/keys/spoon", b"one", **site.bearer())[0], 503)
                self.assertEqual(site.put(3, "fork", "right", x_w="1")["on"], [3])
            # (longer than it takes a node to close a connection without ticks)
            time.sleep(TICKS_S)
        finally:
            cable.join(3)
        joined = site.watch.now()
        for place in PLACES:
            until(lambda: site.siblings(place, "fork") == {"left", "right"}, f"place {place} has both values")
        took = site.watch.now() - joined
        self.assertTrue(took < JOINED_S or site.was_late(joined), took)
        note(f"both values are at each host {took:.1f} seconds after a partition")

    def test_4_damage(self) -> None:
        """A damaged disk is kept aside, and a new life takes all versions from the others."""
        site = self.site
        status, printed = site.done(2, "stop")
        self.assertEqual((status, printed), (0, ""))
        self.assertNotIn("shutdown_error", site.log(2))
        for log in site.disk(2).glob("range-*/log.1"):
            text = bytearray(log.read_bytes())
            if text:
                text[len(text) // 2] ^= 4
                log.write_bytes(text)
        site.start([2])
        damage = r"the disk of place 2 is damaged: range-\d: .*; it is kept in .*/aside-1, and a new life begins"
        self.assertRegex(site.log(2), damage)
        self.assertIn("event new_life incarnation=2", site.log(2))
        status, printed = site.done(2, "status")
        self.assertEqual(status, 0)
        said = {node["place"]: node for node in json.loads(printed)}
        self.assertEqual(said[2]["life"], 2 + 32 * 2)
        self.assertEqual(len(said[2]["aside"]), 1)
        self.assertEqual(site.get(2, "cup"), (200, b"tea"))

    def test_5_metrics(self) -> None:
        """The metrics show the steps above."""
        others = ["repair_rounds_total", "hints_pending", "slots", 'events_total{event="down"}']
        others += [f'{name}{{range="{it}"}}' for it in range(4) for name in ("dirty_nodes", "entries", "queue_length")]
        # (a process that is late on a busy machine is left out)
        until(lambda: self.site.metrics(1).keys() >= {f"cluster_{name}" for name in others}, f"{others} are shown")
        metrics = self.site.metrics(1)
        self.assertGreaterEqual(metrics['cluster_requests_total{kind="put",outcome="done",cause="none"}'], 2)
        self.assertGreaterEqual(metrics['cluster_request_seconds_count{kind="put"}'], 2)
        self.assertGreater(metrics["cluster_fsync_seconds_count"], 0)
        self.assertEqual(metrics['cluster_incarnation{place="2"}'], 2)
        self.assertEqual(metrics["cluster_ready"], 1)

    def test_6_other_settings(self) -> None:
        """A node with another ring is refused in one line at both, and serves nobody."""
        site = self.site
        site.done(3, "stop")
        disk = site.room / "other-disk"
        other = site.run(3, "foreground", site.other_ring, disk)
        hanging = threading.Timer(STEP_S, other.kill)
        hanging.start()
        said = []
        try:
            for line in other.stdout:
                said.append(line)
                if "event settings_differ place=1" in line:
                    break
            until(lambda: "event settings_differ place=3" in site.log(1), "place 1 refuses place 3")
            time.sleep(1.5)
        finally:
            hanging.cancel()
            other.kill()
            printed = "".join([*said, other.communicate()[0]])
        self.assertEqual(site.log(1).count("event settings_differ place=3"), 1)
        self.assertEqual(printed.count("event settings_differ place=1"), 1)
        self.assertNotIn("ready", printed)
        self.assertEqual(site.put(1, "plate", "cake")["on"], [1, 2])

    def test_7_stranger(self) -> None:
        """A node with the cookie and a certificate of another authority reaches nobody."""
        site = self.site
        stranger = site.run(3, "foreground", site.stranger, site.room / "strange-disk")
        try:
            until(lambda: "Unknown CA" in site.log(1), "place 1 refuses the certificate")
        finally:
            stranger.kill()
            printed, _ = stranger.communicate()
        self.assertNotIn("ready", printed)

    def test_7_a_guests(self) -> None:
        """Garbage at the port of a node, and a node with another cookie, reach nothing, and harm nothing."""
        site = self.site
        pid = site.pid(1)
        for text in (b"", b"GET / HTTP/1.1\r\n\r\n", secrets.token_bytes(100_000)):
            with socket.create_connection((site.hosts.ADDRESSES[1], site.node_port(1)), STEP_S) as garbage:
                try:
                    garbage.sendall(text)
                except ConnectionError:
                    pass
        guest = site.run(3, "foreground", site.guest, site.room / "guest-disk")
        try:
            time.sleep(3)
        finally:
            guest.kill()
            printed, _ = guest.communicate()
        self.assertNotIn("ready", printed)
        self.assertEqual(site.pid(1), pid)
        site.put(1, "bowl", "soup")

    def test_8_wrong_settings(self) -> None:
        """A node that can't start says why in one line."""
        site = self.site
        wrong = site.room / "wrong"
        wrong.mkdir(mode=0o700)
        for name in (".erlang.cookie", "ssl_dist.conf"):
            (wrong / name).write_bytes((site.config / name).read_bytes())
            (wrong / name).chmod(0o400)
        text = (site.config / "sys.config").read_text()
        cases = {
            "the setting quorums is missing or wrong: {3,4,2}\n": ("{3, 2, 2}", "{3, 4, 2}"),
            "the setting bits is missing or wrong: undefined\n": ("{bits, 2},", ""),
            f"{wrong}/sys.config has no host of place 3\n": ("{3,", "{7,"),
        }
        for said, change in cases.items():
            (wrong / "sys.config").write_text(text.replace(*change))
            status, printed = site.done(3, "foreground", config=wrong, disk=site.room / "wrong-disk")
            self.assertEqual((status, printed), (1, said))
        (wrong / "sys.config").write_text(text)
        (wrong / "ssl_dist.conf").unlink()
        names = (site.config / "ssl_dist.conf").read_text()
        (wrong / "ssl_dist.conf").write_text(names.replace(f"{site.config}/node.key", f"{wrong}/node.key"))
        said = f"{wrong}/ssl_dist.conf names {wrong}/node.key, which can't be read\n"
        self.assertEqual(site.done(3, "foreground", config=wrong, disk=site.room / "wrong-disk"), (1, said))

    def test_9_a_slow_link(self) -> None:
        """Repair by itself brings a host the keys that it missed, over a link with a delay."""
        site, cable = self.site, self.cable()
        if not cable.delay(3, DELAY_MS):
            self.skipTest("the kernel has no netem")
        # (place 3 is stopped already)
        keys = [f"missed-{number}" for number in range(MISSED)]
        with ThreadPoolExecutor(PUTTERS) as pool:
            list(pool.map(lambda place: site.done(place, "stop"), (1, 2)))
            site.start((1, 2), "handoff off")
            list(pool.map(lambda first: site.put_all(1 + first % 2, keys[first::PUTTERS]), range(PUTTERS)))
        begun = time.monotonic()
        site.start([3])
        until(lambda: site.keys(3).issuperset(keys), "place 3 has all keys")
        note(f"{MISSED} keys came over a link with a delay of {DELAY_MS} ms in {time.monotonic() - begun:.1f} seconds")
        # (a round counts at its end)
        until(lambda: site.metrics(3).get("cluster_repair_keys_total", 0) >= MISSED, "repair alone brought them")

    def test_9_plot(self) -> None:
        """The samples of this run, and their plot, have each series of each place."""
        with self.site.samples.open() as samples:
            lines = list(csv.DictReader(samples))
        names = ["puts", "gets", "refusals", "put_p99_ms", "get_p99_ms", "repair_bytes", "hints"]
        self.assertEqual(list(lines[0]), ["time", "place", *names])
        for place in PLACES:
            states = " ".join("up" if line["puts"] else "down" for line in lines if line["place"] == str(place))
            # (place 3 was stopped)
            self.assertRegex(states, "up.* down" if place == 3 else "up")
        most = {name: max(float(line[name] or 0) for line in lines) for name in names}
        self.assertTrue(all(most[name] > 0 for name in names if name != "refusals"), most)
        drawn = subprocess.run([PLOT, "draw", self.site.samples], stdout=subprocess.PIPE, text=True, check=True).stdout
        svg = "{http://www.w3.org/2000/svg}"
        panels = xml.etree.ElementTree.fromstring(drawn).findall(f"{svg}g")
        self.assertEqual([panel.get("id") for panel in panels], names)
        for panel in panels:
            lines_of = {line.findtext(f"{svg}title"): line.get("d") for line in panel.findall(f"{svg}path[@stroke]")}
            self.assertEqual(list(lines_of), [f"place {place}" for place in PLACES])
            self.assertTrue(all(lines_of.values()) or panel.get("id").endswith("ms"))

    def test_9_stop(self) -> None:
        """A node that is stopped ends, and can be stopped again."""
        site = self.site
        self.assertEqual(site.done(1, "stop"), (0, ""))
        with self.assertRaises(AssertionError):
            site.pid(1)
        self.assertEqual(site.done(1, "stop"), (0, ""))


def note(text: str) -> None:
    print(f"note: {text}", flush=True)


def main(out: Path, is_inside: bool) -> int:
    """Runs the steps, and prints those that failed."""
    if not is_inside:
        why = hosts.why_not()
        if why is None:
            return hosts.run_inside()
        note(f"no network namespaces: {why}")
    its_hosts = Namespaces() if is_inside else Loopback()
    note(f"hosts are {its_hosts.NAME}")
    with tempfile.TemporaryDirectory() as room:
        Operate.site = Site(out, Path(room), its_hosts)
        try:
            suite = unittest.defaultTestLoader.loadTestsFromTestCase(Operate)
            result = unittest.TextTestRunner(stream=sys.stderr, verbosity=0, failfast=True).run(suite)
            if not result.wasSuccessful():
                for log in sorted(Path(room).glob("log-*")):
                    print(f"{log}:\n{log.read_text()[-3000:]}", file=sys.stderr)
        finally:
            Operate.site.end()
    for step, why in result.skipped:
        note(f"{step.id().split('.')[-1]} is skipped: {why}")
    failed = len(result.failures) + len(result.errors)
    print(f"{result.testsRun - failed - len(result.skipped)} passed, {failed} failed")
    return 1 if failed else 0


if __name__ == "__main__":
    sys.exit(main(Path(sys.argv[1]), hosts.INSIDE in sys.argv))
