"""Machines as network namespaces, each with a broker's node, and for each range of keys a region, its feed and a proxy."""

from __future__ import annotations

import json
import os
import shutil
import socket
import ssl
import subprocess
from collections.abc import Sequence
from dataclasses import dataclass, field
from pathlib import Path

import pika

from running import CLIENT_WORDS, CONTROL, FEEDS, RUN, Processes, Word, kill, start_proxy

# Three machines run at first. A fourth, with no node of the broker, takes the place of one that is lost.
COUNT, ALL = 3, 4
FRONT = "10.77.0.254"
# The keys below the bound are the first range's.
BOUND, RANGES = "m", ["low", "high"]
# The first keys of the tablets of each range but its first.
BOUNDS = {"low": ["a100", "a250", "a400"], "high": ["z100", "z250", "z400"]}
# The ports of the first range; the second's are the next ones. At the last one the front asks whether a region is well.
REGION_PORT, PROXY_PORT, HEALTH_PORT = 7070, 7443, 9107
CONNECTIONS = 64
# After how many seconds the copies of a region are saved again.
EVERY = 10
RABBIT = Path("/usr/lib/rabbitmq/bin")
CERTIFICATES = RUN / "certificates"
SHOWN = ["--authority", str(CERTIFICATES / "authority.pem"), "--certificate", str(CERTIFICATES / "client.pem")]


def run(*command: Word, environment: dict[str, str] | None = None) -> None:
    within = {**os.environ, **(environment or {})}
    subprocess.run(command, check=True, stdout=subprocess.DEVNULL, stderr=subprocess.PIPE, env=within)


def make_network(machines: Sequence[Machine]) -> None:
    """A switch, with a cable to each machine and to the front."""
    (RUN / "netns").mkdir()
    run("ip", "link", "add", "switch", "type", "bridge")
    run("ip", "address", "add", f"{FRONT}/24", "dev", "switch")
    run("ip", "link", "set", "switch", "up")
    for machine in machines:
        near, far = f"{machine.name}-near", f"{machine.name}-far"
        run("ip", "netns", "add", machine.name)
        run("ip", "link", "add", near, "type", "veth", "peer", "name", far, "netns", machine.name)
        run("ip", "link", "set", near, "master", "switch", "up")
        run("ip", "-n", machine.name, "address", "add", f"{machine.address}/24", "dev", far)
        run("ip", "-n", machine.name, "link", "set", far, "up")
        run("ip", "-n", machine.name, "link", "set", "lo", "up")


def make_certificates(addresses: Sequence[str]) -> None:
    """An authority, and a certificate for the proxies and one for clients. Each is a file with its key."""
    CERTIFICATES.mkdir()
    key = ["-newkey", "ec", "-pkeyopt", "ec_paramgen_curve:prime256v1", "-nodes", "-days", "2"]
    authority = [CERTIFICATES / "authority.pem", CERTIFICATES / "authority.key"]
    run("openssl", "req", "-x509", *key, "-subj", "/CN=authority", "-out", authority[0], "-keyout", authority[1])
    names = ",".join(f"IP:{address}" for address in addresses)
    for who in ("proxy", "client"):
        made, own = CERTIFICATES / f"{who}.pem", CERTIFICATES / f"{who}.key"
        words = ["-subj", f"/CN={who}", "-addext", f"subjectAltName={names}", "-CA", str(authority[0]), "-CAkey", str(authority[1])]
        run("openssl", "req", "-x509", *key, *words, "-out", made, "-keyout", own)
        made.write_bytes(made.read_bytes() + own.read_bytes())


def context(certificate: str | None = "client") -> ssl.SSLContext:
    """What a client needs to be let in."""
    made = ssl.create_default_context(cafile=CERTIFICATES / "authority.pem")
    if certificate:
        made.load_cert_chain(CERTIFICATES / f"{certificate}.pem")
    return made


# What the front calls the regions of machines.
NAMES = ("one", "two", "three", "four")
TLS: dict[str, Word] = {"PNUTS_CERTIFICATES": CERTIFICATES, "PNUTS_CONNECTIONS": str(CONNECTIONS)}


def front_socket(name: str) -> Path:
    """Where the front of a range takes commands."""
    return RUN / f"front-{name}.socket"


def start_front(processes: Processes, machines: Sequence[Machine]) -> None:
    """The proxies that clients ask: each gives a connection to the region of its range that has the fewest, of those that are well."""
    for at, name in enumerate(RANGES):
        regions: dict[str, Word] = {f"PNUTS_REGION_{machine.number}": f"{machine.address}:{PROXY_PORT + at}" for machine in machines}
        own: dict[str, Word] = {"PNUTS_PROXY_LISTEN": f"{FRONT}:{PROXY_PORT + at}", "PNUTS_PROXY_SOCKET": front_socket(name),
                                "PNUTS_HEALTH_PORT": str(HEALTH_PORT + at)}
        start_proxy(processes, f"front-{name}", "haproxy.cfg", {**TLS, **own, **regions})


def tell_front(name: str, command: str) -> None:
    """Has the front of a range do a command of its socket, which says nothing where it is done."""
    with socket.socket(socket.AF_UNIX) as front:
        front.connect(str(front_socket(name)))
        front.sendall(f"{command}\n".encode())
        said = front.makefile().read().strip()
    if said:
        raise OSError(f"the front says to {command}: {said}")


@dataclass
class Machine:
    """A machine of a number from 1, and what runs on it."""

    processes: Processes
    program: str
    number: int
    # Where its feeds find a node of the broker.
    node: str = "127.0.0.1"
    running: dict[str, subprocess.Popen[bytes]] = field(default_factory=dict)

    @property
    def name(self) -> str:
        return f"machine{self.number}"

    @property
    def address(self) -> str:
        return f"10.77.0.{self.number}"

    @property
    def within(self) -> list[str]:
        """How a command is run on the machine."""
        return ["ip", "netns", "exec", self.name]

    @property
    def url(self) -> str:
        """Where its node of the broker is."""
        return f"amqp://guest:guest@{self.address}:5672/%2F"

    def start(self, what: str, command: Sequence[Word], environment: dict[str, str] | None = None) -> None:
        """Starts a program on the machine."""
        self.running[what] = self.processes.start(f"{self.name}-{what}", [*self.within, *command], environment)

    def environment(self) -> dict[str, str]:
        """What the broker's programs read."""
        folder = RUN / f"{self.name}-broker"
        return {
            "HOME": str(RUN / "cookie"),
            "RABBITMQ_USE_LONGNAME": "true",
            "RABBITMQ_NODENAME": f"pn@{self.address}",
            "RABBITMQ_MNESIA_BASE": f"{folder}/m",
            "RABBITMQ_LOG_BASE": f"{folder}/l",
            "RABBITMQ_PID_FILE": f"{folder}/pid",
            "RABBITMQ_ENABLED_PLUGINS_FILE": f"{folder}/plugins",
            "RABBITMQ_CONFIG_FILE": f"{folder}/c.conf",
            "RABBITMQ_CONF_ENV_FILE": f"{folder}/env",
        }

    def make_broker(self) -> None:
        """The files of its node."""
        folder = RUN / f"{self.name}-broker"
        folder.mkdir()
        (folder / "plugins").write_text("[].\n", encoding="utf-8")
        nodes = "".join(f"cluster_formation.classic_config.nodes.{at} = pn@10.77.0.{at}\n" for at in range(1, COUNT + 1))
        (folder / "c.conf").write_text(
            "listeners.tcp.default = 5672\nloopback_users = none\ncluster_formation.peer_discovery_backend = classic_config\n"
            f"{nodes}cluster_partition_handling = pause_minority\nnet_ticktime = 10\n",
            encoding="utf-8",
        )

    def start_broker(self) -> None:
        self.start("broker", [RABBIT / "rabbitmq-server"], self.environment())

    def has_broker(self) -> bool:
        """Whether its node answers."""
        try:
            pika.BlockingConnection(pika.URLParameters(self.url)).close()
            return True
        except (pika.exceptions.AMQPError, OSError):
            return False

    def wait_for_all_nodes(self) -> None:
        run(*self.within, RABBIT / "rabbitmqctl", "--longnames", "await_online_nodes", str(COUNT), environment=self.environment())

    def start_proxies(self) -> None:
        """The proxies before its regions, which themselves listen on loopback alone, and what says whether these are well."""
        for at, name in enumerate(RANGES):
            own = {"PNUTS_PROXY_LISTEN": f"{self.address}:{PROXY_PORT + at}", "PNUTS_REGION": f"127.0.0.1:{REGION_PORT + at}"}
            self.running[f"{name}-proxy"] = start_proxy(self.processes, f"{self.name}-{name}-proxy", "machine.cfg", {**TLS, **own}, self.within)
            line = self.control_line(name, "exporter", "--listen", f"{self.address}:{HEALTH_PORT + at}")
            self.start(f"{name}-exporter", line, CLIENT_WORDS)

    def start_feed(self, name: str) -> None:
        """The feed of a range's stream. It waits for the region, and begins where that is."""
        words = ["--socket", "--url", f"amqp://guest:guest@{self.node}:5672/%2F", "--keep", str(self.path(name, "pairs")), name, str(self.path(name, "socket"))]
        self.start(f"{name}-feed", [FEEDS / "rabbitmq-stream", *words])

    def start_region(self, name: str) -> None:
        """The region of a range, which takes its stream on a socket, and is run by another one. It starts from copies where
        there are some. It waits until it answers."""
        copies = self.path(name, "copies")
        layout: list[Word] = ["--copies", copies] if copies.exists() else ["--bounds", json.dumps(BOUNDS[name])]
        words: list[Word] = ["--stay", "--sessions", "2", "--connections", str(CONNECTIONS), "--port", str(REGION_PORT + RANGES.index(name)),
                 *layout, "--control", self.path(name, "control"), f"{name}=listen:{self.path(name, 'socket')}"]
        self.start(f"{name}-region", [self.program, "serve", *words])
        self.run_region(name, "ready")

    def keep_copies(self, name: str) -> None:
        """Has the copies of a region saved again and again, for its own next start."""
        line = self.control_line(name, "save", self.path(name, "copies"), "--every", str(EVERY))
        self.start(f"{name}-copies", line, CLIENT_WORDS)

    def run_region(self, name: str, *words: Word) -> None:
        """Has `pnuts-ctl` do something with the region of a range."""
        run(*self.control_line(name, *words), environment=CLIENT_WORDS)

    def control_line(self, name: str, *words: Word) -> list[Word]:
        return [*CONTROL, self.path(name, "control"), *words]

    def region_address(self, name: str) -> str:
        """Where others ask for the region of a range."""
        return f"tls://{self.address}:{PROXY_PORT + RANGES.index(name)}"

    def set_state(self, state: str) -> None:
        """Whether the front gives it new connections: `ready`, or `drain`."""
        for name in RANGES:
            tell_front(name, f"set server regions/{NAMES[self.number - 1]} state {state}")

    def path(self, name: str, kind: str) -> Path:
        """A file of the feed and the region of a range."""
        return RUN / f"{self.name}-{name}.{kind}"

    def kill(self, what: str) -> None:
        kill(self.running[what])

    def lose(self) -> None:
        """Cuts the machine off, ends all that runs on it, and removes all that it has written."""
        run("ip", "link", "set", f"{self.name}-near", "down")
        for program in self.running.values():
            if program.poll() is None:
                kill(program)
        for path in RUN.glob(f"{self.name}[-.]*"):
            if path.is_dir():
                shutil.rmtree(path)
            else:
                path.unlink()

    def start_feed_anew(self, name: str) -> None:
        """Kills a feed, and starts another one."""
        self.kill(f"{name}-feed")
        self.start_feed(name)
