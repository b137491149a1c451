"""Reads the proxy's files of examples/proxy as HAProxy does, and asks two regions through it, which are lost, drained and killed in turn.

  checks/run proxy PROGRAM

Needs Debian's haproxy, openssl and python3-prometheus-client.
"""
import os
import signal
import socket
import ssl
import subprocess
import sys
import time
from collections.abc import Callable
from contextlib import ExitStack
from pathlib import Path

from common.crates import TOP
from common.parts import needs
from common.served import Client, free_port, message, same

pytestmark = needs("haproxy", "openssl", modules=("prometheus_client",))

PROXIES, SOURCES = TOP / "examples/proxy", TOP / "clients/python/src"
SECONDS, HOSTS = 300.0, ("127.0.0.1", "127.0.0.2")
READ = b'{"do":"read","key":"k"}\n'
Environment = dict[str, str]


def wait_until(what: str, holds: Callable[[], bool]) -> None:
    last = time.monotonic() + SECONDS
    while not holds():
        if time.monotonic() > last:
            raise AssertionError(f"{what}: not within {SECONDS:.0f} seconds")
        time.sleep(0.05)


def make_certificates(folder: Path) -> None:
    """An authority, and certificates of it for a proxy and a client, as the files want them."""
    key: list[str | Path] = ["-newkey", "ec", "-pkeyopt", "ec_paramgen_curve:prime256v1", "-nodes", "-days", "2"]
    made = [folder / "authority.pem", folder / "authority.key"]
    run(["openssl", "req", "-x509", *key, "-subj", "/CN=authority", "-out", made[0], "-keyout", made[1]])
    for who in ("proxy", "client"):
        path, own = folder / f"{who}.pem", folder / f"{who}.key"
        words: list[str | Path] = ["-subj", f"/CN={who}", "-addext", "subjectAltName=IP:127.0.0.1", "-CA", made[0], "-CAkey", made[1]]
        run(["openssl", "req", "-x509", *key, *words, "-out", path, "-keyout", own])
        path.write_bytes(path.read_bytes() + own.read_bytes())


def run(command: list[str | Path], environment: Environment | None = None) -> None:
    ran = subprocess.run(command, env={**os.environ, **(environment or {})}, capture_output=True, text=True)
    if ran.returncode:
        raise AssertionError(f"{command[0]} ended with {ran.returncode}: {ran.stderr[-1_000:]}")


def try_files(folder: Path) -> str:
    """HAProxy takes the files with each number of regions, plain and with TLS, without a warning."""
    count, ways = 0, list[Environment]([{}, {"PNUTS_CERTIFICATES": str(folder)}])
    for tls in ways:
        for regions in range(1, 5):
            told = {f"PNUTS_REGION_{at}": f"127.0.0.{at}:7070" for at in range(1, regions + 1)}
            run(["haproxy", "-c", "-dW", "-f", PROXIES / "haproxy.cfg"], {**tls, **told})
            count += 1
    run(["haproxy", "-c", "-dW", "-f", PROXIES / "machine.cfg"], {"PNUTS_CERTIFICATES": str(folder)})
    return f"haproxy takes the files in {count + 1} ways"


class Regions:
    """Two regions with the same record, what tells whether each is well, and a proxy."""

    def __init__(self, program: str, folder: Path, stay: ExitStack) -> None:
        self.folder, self._program, self._stay = folder, program, stay
        self.port, self._health, self.front = free_port(), free_port(), free_port()
        self.processes = [self.start(at) for at in range(len(HOSTS))]
        within = {"PYTHONPATH": str(SOURCES), "PYTHONDONTWRITEBYTECODE": "1"}
        for at, host in enumerate(HOSTS):
            words = ["-m", "pnuts_client.ctl", "--control", str(folder / f"control{at}"), "exporter", "--listen", f"{host}:{self._health}"]
            self.run([sys.executable, *words], within)

    def run(self, command: list[str], environment: Environment) -> subprocess.Popen[bytes]:
        quiet = subprocess.DEVNULL
        process = subprocess.Popen(command, env={**os.environ, **environment}, stdin=quiet, stdout=quiet, stderr=quiet)
        self._stay.callback(process.wait)
        self._stay.callback(process.kill)
        return process

    def start(self, at: int) -> subprocess.Popen[bytes]:
        """A region, which has the record in the version of its number."""
        stream = self.folder / f"stream{at}"
        stream.write_bytes(message(1, "k", at, "x"))
        words = ["--stay", "--listen", HOSTS[at], "--port", str(self.port), "--control", str(self.folder / f"control{at}"), f"east={stream}"]
        return self.run([self._program, "serve", *words], {})

    def start_proxy(self, more: Environment) -> None:
        regions = {f"PNUTS_REGION_{at}": f"{host}:{self.port}" for at, host in enumerate(HOSTS, 1)}
        own = {"PNUTS_PROXY_LISTEN": f"127.0.0.1:{self.front}", "PNUTS_PROXY_SOCKET": str(self.folder / "front"), "PNUTS_HEALTH_PORT": str(self._health)}
        self.run(["haproxy", "-db", "-f", str(PROXIES / "haproxy.cfg")], {**regions, **own, **more})

    def tell(self, path: str, line: bytes) -> bytes:
        """What a Unix socket says to a line."""
        with socket.socket(socket.AF_UNIX) as talk:
            talk.settimeout(SECONDS)
            talk.connect(str(self.folder / path))
            talk.sendall(line)
            return talk.makefile("rb").readline()

    def found(self) -> set[int]:
        """Which regions answer through the proxy, of some connections."""
        return {number for _ in range(6) if (number := self.asked()) is not None}

    def asked(self) -> int | None:
        """Which region answers a new connection, if any does."""
        try:
            with Client(self.front) as client:
                return int(client.ask({"do": "read", "key": "k"})["row"]["version"][1])
        except (OSError, ValueError, KeyError, TypeError):
            return None


def try_regions(program: str, folder: Path) -> str:
    """A region that is not well is given nobody, and one that is drained keeps whom it has."""
    with ExitStack() as stay:
        both = Regions(program, folder, stay)
        both.start_proxy({})
        wait_until("both regions are asked", lambda: both.found() == {0, 1})
        same("a loss", both.tell("control0", b'{"do":"lose","tablet":0}\n'), b'{"lost":0}\n')
        wait_until("a region that lost a tablet is not asked", lambda: both.found() == {1})
        both.processes[0].send_signal(signal.SIGKILL)
        both.processes[0].wait()
        both.processes[0] = both.start(0)
        wait_until("both regions are asked again", lambda: both.found() == {0, 1})
        with Client(both.front) as client:
            kept = client.ask({"do": "read", "key": "k"})["row"]["version"][1]
            name = ("one", "two")[kept]
            both.tell("front", f"set server regions/{name} state drain\n".encode())
            same("whether one that is drained is asked", kept in both.found(), False)
            wait_until("the other one is asked", lambda: both.found() == {1 - kept})
            same("who answers on", client.ask({"do": "read", "key": "k"})["row"]["version"][1], kept)
        both.tell("front", f"set server regions/{name} state ready\n".encode())
        wait_until("a region that is ready is asked", lambda: both.found() == {0, 1})
        both.processes[1].kill()
        wait_until("a region that is gone is not asked", lambda: both.found() == {0})
    return "a region is asked while it is well, and one that is drained keeps whom it has"


def try_tls(program: str, folder: Path) -> str:
    """By TLS who has a certificate of the authority is let in, to a region that has a proxy of its own."""
    with ExitStack() as stay:
        both, machine = Regions(program, folder, stay), free_port()
        own = {"PNUTS_PROXY_LISTEN": f"127.0.0.1:{machine}", "PNUTS_REGION": f"{HOSTS[0]}:{both.port}", "PNUTS_CERTIFICATES": str(folder)}
        both.run(["haproxy", "-db", "-f", str(PROXIES / "machine.cfg")], own)
        both.start_proxy({"PNUTS_CERTIFICATES": str(folder), "PNUTS_REGION_1": f"127.0.0.1:{machine}"})

        def asked(certificate: bool) -> bool:
            context = ssl.create_default_context(cafile=folder / "authority.pem")
            if certificate:
                context.load_cert_chain(folder / "client.pem")
            try:
                with socket.create_connection(("127.0.0.1", both.front), 5) as plain, context.wrap_socket(plain, server_hostname="127.0.0.1") as talk:
                    talk.sendall(READ)
                    return b'"row"' in talk.makefile("rb").readline()
            except OSError:
                return False

        wait_until("a client with a certificate is answered", lambda: asked(True))
        same("whether one without is", asked(False), False)
    return "by TLS who has a certificate is let in, and nobody else"


def check_proxy(program: str, folder: str) -> None:
    """HAProxy reads its files, sends clients to regions that are well, and lets those in by TLS that have a certificate."""
    here = Path(folder)
    make_certificates(here)
    print(try_files(here), try_regions(program, here), try_tls(program, here), sep="\n")
