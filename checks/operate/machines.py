"""Machines as namespaces of the network and of mounts, each with the services of the packages; and this one, with broker, proxy and readers."""
from __future__ import annotations

import contextlib
import json
import os
import shutil
import signal
import socket
import subprocess
import sys
import time
from collections.abc import Callable, Iterator, Sequence
from pathlib import Path
from typing import Any

from common.crates import TOP
from common.parts import RUN

WITHIN = "PNUTS_OPERATE_IS_WITHIN"
HOME = Path("/run/operate")
NETWORK, HUB = "10.0.0", "10.0.0.1"
PREFIX = Path("/opt/pnuts")
PATH = f"/run/bin:{PREFIX}/bin:/usr/sbin:/usr/bin:/sbin:/bin"
PATIENCE = 180.0
# Where a program for the shell finds the database.
DATABASE = {"PGHOST": HUB, "PGUSER": "pn", "PGDATABASE": "postgres"}
Word = str | os.PathLike[str]


def apart(words: Sequence[str]) -> int:
    """Runs this check in namespaces of its own, in which all ends with it, however it ends. Its status."""
    line = ["setpriv", "--pdeathsig=KILL", "unshare", "--net", "--mount", "--pid", "--fork", "--kill-child", "--mount-proc", str(RUN), "operate", *words]
    running = subprocess.Popen(line, env={**os.environ, WITHIN: "yes"})
    try:
        return running.wait()
    finally:
        running.kill()
        running.wait()


def is_apart() -> bool:
    return bool(os.environ.get(WITHIN))


def until(what: str, holds: Callable[[], bool], seconds: float = PATIENCE) -> float:
    """Waits until something holds, and answers for how many seconds."""
    start = time.monotonic()
    while not holds():
        if time.monotonic() > start + seconds:
            raise TimeoutError(f"{what}: not within {seconds:.0f} seconds")
        time.sleep(0.05)
    return time.monotonic() - start


def run(*command: Word) -> str:
    """Runs a command. Raises AssertionError with what it says where it fails."""
    ran = subprocess.run(command, stdin=subprocess.DEVNULL, stdout=subprocess.PIPE, stderr=subprocess.STDOUT, text=True)
    if ran.returncode:
        raise AssertionError(f"{' '.join(map(str, command))[:300]} ended with {ran.returncode}: {ran.stdout[-2000:]}")
    return ran.stdout


def prepare(program: str) -> None:
    """This machine's own folders and network, and what is installed on all others."""
    for folder in ("/run", "/dev/shm", "/var/lib/postgresql"):
        if os.path.isdir(folder):
            run("mount", "-t", "tmpfs", "-o", "mode=1777", "none", folder)
    for path in (HOME, Path("/run/netns"), Path("/run/haproxy")):
        path.mkdir()
    run("ip", "link", "set", "lo", "up")
    run("ip", "link", "add", "switch", "type", "bridge")
    run("ip", "address", "add", f"{HUB}/24", "dev", "switch")
    run("ip", "link", "set", "switch", "up")
    install(program, HOME / "installed")


def install(program: str, folder: Path) -> None:
    """What the packages have, in a folder that is taken for the root."""
    where = ["--prefix", str(PREFIX), "--etc", "/etc", "--units", "/etc/systemd/system", "--destdir", str(folder)]
    for what in ("--feeds", "--tools"):
        run(TOP / "packaging/install", what, *where)
    run(sys.executable, "-c", INSTALL, TOP, program, PREFIX, folder)


# The program and its service alone: its pages and licences need more than a built program.
INSTALL = """
import sys
from pathlib import Path
sys.dont_write_bytecode = True
top, program, prefix, folder = sys.argv[1:]
sys.path.insert(0, top + "/packaging")
from importlib.machinery import SourceFileLoader
from importlib.util import module_from_spec, spec_from_loader
spec = spec_from_loader("install", SourceFileLoader("install", top + "/packaging/install"))
made = module_from_spec(spec)
sys.modules["install"] = made
spec.loader.exec_module(made)
paths = made.Paths(Path(prefix), Path("/etc"), Path("/etc/systemd/system"))
made.copy(Path(program), made.below(Path(folder), paths.program), 0o755)
unit = paths.fill_in(Path(top, "packaging/systemd/pnuts.service.in").read_text())
path = made.below(Path(folder), paths.units / "pnuts.service")
path.parent.mkdir(parents=True, exist_ok=True)
path.write_text(unit)
"""


def shell(script: str) -> list[str]:
    """The command that gives a script to a shell in which each command has to go well."""
    words = [f"{name}={value}" for name, value in {"PATH": PATH, "HOME": "/root", **DATABASE}.items()]
    return ["env", "-i", *words, "bash", "-euo", "pipefail", "-c", script]


class Machine:
    """A machine, until it is lost. Its address ends in its number."""

    def __init__(self, number: int) -> None:
        self.number = number
        self.address = f"{NETWORK}.{number}"
        self.name = f"machine{number}"
        self._network()
        self.process = subprocess.Popen(["nsenter", f"--net=/run/netns/{self.name}", "unshare", "--mount", "--pid", "--fork", "--kill-child", "--mount-proc",
                                         sys.executable, str(Path(__file__).with_name("machine.py")), str(HOME / "installed")],
                                        env={"PATH": PATH, "PYTHONDONTWRITEBYTECODE": "1"}, stdin=subprocess.DEVNULL, start_new_session=True)
        self.first = 0
        until(f"{self.name} is there", self._is_there)

    def _network(self) -> None:
        near, far = f"near{self.number}", f"far{self.number}"
        run("ip", "netns", "add", self.name)
        run("ip", "link", "add", near, "type", "veth", "peer", "name", far, "netns", self.name)
        run("ip", "link", "set", near, "master", "switch", "up")
        run("ip", "-n", self.name, "address", "add", f"{self.address}/24", "dev", far)
        run("ip", "-n", self.name, "link", "set", far, "up")
        run("ip", "-n", self.name, "link", "set", "lo", "up")

    def _is_there(self) -> bool:
        if self.process.poll() is not None:
            raise AssertionError(f"{self.name} ended with {self.process.returncode}")
        with contextlib.suppress(OSError, ValueError, IndexError):
            children = Path(f"/proc/{self.process.pid}/task/{self.process.pid}/children").read_text(encoding="utf-8").split()
            self.first = int(children[0])
            return os.path.exists(self.path("/run/units.socket"))
        return False

    def path(self, path: str) -> str:
        """The path from here of a path in there."""
        return f"/proc/{self.first}/root{path}"

    def write(self, path: str, text: str) -> None:
        Path(self.path(path)).write_text(text, encoding="utf-8")

    def run(self, script: str) -> str:
        """Runs commands as root of the machine, as `bash` takes them; each has to go well."""
        return run("nsenter", f"--target={self.first}", "--mount", "--net", "--pid", "--", *shell(script))

    def journal(self, unit: str) -> str:
        with contextlib.suppress(FileNotFoundError):
            return Path(self.path(f"/run/journal/{unit}.service")).read_text(encoding="utf-8", errors="replace")
        return ""

    def lose(self) -> None:
        """Cuts the machine off, and ends all that runs on it, with all that it has written."""
        run("ip", "link", "set", f"near{self.number}", "down")
        os.killpg(self.process.pid, signal.SIGKILL)
        self.process.wait()
        subprocess.run(["ip", "link", "delete", f"near{self.number}"], stderr=subprocess.DEVNULL, check=False)
        run("ip", "netns", "delete", self.name)


def configure(machine: Machine, feed: str, words: str, stream: str = "east") -> None:
    """What configuration gives a machine of a region: the files of /etc/default."""
    machine.write("/etc/default/pnuts", f'PNUTS_STREAMS="{stream}=listen:/run/pnuts/{stream}"\n'
                  f'PNUTS_WORDS="--sessions 2 --listen {machine.address} --port 7070"\nPNUTS_WITHOUT_COPIES=no\n')
    machine.write(f"/etc/default/pnuts-feed-{stream}", f'FEED={feed}\nFEED_WORDS="{words}"\n')
    machine.write("/etc/default/pnuts-tools", f'EXPORTER_WORDS="--listen {machine.address}:9107"\n')


def ask(machine: Machine, **command: object) -> dict[str, Any]:
    """A line at the control socket of a machine's region, and its reply."""
    with socket.socket(socket.AF_UNIX) as control:
        control.settimeout(PATIENCE)
        # A path of a socket is short: that of the machine's root is.
        control.connect(machine.path("/run/pnuts/control"))
        control.sendall(json.dumps(command).encode() + b"\n")
        reply: dict[str, Any] = json.loads(control.makefile("rb").readline())
    return reply


@contextlib.contextmanager
def started(name: str, command: Sequence[Word], environment: dict[str, str] | None = None) -> Iterator[subprocess.Popen[bytes]]:
    """A program of this machine, until the block ends."""
    with open(HOME / f"{name}.said", "ab") as said:
        program = subprocess.Popen(command, stdin=subprocess.DEVNULL, stdout=said, stderr=said, env={**os.environ, **(environment or {})}, start_new_session=True)
    try:
        yield program
    finally:
        with contextlib.suppress(ProcessLookupError):
            os.killpg(program.pid, signal.SIGKILL)
        program.wait()


def lacking() -> list[str]:
    """What this check cannot do without, and is not there."""
    tools = {"unshare": "util-linux", "nsenter": "util-linux", "setpriv": "util-linux", "ip": "iproute2", "redis-server": "redis-server", "redis-cli": "redis-tools",
             "haproxy": "haproxy", "prometheus": "prometheus", "socat": "socat", "curl": "curl"}
    modules = {"redis": "python3-redis", "prometheus_client": "python3-prometheus-client"}
    found = [package for tool, package in tools.items() if not shutil.which(tool)]
    found += [package for module, package in modules.items() if not has_module(module)]
    return sorted({*found, *([] if os.geteuid() == 0 else ["root"])})


def has_module(name: str) -> bool:
    """Whether Debian's Python, which feeds and tools run by, has a module."""
    return subprocess.run(["/usr/bin/python3", "-c", f"import {name}"], stderr=subprocess.DEVNULL).returncode == 0
