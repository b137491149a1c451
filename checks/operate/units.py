"""The services of a machine: units of systemd that are run without it, as far as those of this repository need it.

`systemctl` and `journalctl` of the machine ask this program, which is the machine's first, by a socket.
"""
from __future__ import annotations

import json
import os
import re
import shlex
import signal
import subprocess
import threading
import time
from collections.abc import Iterator, Mapping
from pathlib import Path
from typing import Any

UNITS, JOURNAL = Path("/etc/systemd/system"), Path("/run/journal")
FOLDERS = {"%t": "/run", "%S": "/var/lib", "%E": "/etc"}
VARIABLE = re.compile(r"\$(?:\{(\w+)\}|(\w+)|(\$))")
SECONDS = {"s": 1, "sec": 1, "min": 60, "h": 3600}
PAUSE = 0.02


def seconds_in(text: str) -> float:
    """A time span of a unit."""
    parts = re.findall(r"([\d.]+)\s*([a-z]*)", text)
    return sum(float(count) * SECONDS[unit or "s"] for count, unit in parts)


class Unit:
    """A unit's lines, with what its name and its environment say filled in."""

    def __init__(self, name: str) -> None:
        base, _, kind = name.rpartition(".")
        whole, at, instance = base.partition("@")
        self.name = name
        self._lines: list[tuple[str, str]] = []
        text = (UNITS / f"{whole}{at}.{kind}").read_text(encoding="utf-8").replace("%i", instance)
        for mark, folder in FOLDERS.items():
            text = text.replace(mark, folder)
        for line in text.splitlines():
            if "=" in line and not line.startswith("#"):
                key, _, value = line.partition("=")
                self._lines.append((key, value))

    def all(self, key: str) -> list[str]:
        return [value for name, value in self._lines if name == key]

    def one(self, key: str, usual: str = "") -> str:
        return (self.all(key) or [usual])[-1]

    def environment(self) -> dict[str, str]:
        """What the unit and the files of its environment set."""
        found = dict(pair.split("=", 1) for value in self.all("Environment") for pair in shlex.split(value))
        for value in self.all("EnvironmentFile"):
            path = Path(value.removeprefix("-"))
            if path.exists() or not value.startswith("-"):
                lines = (it for it in path.read_text(encoding="utf-8").splitlines() if "=" in it and not it.startswith("#"))
                found |= {key: " ".join(shlex.split(text)) if text[:1] in "'\"" else text for key, _, text in (it.partition("=") for it in lines)}
        return found


def words_of(line: str, environment: Mapping[str, str]) -> Iterator[str]:
    """The words of a command of a unit, as systemd(5) cuts them: a variable alone is as many words as it has, and within a word none."""
    for word in shlex.split(line):
        alone = VARIABLE.fullmatch(word)
        if alone and alone[2]:
            yield from shlex.split(environment.get(alone[2], ""))
        else:
            yield VARIABLE.sub(lambda it: "$" if it[3] else environment.get(it[1] or it[2], ""), word)


class Service:
    """A service, which is started anew where its unit says so."""

    def __init__(self, name: str) -> None:
        self.name = name
        self.process: subprocess.Popen[bytes] | None = None
        self.status: int | None = None
        self.restarts = 0
        self._wanted = False
        self._lock = threading.RLock()

    def is_active(self) -> bool:
        return self.process is not None and self.process.poll() is None

    def start(self) -> int:
        """Starts it, and waits until it is ready. The status: 0 where it came to that."""
        with self._lock:
            if self.is_active():
                return 0
            unit = Unit(self.name)
            self._wanted = True
            return self._start(unit)

    def _start(self, unit: Unit) -> int:
        for kind, folder in (("RuntimeDirectory", "/run"), ("StateDirectory", "/var/lib")):
            if name := unit.one(kind):
                Path(folder, name).mkdir(exist_ok=True)
                os.chmod(Path(folder, name), int(unit.one(f"{kind}Mode", "755"), 8))
                os.chown(Path(folder, name), *_ids(unit))
        for line in unit.all("ExecStartPre"):
            if self._run(unit, line, unit.environment()) and not line.startswith("-"):
                return 1
        # A line before it may have written a file of the environment.
        environment = unit.environment()
        self.process = self._popen(unit, unit.one("ExecStart"), environment)
        if unit.one("Type") == "oneshot":
            self._wanted = False
            self.status = self.process.wait()
            return self.status
        environment["MAINPID"] = str(self.process.pid)
        threading.Thread(target=self._watch, args=[unit, self.process], daemon=True).start()
        return max((self._run(unit, line, environment) for line in unit.all("ExecStartPost")), default=0)

    def stop(self) -> None:
        """Ends it: by its own command, and then by a signal."""
        with self._lock:
            self._wanted = False
            process = self.process
            if process is None or process.poll() is not None:
                return
            unit = Unit(self.name)
            for line in unit.all("ExecStop"):
                self._run(unit, line, unit.environment() | {"MAINPID": str(process.pid)})
            if process.poll() is None:
                os.killpg(process.pid, signal.SIGTERM)
            try:
                process.wait(90)
            except subprocess.TimeoutExpired:
                os.killpg(process.pid, signal.SIGKILL)
                process.wait()
            self._forget(unit)

    def _forget(self, unit: Unit) -> None:
        name = unit.one("RuntimeDirectory")
        if name and unit.one("RuntimeDirectoryPreserve") != "yes":
            subprocess.run(["rm", "-rf", f"/run/{name}"], check=True)

    def kill(self) -> None:
        if self.process is not None and self.is_active():
            os.killpg(self.process.pid, signal.SIGKILL)

    def _watch(self, unit: Unit, process: subprocess.Popen[bytes]) -> None:
        """Starts it anew once it has ended by itself, as often as it does."""
        self.status = status = process.wait()
        time.sleep(seconds_in(unit.one("RestartSec", "100ms").replace("ms", "e-3")) if unit.one("Restart") == "always" else 0)
        with self._lock:
            if not self._wanted or process is not self.process:
                return
            if unit.one("Restart") != "always" or str(status) in unit.one("RestartPreventExitStatus").split():
                self._wanted = False
                return
            self.restarts += 1
            self._forget(unit)
            self._start(Unit(self.name))

    def _run(self, unit: Unit, line: str, environment: Mapping[str, str]) -> int:
        return self._popen(unit, line.removeprefix("-"), environment).wait()

    def _popen(self, unit: Unit, line: str, environment: Mapping[str, str]) -> subprocess.Popen[bytes]:
        user = unit.one("User")
        as_user = ["setpriv", f"--reuid={user}", f"--regid={unit.one('Group', user)}", "--clear-groups"] if user else []
        command = [*as_user, *words_of(line, environment)]
        with (JOURNAL / self.name).open("ab") as said:
            return subprocess.Popen(command, stdin=subprocess.DEVNULL, stdout=said, stderr=said, start_new_session=True,
                                    cwd=unit.one("WorkingDirectory", "/"), env={"PATH": os.environ["PATH"], **environment}, umask=0o027)


def _ids(unit: Unit) -> tuple[int, int]:
    lines = (it.split(":") for it in Path("/etc/passwd").read_text(encoding="utf-8").splitlines())
    return next((int(it[2]), int(it[3])) for it in lines if it[0] == unit.one("User", "root"))


class Timer:
    """A timer, which starts its service again and again."""

    def __init__(self, name: str, services: Services) -> None:
        self._name, self._services = name, services
        self._stopped: threading.Event | None = None

    def is_active(self) -> bool:
        return self._stopped is not None

    def start(self) -> int:
        if self._stopped is None:
            unit, self._stopped = Unit(self._name), threading.Event()
            threading.Thread(target=self._run, args=[unit, self._stopped], daemon=True).start()
        return 0

    def _run(self, unit: Unit, stopped: threading.Event) -> None:
        wait = seconds_in(unit.one("OnActiveSec"))
        while not stopped.wait(wait):
            self._services.of(self._name.replace(".timer", ".service")).start()
            wait = seconds_in(unit.one("OnUnitInactiveSec"))

    def stop(self) -> None:
        if self._stopped is not None:
            self._stopped.set()
            self._stopped = None

    def kill(self) -> None:
        self.stop()


class Services:
    """All services and timers, and what `systemctl` and `journalctl` do with them."""

    def __init__(self) -> None:
        self._known: dict[str, Service | Timer] = {}
        self._lock = threading.Lock()

    def of(self, word: str) -> Service | Timer:
        name = word if word.endswith((".service", ".timer")) else f"{word}.service"
        with self._lock:
            if name not in self._known:
                Unit(name)
                self._known[name] = Timer(name, self) if name.endswith(".timer") else Service(name)
            return self._known[name]

    def do(self, words: list[str]) -> tuple[int, str]:
        """A command of `systemctl`: its status, and what it writes."""
        command, *names = [it for it in words if not it.startswith("--")]
        status, said = 0, ""
        for it in map(self.of, names):
            if command in ("stop", "restart") or command == "disable" and "--now" in words:
                it.stop()
            if command in ("start", "restart") or command == "enable" and "--now" in words:
                status = max(status, min(1, abs(it.start())))
            elif command == "is-active":
                said += "active\n" if it.is_active() else "inactive\n"
                status = max(status, 0 if it.is_active() else 3)
            elif command == "kill":
                it.kill()
            elif command not in ("stop", "disable", "enable"):
                return 1, f"systemctl: there is no {command} here\n"
        return status, said

    def journal(self, words: list[str]) -> tuple[int, str]:
        """What `journalctl --unit=UNIT [--lines=N]` writes."""
        told = dict(it.removeprefix("--").split("=", 1) for it in words if "=" in it)
        name = told["unit"] if "." in told["unit"] else f"{told['unit']}.service"
        lines = (JOURNAL / name).read_text(encoding="utf-8", errors="replace").splitlines()
        return 0, "".join(f"{it}\n" for it in lines[-int(told.get("lines", "1000")):])


def answer(services: Services, line: bytes) -> dict[str, Any]:
    told: list[str] = json.loads(line)
    try:
        status, said = services.do(told[1:]) if told[0] == "systemctl" else services.journal(told[1:])
    except (OSError, KeyError, ValueError, StopIteration) as fault:
        status, said = 1, f"{told[0]}: {fault}\n"
    return {"said": said, "status": status}
