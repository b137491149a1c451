"""What is done with the packages of Debian in a system: installed, served, fed, upgraded over themselves, and removed."""

from __future__ import annotations

import json
import os
import shlex
import shutil
import sys
import time
from collections.abc import Iterator, Sequence
from pathlib import Path
from typing import Any

from common.crates import TOP
from common.served import image, message, row_of, same
from usage.fresh_system import CLEAN, PAUSE, SECONDS, System, run

# What a session is read by, in another system.
ONE_SESSION = Path(__file__).resolve().parent / "one_session.py"
UNITS = tuple(f"/lib/systemd/system/{it}" for it in (
    "pnuts.service", "pnuts-feed@.service", "pnuts-exporter.service", "pnuts-http.service", "pnuts-save.service", "pnuts-save.timer"))
HTTP_PORT = 8080
ENVIRONMENT = "etc/default/pnuts"
SOCKET = "/run/pnuts/east"
COPIES = "/var/lib/pnuts/copies"
# How a program writes into the socket. It waits until the region has closed it.
WRITE = f"socat -t 10 - UNIX-CONNECT:{SOCKET}"

# A feed of Redis, and where its words are, which the document on installing shows.
FEED = "pnuts-feed@east"
FEED_ENVIRONMENT = "etc/default/pnuts-feed-east"

# What changes by a user, which a package keeps.
USERS = {"etc/group", "etc/gshadow", "etc/passwd", "etc/shadow"}

# Files of the check in the system, and how the lines of its examples begin.
SCRATCH = "/var/tmp"
INDENT = "    "
ROW = '{"row":'

# The exposure that systemd may find at most, in tenths, and lines of a unit that it has to refuse.
EXPOSURE = 15
UNKNOWN = "[Service]\nExecStart=/bin/true\nProtectEverything=yes\n"

# What a process of the service may do, as /proc says it.
CAPABILITIES = ("CapInh", "CapPrm", "CapEff", "CapBnd", "CapAmb")
BOUNDS = {**dict.fromkeys(CAPABILITIES, "0" * 16), "NoNewPrivs": "1", "Seccomp": "2"}

# What is none of the package's: mounts, logs, and what dpkg, man and shadow note for themselves.
PASSED = ("dev", "proc", "run", "sys", "tmp", "var/cache", "var/lib/dpkg", "var/log", "var/tmp")
NOTED = ("etc/group-", "etc/gshadow-", "etc/passwd-", "etc/shadow-", "etc/.pwd.lock")


def trace(root: Path) -> dict[str, bytes]:
    """All files of the system, with the contents of those in /etc."""
    found: dict[str, bytes] = {}
    for folder, folders, names in os.walk(root):
        here = Path(folder).relative_to(root)
        folders[:] = [it for it in folders if str(here / it) not in PASSED]
        for path in (here / name for name in [*folders, *names]):
            is_text = path.parts[0] == "etc" and (root / path).is_file() and not (root / path).is_symlink()
            if str(path) not in NOTED:
                found[str(path)] = (root / path).read_bytes() if is_text else b""
    return found


def differing(root: Path, before: dict[str, bytes]) -> set[str]:
    """What is new, gone or changed in the system."""
    after = trace(root)
    return {it for it in before.keys() | after.keys() if before.get(it) != after.get(it)}


def check_lintian(root: Path, package: Path) -> None:
    """lintian finds neither an error nor what it warns of."""
    shutil.copy(package, root)
    line = ["lintian", "--fail-on", "error,warning", f"/{package.name}"]
    run(["unshare", "--mount", f"--root={root}", "runuser", "--user=nobody", "--", *line], env={**CLEAN, "HOME": "/tmp"})


def shown(system: System, *names: str, unit: str = "pnuts") -> list[str]:
    """What systemd says of a service under these names."""
    return [system.run("systemctl", "show", unit, "--value", f"--property={name}").strip() for name in names]


def check_units(system: System) -> None:
    """systemd knows each line of the units, and finds the services little exposed."""
    verify = ("systemd-analyze", "verify", "--recursive-errors=no")
    for unit in UNITS:
        named = unit.replace("@", "@east")
        same(f"what is said against {named}", system.status(*verify, named), (0, ""))
        if unit.endswith(".service"):
            system.run("systemd-analyze", "security", "--no-pager", f"--threshold={EXPOSURE}", "--offline=yes", unit)
    (system.root / "etc/unknown.service").write_text(UNKNOWN, encoding="utf-8")
    same("a unit with an unknown line is refused", system.status(*verify, "/etc/unknown.service")[0], 1)
    (system.root / "etc/unknown.service").unlink()


def check_bounds(system: System, process: str) -> None:
    """The service is the user pnuts, without any capability."""
    lines = (it.partition(":\t") for it in system.run("cat", f"/proc/{process}/status").splitlines())
    status = {name: value for name, _, value in lines}
    same("what the service may do", {name: status[name] for name in BOUNDS}, BOUNDS)
    same("the service's user", status["Uid"].split()[0], system.run("id", "--user", "pnuts").strip())
    same("the service's memory has a limit", shown(system, "MemoryMax") != ["infinity"], True)


def check_serving(system: System) -> str:
    """Writes a message into the socket as the user pnuts and as its group, which no others may, and reads it in a session. The
    process that serves.
    """
    system.wait_for("active", "systemctl", "is-active", "pnuts")
    system.wait_for("socket pnuts:pnuts 660", "stat", "--format=%F %U:%G %a", SOCKET)
    write = f"echo {shlex.quote(message(1, 'k', 0, 'x').decode().strip())} | "
    same("what is told the publisher first", system.run("bash", "-c", f"{write} runuser -u pnuts -- {WRITE}")[:9], '{"after":')
    for group, may in (("pnuts", True), ("nogroup", False)):
        other = f"{write} setpriv --reuid=nobody --regid={group} --clear-groups {WRITE}"
        same(f"whether the group {group} may write", "Permission denied" not in system.status("bash", "-c", other)[1], may)
    check_record(system, 0, "x")
    return shown(system, "MainPID")[0]


def check_record(system: System, number: int, text: str) -> None:
    """Reads the record in a session, once it has this version."""
    words = system.run("cat", f"/proc/{shown(system, 'MainPID')[0]}/cmdline").split("\0")
    address = words[words.index("--port") + 1] if "--port" in words else "7070"
    if "--socket" in words:
        address = system.path(words[words.index("--socket") + 1])
    system.run_beside(sys.executable, str(ONE_SESSION), address, "k", json.dumps(row_of("k", number, text)))


def check_example(system: System) -> None:
    """Where the example in the environment file is taken, the program gets the bounds that it shows."""
    environment = system.root / ENVIRONMENT
    as_it_was = environment.read_text(encoding="utf-8")
    lines = [it for it in as_it_was.splitlines() if not it.startswith("PNUTS_WORDS=")]
    environment.write_text("\n".join(it.removeprefix("# ") if "PNUTS_BOUNDS='[\"" in it else it for it in lines) + "\n", encoding="utf-8")
    system.run("systemctl", "restart", "pnuts")
    process = check_serving(system)
    same("the bounds", '["g","p"]' in system.run("cat", f"/proc/{process}/cmdline").split("\0"), True)
    environment.write_text(as_it_was, encoding="utf-8")


def check_refused(system: System) -> None:
    """With words that the program refuses, the service fails and is not started again and again."""
    environment = system.root / ENVIRONMENT
    as_it_was = environment.read_bytes()
    environment.write_text("PNUTS_WORDS=--fast\n", encoding="utf-8")
    system.status("systemctl", "restart", "pnuts")
    system.wait_for("failed", "systemctl", "is-active", "pnuts")
    same("how it ended, and starts", shown(system, "ExecMainStatus", "NRestarts"), ["2", "0"])
    environment.write_bytes(as_it_was)


def check_control(system: System) -> None:
    """It is ready once `systemctl start` returns, and ends with 0 at a stop: by systemd, or by its control socket, after which it stays ended."""
    same("the socket", system.run("stat", "--format=%F %U:%G %a", "/run/pnuts/control").strip(), "socket pnuts:pnuts 600")
    for line in (["systemctl", "stop", "pnuts"], ["pnuts-ctl", "stop"]):
        system.run("systemctl", "start", "pnuts")
        same("what it has done so far", json.loads(system.run("pnuts-ctl", "--json", "status"))["stats"]["rounds"], 0)
        system.run(*line)
        system.wait_for("inactive", "systemctl", "is-active", "pnuts")
        same("how it ended, and starts", shown(system, "Result", "ExecMainStatus", "NRestarts"), ["success", "0", "0"])
    system.run("systemctl", "start", "pnuts")


def status_of(system: System) -> dict[str, Any]:
    """What the service holds and does."""
    status: dict[str, Any] = json.loads(system.run("pnuts-ctl", "--json", "status"))
    return status


def check_copies(system: System) -> None:
    """It starts from copies that were saved of it, with all that they have. Of a text that is cut short no start is made, until it is told
    to start without.
    """
    before, environment, copies = status_of(system), system.root / ENVIRONMENT, system.root / COPIES[1:]
    as_it_was = environment.read_text(encoding="utf-8")
    system.run("runuser", "-u", "pnuts", "--", "pnuts-ctl", "save", COPIES)
    system.run("systemctl", "restart", "pnuts")
    same("the marks after a start from copies", status_of(system)["marks"], before["marks"])
    check_record(system, 0, "x")
    same("what is beside the copies", [path.name for path in copies.parent.iterdir()], [copies.name])
    copies.write_bytes(copies.read_bytes()[:-1])
    system.status("systemctl", "restart", "pnuts", "--no-block")
    lines = len(copies.read_bytes().splitlines())
    wait_for_words(system, f"pnuts: copies: line {lines}: truncated")
    system.wait_for("activating", "systemctl", "is-active", "pnuts")
    environment.write_text(as_it_was.replace("PNUTS_WITHOUT_COPIES=no", "PNUTS_WITHOUT_COPIES=yes"), encoding="utf-8")
    system.wait_for("active", "systemctl", "is-active", "pnuts")
    wait_for_words(system, f"they are in {COPIES}.refused")
    same("the marks after a start without", status_of(system)["marks"], {})
    same("what is beside the copies", [path.name for path in copies.parent.iterdir()], [f"{copies.name}.refused"])
    copies.with_name(f"{copies.name}.refused").unlink()
    environment.write_text(as_it_was, encoding="utf-8")
    system.run("systemctl", "restart", "pnuts")


def check_tools(system: System) -> None:
    """Copies that root or the timer's service saves are the service's own, and it starts from them; the exporter finds the region well."""
    for line in (["pnuts-ctl", "save", COPIES], ["systemctl", "start", "pnuts-save"], ["pnuts-ctl", "save", COPIES]):
        system.run(*line)
        same("the copies' owner and mode", system.run("stat", "--format=%U:%G %a", COPIES).strip(), "pnuts:pnuts 640")
    system.run("systemctl", "restart", "pnuts")
    check_record(system, 0, "x")
    system.run("systemctl", "enable", "--now", "pnuts-save.timer", "pnuts-exporter")
    health = "import urllib.request; print(urllib.request.urlopen('http://127.0.0.1:9107/healthz').read().decode(), end='')"
    system.wait_for("well", "python3", "-c", health)
    same("the exporter's user", shown(system, "User", unit="pnuts-exporter"), ["pnuts"])
    system.run("systemctl", "disable", "--now", "pnuts-save.timer", "pnuts-exporter")
    (system.root / COPIES[1:]).unlink()
    system.run("systemctl", "restart", "pnuts")


def wait_for_words(system: System, words: str) -> None:
    """Waits until the journal of the service has these words."""
    last = time.monotonic() + SECONDS
    while words not in system.status("journalctl", "--no-pager", "--unit=pnuts")[1]:
        if time.monotonic() > last:
            raise TimeoutError(f"the journal does not say {words!r}")
        time.sleep(PAUSE)


def check_operation(system: System) -> int:
    """Does what the page pnuts(8) shows under its examples. How many lines."""
    text = (TOP / "packaging/man/operation.md").read_text(encoding="utf-8").partition("## Examples\n")[2]
    lines = [it.removeprefix(INDENT) for it in text.splitlines() if it.startswith(INDENT)]
    (system.root / SCRATCH[1:] / "east.log").write_bytes(message(1, "k", 0, "x"))
    shown = [system.run("bash", "-c", f"cd {SCRATCH}; {line}") for line in lines]
    same("replies to the lines that ask", [it[: len(ROW)] for line, it in zip(lines, shown) if '"do"' in line], [ROW])
    return len(lines)


def check_killed(system: System, unit: str) -> None:
    """Kills a service, which is started anew."""
    (starts,) = shown(system, "NRestarts", unit=unit)
    system.run("systemctl", "kill", "--signal=KILL", unit)
    system.wait_for(str(int(starts) + 1), "systemctl", "show", unit, "--value", "--property=NRestarts")


def check_feed(system: System) -> None:
    """A feed of Redis gives what is added, also once it, the region and both were killed."""
    lines = (TOP / "docs/installing.md").read_text(encoding="utf-8").splitlines()
    words = "".join(f"{it.removeprefix(INDENT)}\n" for it in lines if it.startswith(f"{INDENT}FEED"))
    (system.root / FEED_ENVIRONMENT).write_text(words, encoding="utf-8")
    system.run("redis-server", "--daemonize", "yes", "--save", "", "--dir", SCRATCH)
    system.wait_for("PONG", "redis-cli", "PING")
    # What it has of the stream so far is not the broker's.
    system.run("systemctl", "restart", "pnuts")
    system.run("systemctl", "enable", "--now", FEED)
    for number, killed in enumerate([list[str](), [FEED], ["pnuts"], [FEED, "pnuts"]], 1):
        for unit in killed:
            check_killed(system, unit)
        system.run("redis-cli", "XADD", "east", "*", "image", json.dumps(image("k", number, "x")))
        system.wait_for("active", "systemctl", "is-active", "pnuts")
        check_record(system, number, "x")
    same("the feed's user", shown(system, "User", unit=FEED), ["pnuts"])
    same("the folder that it may keep files in", system.run("stat", "--format=%F %U:%G %a", "/var/lib/pnuts-feeds").strip(), "directory pnuts:pnuts 750")
    system.run("systemctl", "disable", "--now", FEED)
    system.run("redis-cli", "SHUTDOWN", "NOSAVE")
    (system.root / FEED_ENVIRONMENT).unlink()


def asked(system: System, path: str) -> str:
    """What the front for HTTP answers. It drops what it is asked once the client's side is closed."""
    request = shlex.quote(f"GET {path} HTTP/1.0\r\n\r\n".replace("\r", "\\r").replace("\n", "\\n"))
    return system.status("bash", "-c", f"printf {request} | socat -t 10 - TCP:127.0.0.1:{HTTP_PORT},shut-none")[1]


def check_http(system: System) -> None:
    """The front for HTTP, enabled, has the region's record and follows its changes, also once it was killed; then it is stopped."""
    system.run("systemctl", "enable", "--now", "pnuts-http")
    for is_killed in (False, True):
        if is_killed:
            check_killed(system, "pnuts-http")
        last = time.monotonic() + SECONDS
        while "pnuts_http_ranges_not_followed 0" not in asked(system, "/metrics"):
            if time.monotonic() > last:
                raise TimeoutError(f"the front follows no changes\n{system.journal()}")
            time.sleep(PAUSE)
        answer = asked(system, "/records/k")
        same(f"whether it has the record: {answer}", '"key":"k"' in answer, True)
    check_bounds(system, shown(system, "MainPID", unit="pnuts-http")[0])
    system.run("systemctl", "reload", "pnuts-http")
    system.run("systemctl", "disable", "--now", "pnuts-http")
    same("how it ended", shown(system, "Result", "ExecMainStatus", unit="pnuts-http"), ["success", "0"])


def check_packages(system: System, packages: Sequence[Path]) -> Iterator[str]:
    """Installs the packages, uses them, and removes them. Says what was done."""
    before, install = trace(system.root), ["dpkg", "--install", *(f"/{package.name}" for package in packages)]
    system.run(*install)
    same("the service", shown(system, "UnitFileState", "ActiveState"), ["disabled", "inactive"])
    yield "installed: the service is there, and off"
    check_units(system)
    yield f"systemd knows each line of the units, and finds exposures of at most {EXPOSURE / 10}"
    system.run("systemctl", "enable", "--now", "pnuts")
    process = check_serving(system)
    check_bounds(system, process)
    yield "enabled: it serves what is written into its stream's socket, as its own user and without a capability"
    same("the process that serves another feed and client", check_serving(system), process)
    yield "its feed and its client ended: it stays for the next ones"
    system.run("systemctl", "kill", "--signal=KILL", "pnuts")
    system.wait_for("1", "systemctl", "show", "pnuts", "--value", "--property=NRestarts")
    process = check_serving(system)
    yield "killed: it came back, and serves"
    system.run(*install)
    same("another process serves", check_serving(system) != process, True)
    yield "upgraded over itself: it was started anew, and serves"
    check_example(system)
    yield "started with the example in the environment file: the program gets its bounds"
    check_refused(system)
    yield "started with words that it refuses: it failed, and was left alone"
    system.run("systemctl", "restart", "pnuts")
    check_control(system)
    yield "stopped, by systemd and by its control socket: it ended with 0, and was not started anew"
    check_serving(system)
    check_copies(system)
    yield "started from copies: it has what they have; of a text that is cut short it starts only where it is told to, without"
    check_serving(system)
    check_tools(system)
    yield "copies that root or the timer's service saves are the service's own, and the exporter finds the region well"
    check_serving(system)
    yield f"did the {check_operation(system)} lines that pnuts(8) shows as examples"
    check_feed(system)
    yield "a feed of Redis, enabled: it gives what is added, also once it and the region were killed"
    check_http(system)
    yield "the front for HTTP, enabled: it has the record and follows changes, also once it was killed"
    system.run("dpkg", "--purge", "pnuts-http", "pnuts-tools", "pnuts-feeds", "pnuts")
    same("the service", system.status("systemctl", "is-active", "pnuts")[1], "inactive")
    same("whether its runtime directory is there", system.status("test", "-e", "/run/pnuts")[0], 1)
    same("whether its user is there", system.status("id", "pnuts")[0], 0)
    same("what differs", differing(system.root, before), USERS)
    system.run("userdel", "pnuts")
    same("what differs", differing(system.root, before), set())
    yield "purged while it ran: neither a process nor a file is left, and of its user no more than its name"
