"""What the examples share: processes within namespaces of their own, whose memory holds all that they write."""

from __future__ import annotations

import os
import shutil
import signal
import subprocess
import sys
import threading
import time
from collections.abc import Callable, Sequence
from contextlib import ExitStack
from pathlib import Path
from types import TracebackType

Word = str | os.PathLike[str]
TOP = Path(__file__).resolve().parents[1]
FEEDS = TOP / "feeds"
CLIENT = TOP / "clients/python/src"
PROXIES = TOP / "examples/proxy"
# How pnuts-ctl is run, where it is not installed.
CONTROL = [sys.executable, "-m", "pnuts_client.ctl", "--control"]
CLIENT_WORDS = {"PYTHONPATH": str(CLIENT), "PYTHONDONTWRITEBYTECODE": "1"}
WITHIN = "PNUTS_EXAMPLE_IS_WITHIN"
# Files of an example, of which none is left.
RUN = Path("/run")
SECONDS = 300.0


def enter() -> None:
    """Starts this program again in namespaces of its own, where it is not yet: all within ends with it, however it ends."""
    if os.environ.get(WITHIN):
        for folder in (str(RUN), "/dev/shm"):
            subprocess.run(["mount", "-t", "tmpfs", "-o", "mode=1777", "none", folder], check=True)
        subprocess.run(["ip", "link", "set", "lo", "up"], check=True)
        return
    user = [] if os.geteuid() == 0 else ["--user", "--map-root-user"]
    command = ["unshare", *user, "--net", "--mount", "--pid", "--fork", "--kill-child", "--mount-proc", sys.executable, *sys.argv]
    os.environ[WITHIN] = "root" if os.geteuid() == 0 else "user"
    os.execvp(command[0], command)


def as_other_user(command: Sequence[str]) -> list[str]:
    """The command as another user than root, for programs that refuse root."""
    if os.environ[WITHIN] == "root":
        return ["setpriv", "--reuid=nobody", "--regid=nogroup", "--clear-groups", *command]
    return ["unshare", "--user", "--map-user=1000", "--map-group=1000", *command]


def needs(*programs: str) -> None:
    """Ends this program where one of these is missing."""
    missing = [program for program in programs if not shutil.which(program, path=":".join(os.get_exec_path()))]
    if missing:
        print(f"{sys.argv[0]}: missing: {', '.join(missing)}", file=sys.stderr)
        sys.exit(2)


def until(what: str, holds: Callable[[], bool], seconds: float = SECONDS) -> float:
    """Waits until something holds, and answers for how many seconds."""
    start = time.monotonic()
    while not holds():
        if time.monotonic() > start + seconds:
            raise TimeoutError(f"{what}: not within {seconds:.0f} seconds")
        time.sleep(0.01)
    return time.monotonic() - start


def faults_of_threads() -> list[str]:
    """What threads end by from now on. Each is said on standard error, too."""
    faults: list[str] = []
    say = threading.excepthook

    def note(ended: threading.ExceptHookArgs) -> None:
        faults.append(f"a thread ended by {ended.exc_type.__name__}: {ended.exc_value}")
        say(ended)

    threading.excepthook = note
    return faults


def status_of(name: str, criteria: dict[str, bool]) -> int:
    """The exit status of an example, which names each criterion that does not hold."""
    failed = [what for what, holds in criteria.items() if not holds]
    for what in failed:
        print(f"examples/{name}: WRONG: it does not hold that {what}", file=sys.stderr)
    return 1 if failed else 0


class Processes:
    """Programs that run until the block ends, and what each says in a file of its own."""

    def __init__(self) -> None:
        self._stay = ExitStack()

    def __enter__(self) -> Processes:
        return self

    def __exit__(self, kind: type[BaseException] | None, fault: BaseException | None, trace: TracebackType | None) -> None:
        self._stay.close()

    def start(self, name: str, command: Sequence[Word], environment: dict[str, str] | None = None) -> subprocess.Popen[bytes]:
        """Starts a program. What it says goes to the file of its name."""
        with open(said_by(name), "ab") as said:
            within = {**os.environ, **(environment or {})}
            program = subprocess.Popen(command, stdin=subprocess.DEVNULL, stdout=said, stderr=said, env=within, start_new_session=True)
        self._stay.callback(end, program)
        return program


def start_proxy(
    processes: Processes, name: str, file: str, words: dict[str, Word], within: Sequence[str] = ()
) -> subprocess.Popen[bytes]:
    """A proxy of a file of examples/proxy, for which these variables are set."""
    environment = {name: str(word) for name, word in words.items()}
    looked = subprocess.run(["haproxy", "-c", "-q", "-f", PROXIES / file], env={**os.environ, **environment}, capture_output=True, text=True)
    if looked.returncode:
        raise OSError(f"haproxy refuses {file}: {looked.stderr}")
    return processes.start(name, [*within, "haproxy", "-db", "-f", PROXIES / file], environment)


def said_by(name: str) -> Path:
    """The file of what a program says."""
    return RUN / f"{name}.said"


def end(program: subprocess.Popen[bytes]) -> None:
    """Ends a program, by force where it does not."""
    if program.poll() is None:
        program.terminate()
        try:
            program.wait(5)
        except subprocess.TimeoutExpired:
            kill(program)


def kill(program: subprocess.Popen[bytes]) -> None:
    """Kills a program that runs, and all that it has started."""
    os.killpg(program.pid, signal.SIGKILL)
    program.wait()
