"""A Debian system of its own: its root is made by mmdebstrap in memory, and systemd is started in it, out of reach of this one."""

from __future__ import annotations

import os
import shlex
import shutil
import subprocess
import time
from collections.abc import Sequence
from pathlib import Path

SECONDS = 60
PAUSE = 0.1
TOOLS = {"mmdebstrap": "mmdebstrap", "dh": "debhelper", "unshare": "util-linux", "nsenter": "util-linux", "man": "man-db",
         "lowdown": "lowdown", "zsh": "zsh", "fish": "fish", "objcopy": "binutils", "rt": "the toolchain"}
MIRROR, SUITE = "http://deb.debian.org/debian", "bookworm"
PACKAGES = ("golang-go", "iproute2", "lintian", "nodejs", "openssl", "python3-hiredis", "python3-prometheus-client", "python3-redis", "python3-venv", "redis-server", "socat", "systemd")
SPACES = ("--mount", "--pid", "--net", "--uts", "--ipc", "--cgroup")
CLEAN = {"PATH": "/usr/sbin:/usr/bin:/sbin:/bin", "LC_ALL": "C.UTF-8", "DEBIAN_FRONTEND": "noninteractive", "container": "unshare"}

# What a system needs before systemd starts; the folder that it runs in becomes its root. It cannot set what all systems share.
MOUNTS = """
mount --bind . .
cd "$PWD"
mount -t proc proc proc
mount --bind proc/sys proc/sys
mount -o remount,bind,ro proc/sys
mount -t sysfs -o ro sysfs sys
mount -t cgroup2 cgroup2 sys/fs/cgroup
mount -t tmpfs -o mode=755 tmpfs dev
for it in null zero full random urandom tty; do touch dev/$it; mount --bind /dev/$it dev/$it; done
mkdir dev/pts dev/shm
mount -t devpts -o newinstance,ptmxmode=0666 devpts dev/pts
ln -s pts/ptmx dev/ptmx
ln -s /proc/self/fd dev/fd
mount -t tmpfs -o mode=755 tmpfs run
mkdir run/before
pivot_root . run/before
umount --lazy /run/before
exec /lib/systemd/systemd --unit=basic.target
"""


Line = Sequence[str | Path]


def ended(line: Line, env: dict[str, str] | None = None, seconds: int | None = None) -> subprocess.CompletedProcess[str]:
    """Runs a command without input, with all that it prints in one text."""
    pipe = subprocess.PIPE
    return subprocess.run(line, env=env, timeout=seconds, stdin=subprocess.DEVNULL, stdout=pipe, stderr=subprocess.STDOUT, text=True)


def run(line: Line, env: dict[str, str] | None = None) -> str:
    """Runs a command, and answers what it prints. Fails with that where the command does."""
    found = ended(line, env)
    if found.returncode:
        raise AssertionError(f"{shlex.join(map(str, line))} ended with {found.returncode}:\n{found.stdout[-3_000:]}")
    return found.stdout


def make_root(root: Path) -> None:
    """Makes the smallest system of Debian in a folder, with the packages that the check needs."""
    words = ["--variant=minbase", "--dpkgopt=force-unsafe-io", f"--include={','.join(PACKAGES)}"]
    run(["mmdebstrap", *words, SUITE, root, MIRROR], env={**os.environ, **CLEAN})
    run(["mount", "-t", "proc", "proc", root / "proc"])


def group() -> Path | None:
    """The control group of the system, where there are those of version 2, which systemd needs."""
    mounts = (line.split() for line in Path("/proc/mounts").read_text(encoding="utf-8").splitlines())
    return next((Path(it[1]) / "pnuts-check" for it in mounts if it[2] == "cgroup2"), None)


def missing() -> list[str]:
    """The packages of Debian that are not there, and what else the check cannot do without."""
    packages = sorted({package for tool, package in TOOLS.items() if shutil.which(tool) is None})
    return [*packages, *([] if os.geteuid() == 0 else ["root"]), *([] if group() else ["cgroup2"])]


def remove_group() -> None:
    """Removes the system's control group, once the processes in it are gone."""
    last = time.monotonic() + SECONDS
    whole = group()
    while whole is not None and whole.exists():
        try:
            for folder, _, _ in os.walk(whole, topdown=False):
                os.rmdir(folder)
        except OSError:
            if time.monotonic() > last:
                raise
            time.sleep(PAUSE)


class System:
    """A system that runs in a root, until its end. Whatever runs in it ends with it."""

    def __init__(self, root: Path) -> None:
        self.root = root

    def __enter__(self) -> System:
        whole = group()
        if whole is None:
            raise AssertionError("systemd cannot start, for there are no control groups of version 2")
        remove_group()
        whole.mkdir()
        enter = f"echo 0 > {whole}/cgroup.procs; exec "
        apart = "unshare --cgroup --mount --pid --net --uts --ipc --fork --kill-child "
        line = ["sh", "-ec", f"{enter}{apart} sh -ec '{MOUNTS}'"]
        self._process = subprocess.Popen(line, cwd=self.root, env=CLEAN, stdin=subprocess.DEVNULL, stdout=subprocess.DEVNULL)
        try:
            self._first = self._find_first()
            self.wait_for("running", "systemctl", "is-system-running")
        except BaseException:
            self.__exit__()
            raise
        return self

    def __exit__(self, *_: object) -> None:
        self._process.kill()
        self._process.wait()
        remove_group()

    def _find_first(self) -> int:
        """The process that is the first one in there."""
        children = Path(f"/proc/{self._process.pid}/task/{self._process.pid}/children")
        last = time.monotonic() + SECONDS
        while time.monotonic() < last:
            found = children.read_text(encoding="utf-8").split()
            if found and os.readlink(f"/proc/{found[0]}/exe").endswith("systemd"):
                return int(found[0])
            time.sleep(PAUSE)
        raise TimeoutError("systemd did not start")

    def path(self, path: str) -> str:
        """The path from outside of a path in there."""
        return f"/proc/{self._first}/root{path}"

    def status(self, *words: str) -> tuple[int, str]:
        """The exit status of a command in there, and what it prints."""
        line = ["nsenter", f"--target={self._first}", *SPACES, "--", *words]
        found = ended(line, CLEAN, 2 * SECONDS)
        return found.returncode, found.stdout.strip()

    def run(self, *words: str) -> str:
        """Runs a command in there. Fails with what it prints and with the journal where it does, or does not end."""
        try:
            status, text = self.status(*words)
        except subprocess.TimeoutExpired as late:
            raise TimeoutError(f"{shlex.join(words)} has not ended after {late.timeout} seconds\n{self.journal()}") from late
        if status:
            raise AssertionError(f"{shlex.join(words)} ended with {status}:\n{text[-3_000:]}\n{self.journal()}")
        return text

    def journal(self) -> str:
        """The last lines of the journal, and what systemd has not done yet."""
        shown = (("journalctl", "--no-pager", "--lines=20"), ("systemctl", "list-jobs", "--no-pager"))
        return "\n".join(self.status(*words)[1] for words in shown)

    def run_beside(self, *words: str) -> str:
        """Runs a command of this system, which sees of that one only the network."""
        return run(["nsenter", f"--target={self._first}", "--net", "--", *words])

    def wait_for(self, wanted: str, *words: str) -> None:
        """Runs a command again and again, until it prints what is wanted."""
        last = time.monotonic() + SECONDS
        while (found := self.status(*words)[1]) != wanted:
            if time.monotonic() > last:
                raise TimeoutError(f"{' '.join(words)} shows {found!r}, not {wanted!r}\n{self.journal()}")
            time.sleep(PAUSE)
