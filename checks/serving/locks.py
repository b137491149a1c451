"""Starts a built program where the lock of a socket is another user's, another program's, or that of one that was killed.

  checks/run locks PROGRAM [CHECK ..]

Needs root and `setpriv`, and is skipped without them.
"""
import contextlib
import fcntl
import os
import shutil
import signal
import subprocess
import tempfile
from collections.abc import Iterator

import pytest

from common.parts import needs
from common.served import SECONDS, free_port, piped, same

pytestmark = needs("setpriv", root=True)

# A user that is nobody, and how a program is started as it.
USER = 65534
AS_USER = ["setpriv", f"--reuid={USER}", f"--regid={USER}", "--clear-groups"]
# Where a socket is told of, and how a message about it begins.
KINDS = {"--socket": "pnuts: cannot listen: ", "--control": "pnuts: cannot listen: ", "stream": "pnuts: cannot open east: "}


@pytest.fixture(name="program")
def startable(program: str) -> Iterator[str]:
    """The program where others can start it."""
    with tempfile.TemporaryDirectory() as folder:
        os.chmod(folder, 0o755)
        yield shutil.copy(program, folder)


def words_of(kind: str, path: str) -> list[str]:
    return [f"east=listen:{path}"] if kind == "stream" else [kind, path, f"east={os.devnull}"]


@contextlib.contextmanager
def started(program: str, kind: str, path: str, is_user: bool) -> Iterator[subprocess.Popen[str]]:
    """A program with a socket at a path, until the block ends."""
    line = [program, "serve", "--stay", "--port", str(free_port()), *words_of(kind, path)]
    words, pipe = [*AS_USER, *line] if is_user else line, subprocess.PIPE
    with subprocess.Popen(words, stdin=subprocess.DEVNULL, stdout=pipe, stderr=pipe, text=True) as process:
        try:
            yield process
        finally:
            process.kill()


def starts(program: str, kind: str, path: str, is_user: bool, what: str) -> None:
    with started(program, kind, path, is_user) as process:
        first = piped(process.stdout).readline()
        if not first.startswith("listening on "):
            raise AssertionError(f"with {kind}, {what}, it does not start: {piped(process.stderr).read()!r}")
        same(f"whether its socket is there with {kind}, {what}", os.path.exists(path), True)


def refused(program: str, kind: str, path: str, is_user: bool, what: str) -> str:
    """Why a program does not start, whose message begins as those of its kind do."""
    with started(program, kind, path, is_user) as process:
        first = piped(process.stdout).readline()
        if first:
            raise AssertionError(f"with {kind}, {what}, it starts")
        said = piped(process.stderr).read()
        same(f"its status with {kind}, {what}", process.wait(SECONDS), 1)
    same(f"how it begins what it says with {kind}, {what}: {said!r}", said.startswith(KINDS[kind]), True)
    return said.removeprefix(KINDS[kind])


def locked(path: str, mode: int = 0o600) -> str:
    """The lock of a path, which is root's and is held by nobody."""
    with open(f"{path}.lock", "wb"):
        os.chmod(f"{path}.lock", mode)
    return f"{path}.lock"


def folders(folder: str) -> dict[str, str]:
    """A folder of the user's own, a shared one in which each removes what is its own alone, and one that is root's."""
    os.chmod(folder, 0o755)
    paths = {name: os.path.join(folder, name) for name in ("own", "shared", "roots")}
    for path in paths.values():
        os.mkdir(path)
    os.chown(paths["own"], USER, USER)
    os.chmod(paths["shared"], 0o1777)
    return paths


def check_a_start_after_roots(program: str, folder: str) -> None:
    """After a start as root a user starts in a folder of its own, or is told which lock is in the way, and starts once that is removed;
    and so does root after the user."""
    own = folders(folder)["own"]
    for at, kind in enumerate(KINDS):
        path = os.path.join(own, f"socket{at}")
        starts(program, kind, path, False, "as root")
        os.remove(path)
        if not is_started(program, kind, path):
            said = refused(program, kind, path, True, "as another user after root")
            same(f"what it says with {kind}", said, f"{path}.lock: Permission denied\n")
            os.remove(f"{path}.lock")
        starts(program, kind, path, True, "once its lock is removed")
        starts(program, kind, path, False, "as root after the user")


def is_started(program: str, kind: str, path: str) -> bool:
    """Whether a user's program starts."""
    with started(program, kind, path, True) as process:
        return piped(process.stdout).readline() != ""


def check_another_users_lock_that_stays(program: str, folder: str) -> None:
    """Where a lock of another user cannot be opened the start is refused, and says which file it is, and why."""
    paths = folders(folder)
    for name in ("shared", "roots"):
        for at, kind in enumerate(KINDS):
            path = os.path.join(paths[name], f"socket{at}")
            lock = locked(path)
            said = refused(program, kind, path, True, f"beside a lock of root's in a folder that is {name}")
            same(f"what it says with {kind}", said, f"{lock}: Permission denied\n")
            same("whether the lock is there still", os.path.exists(lock), True)


def check_a_lock_that_is_held(program: str, folder: str) -> None:
    """A lock that another program holds is not taken, in whosever folder: the start is refused as one at a path that is in use."""
    own = folders(folder)["own"]
    for is_user in (False, True):
        for at, kind in enumerate(KINDS):
            path = os.path.join(own, f"socket{at}-{is_user}")
            with open(locked(path, 0o666), "r+b") as file:
                fcntl.flock(file, fcntl.LOCK_EX)
                said = refused(program, kind, path, is_user, "beside a lock that is held")
            same(f"whether it says that the path is in use: {said!r}", path in said and " in use" in said, True)
            starts(program, kind, path, is_user, "once the lock is held no longer")


def check_a_lock_whose_holder_was_killed(program: str, folder: str) -> None:
    """The lock and the socket of a program that was killed are taken over, and those of one that lives are not."""
    for kind in KINDS:
        path = os.path.join(folder, f"killed{kind}")
        with started(program, kind, path, False) as first:
            same("whether the first one listens", piped(first.stdout).readline().startswith("listening on "), True)
            said = refused(program, kind, path, False, "beside one that lives")
            same(f"whether it says that the path is in use: {said!r}", path in said and " in use" in said, True)
            first.send_signal(signal.SIGKILL)
            first.wait(SECONDS)
            same("what it leaves", [os.path.exists(path), os.path.exists(f"{path}.lock")], [True, True])
            starts(program, kind, path, False, "after one that was killed")
