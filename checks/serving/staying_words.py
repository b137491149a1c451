"""Where a program that stays listens, and what it says of its progress: checks of `checks/run stay`."""
import contextlib
import ctypes
import os
import pty
import re
import socket
import stat
import subprocess
import threading
import time

from common.served import SECONDS, Client, Served, fifo, message, piped, row_of, same, written
from faults.preloaded import Watched
from serving.staying import KEYS, Staying, key_of, messages, until

UMASK = 0o022
IN_USE = "Address already in use"
# For how long the system takes over a file's mode.
MODE_WAITS = 0.3
# As `prctl` and the rights of processes have them.
PR_CAPBSET_DROP, CAP_DAC_OVERRIDE = 24, 1


class Connected(Client):
    """A session over any socket."""

    def __init__(self, connection: socket.socket) -> None:
        connection.settimeout(SECONDS)
        self.socket, self.replies = connection, connection.makefile("rb")


def connected(path: str) -> Connected:
    connection = socket.socket(socket.AF_UNIX)
    connection.connect(path)
    return Connected(connection)


def bound(path: str, listens: bool) -> socket.socket:
    """A socket of another program at a path, which listens or is stale."""
    other = socket.socket(socket.AF_UNIX)
    other.bind(path)
    if listens:
        other.listen()
    return other


def fails_to_listen(program: str, east: str, why: str, *words: str) -> None:
    """Does not start. With --stay it says where it cannot listen, and why."""
    line = [program, "serve", *words, f"east={east}"]
    ran = subprocess.run(line, stdin=subprocess.DEVNULL, capture_output=True, timeout=SECONDS)
    reason = f": {why}".encode() if "--stay" in words else b""
    same(f"how it ends with {words}", (ran.returncode, ran.stdout, ran.stderr), (1, b"", b"pnuts: cannot listen%b\n" % reason))


def check_addresses(program: str, folder: str) -> None:
    """Over IPv6 and an address of IPv4, with and without --stay. One that is not this machine's is refused, and no name is one."""
    east = written(folder, "east", messages(1, KEYS))
    for address, shown in {"::1": b"[::1]", "127.0.0.2": b"127.0.0.2"}.items():
        with Staying(program, folder, [("east", east)], "--listen", address) as region:
            same("the first line", region.first, b"listening on %b:%d\n" % (shown, region.port))
            for _ in range(3):
                with Connected(socket.create_connection((address, region.port))) as client:
                    client.wait_for("k001", row_of("k001", 0, "x"))
            with contextlib.suppress(ConnectionRefusedError):
                Client(region.port)
                raise AssertionError(f"with {address} it listens at 127.0.0.1 too")
        with Served(program, [("east", east)], words=["--listen", address]) as served:
            with Connected(socket.create_connection((address, served.port))) as client:
                client.wait_for("k001", row_of("k001", 0, "x"))
                client.end()
            same("how it ends", served.end(), (0, b"served 1\n", b""))
    for address, named in (("192.0.2.1", "192.0.2.1:7070"), ("2001:db8::1", "[2001:db8::1]:7070")):
        fails_to_listen(program, east, f"{named}: Cannot assign requested address", "--stay", "--listen", address)
    for address in ("localhost", "127.0.0.1:80", "[::1]", ""):
        line = [program, "serve", "--stay", "--listen", address, f"east={east}"]
        same(f"its status with {address!r}", subprocess.run(line, capture_output=True, timeout=SECONDS).returncode, 2)


def check_unix_socket(program: str, folder: str) -> None:
    """The socket's mode, a stale one, one in use, a file that is none; it is removed where the program ends by itself."""
    east, path, plain = written(folder, "east", messages(1, KEYS)), os.path.join(folder, "socket"), written(folder, "plain", b"x")
    old = os.umask(UMASK)
    try:
        for _ in range(2):
            # The second time the first one's socket is there still, which was killed.
            with Staying(program, folder, [("east", east)], "--socket", path) as region:
                same("its kind and mode", stat.filemode(os.stat(path).st_mode), "srw-------")
                for _ in range(3):
                    with connected(path) as client:
                        client.wait_for("k001", row_of("k001", 0, "x"))
                fails_to_listen(program, east, f"{path}: {IN_USE}", "--stay", "--socket", path)
                with connected(path) as client:
                    same("what is answered after another one tried", client.read("k001"), {"row": row_of("k001", 0, "x")})
                same("it is running", region.is_running(), True)
        none, long = os.path.join(folder, "none", "socket"), os.path.join(folder, "x" * 120)
        for stays in (list[str](), ["--stay"]):
            fails_to_listen(program, east, f"{plain}: {IN_USE}", *stays, "--socket", plain)
            fails_to_listen(program, east, f"{none}: No such file or directory", *stays, "--socket", none)
        fails_to_listen(program, east, "", "--socket", long)
        with open(plain, "rb") as file:
            same("a file that is no socket", file.read(), b"x")
    finally:
        os.umask(old)
    os.remove(path)
    bound(path, False).close()
    serves_and_ends(program, east, path)
    same("its file once it has ended", os.path.exists(path), False)
    with bound(path, True):
        fails_to_listen(program, east, "", "--socket", path)
        same("another program's file", os.path.exists(path), True)


def without_override() -> None:
    """Takes from this process, and what it becomes, the right of root to pass over the rights of files."""
    ctypes.CDLL(None).prctl(PR_CAPBSET_DROP, CAP_DAC_OVERRIDE, 0, 0, 0)


def fails_beside(program: str, east: str, path: str, what: str) -> None:
    """Fails to listen at a path where another program's socket is, and leaves it."""
    before = os.lstat(path).st_ino
    line = [program, "serve", "--socket", path, f"east={east}"]
    ran = subprocess.run(line, stdin=subprocess.DEVNULL, capture_output=True, timeout=SECONDS, preexec_fn=without_override)
    same(f"how it ends beside {what}", (ran.returncode, ran.stdout, ran.stderr), (1, b"", b"pnuts: cannot listen\n"))
    same(f"whether {what} is there still", os.path.exists(path) and os.lstat(path).st_ino == before, True)


def check_sockets_in_use(program: str, folder: str) -> None:
    """A socket that another program listens on stays, though nobody can connect: without the right, or since too many wait there."""
    east, path = written(folder, "east", b""), os.path.join(folder, "socket")
    with bound(path, True):
        os.chmod(path, 0)
        fails_beside(program, east, path, "a socket without the right to connect")
    os.remove(path)
    with bound(path, False) as other, contextlib.ExitStack() as stay:
        other.listen(0)
        with contextlib.suppress(BlockingIOError):
            for _ in range(100):
                caller = stay.enter_context(socket.socket(socket.AF_UNIX))
                caller.setblocking(False)
                caller.connect(path)
            raise AssertionError("a socket on which none may wait takes a hundred")
        fails_beside(program, east, path, "a socket on which no more may wait")


def check_mode_before_listening(program: str, folder: str) -> None:
    """A client that tries to connect all the while gets in only once the socket has its mode, however long that takes."""
    east, path = written(folder, "east", b""), os.path.join(folder, "socket")
    given = Watched(folder, MODE_WAITS).environment
    line = [program, "serve", "--sessions", "1", "--socket", path, f"east={east}"]
    with subprocess.Popen(line, stdin=subprocess.DEVNULL, stdout=subprocess.DEVNULL, env=given) as process, contextlib.ExitStack() as stay:
        stay.callback(process.kill)
        until("its file is there", lambda: os.path.exists(path))
        refused, last = set(), time.monotonic() + SECONDS
        while time.monotonic() < last:
            before = stat.filemode(os.stat(path).st_mode)
            with contextlib.suppress(ConnectionRefusedError), connected(path):
                same("the mode of its file as a client gets in", stat.filemode(os.stat(path).st_mode), "srw-------")
                break
            refused.add(before)
        same("its status", process.wait(SECONDS), 0)
    same("whether its file had another mode before", bool(refused - {"srw-------"}), True)


def serves_and_ends(program: str, east: str, path: str) -> None:
    """Without --stay one session over the socket, and the end."""
    process = subprocess.Popen([program, "serve", "--sessions", "1", "--socket", path, f"east={east}"], stdout=subprocess.PIPE, stderr=subprocess.PIPE)
    same("the first line", piped(process.stdout).readline()[:13], b"listening on ")
    with connected(path) as client:
        client.wait_for("k001", row_of("k001", 0, "x"))
        client.end()
    same("what it writes", process.communicate(timeout=SECONDS), (b"served 1\n", b""))
    same("its status", process.returncode, 0)


def check_progress_to_a_file(program: str, folder: str) -> None:
    """With --progress a line a second while something changes, with each stream's position, and none while nothing does."""
    (path, pipe), west = fifo(folder, "east"), written(folder, "west", messages(1, KEYS))
    with Staying(program, folder, [("east", path), ("west", west)], "--progress") as region, pipe:
        start, at = time.monotonic(), 0
        while time.monotonic() < start + 4:
            at += 1
            pipe.write(message(at, key_of(at), at, "x"))
            time.sleep(0.01)
        took, wanted = time.monotonic() - start, re.compile(rf"\b{at:,}\b|\b{at}\b")
        until(f"the position {at} is told", lambda: wanted.search(region.said().decode()))
        time.sleep(1.5)
        lines = [line for line in region.said().decode().splitlines(keepends=True) if "east" in line and "ended" not in line]
        same(f"{len(lines)} lines in {took:.1f} seconds are one a second", took / 2 <= len(lines) <= took + 2, True)
        same("lines with control characters", [line for line in lines if re.search(r"[\r\x1b\x08]", line)], [])
        same("the end of the last line", lines[-1][-1:], "\n")
        same(f"the last has the position {at}: {lines[-1]}", bool(wanted.search(lines[-1])), True)
        before = region.said()
        time.sleep(2.5)
        same("what is said while nothing changes", region.said()[len(before) :], b"")
        with Client(region.port) as client:
            client.read("k001")
            until("a client's line is told as a change", lambda: len(region.said()) > len(before))


def check_progress_of_sessions(program: str, folder: str) -> None:
    """Without --stay too, until the sessions have ended."""
    east = written(folder, "east", messages(1, KEYS))
    with Served(program, [("east", east)], words=["--progress"]) as served, Client(served.port) as client:
        client.wait_for("k001", row_of("k001", 0, "x"))
        time.sleep(2.5)
        client.end()
        status, shown, said = served.end()
    same("how it ends", (status, shown), (0, b"served 1\n"))
    same(f"it says that all of the stream was taken: {said!r}", b"pnuts: east %d (" % KEYS in said, True)


class Terminal:
    """A terminal's two ends, and what was written to it."""

    def __init__(self) -> None:
        self.ours, self.theirs = pty.openpty()
        self.shown = b""
        self.reader = threading.Thread(target=self.read, daemon=True)
        self.reader.start()

    def read(self) -> None:
        with contextlib.suppress(OSError):
            while came := os.read(self.ours, 1_000):
                self.shown += came

    def close(self) -> None:
        os.close(self.theirs)
        self.reader.join(SECONDS)
        os.close(self.ours)


def check_progress_to_a_terminal(program: str, folder: str) -> None:
    """On a terminal the line is rewritten in place, and has a bar for a file."""
    (path, pipe), west = fifo(folder, "east"), written(folder, "west", messages(1, KEYS))
    terminal = Terminal()
    with Staying(program, folder, [("east", path), ("west", west)], "--progress", errors=terminal.theirs), pipe:
        for at in range(1, 301):
            pipe.write(message(at, key_of(at), at, "x"))
            time.sleep(0.01)
        until("the last position is shown", lambda: b"300" in terminal.shown)
    terminal.close()
    shown = terminal.shown.decode()
    same(f"it is rewritten in place: {shown!r}", len(re.findall(r"[\r\x1b][^\n]", shown)) >= 2, True)
    same(f"it has a bar for the file: {shown!r}", bool(re.search(r"\[[#=█>-]+|[█▏▎▍▌▋▊▉#=]{3}", shown)), True)


def check_no_progress(program: str, folder: str) -> None:
    """Without the word nothing is said."""
    path, pipe = fifo(folder, "east")
    with Staying(program, folder, [("east", path)]) as region, pipe, Client(region.port) as client:
        pipe.write(message(1, "k", 1, "x"))
        client.wait_for("k", row_of("k", 1, "x"))
        time.sleep(2.5)
        same("what is said", region.said(), b"")
