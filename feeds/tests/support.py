"""Brokers of the tests' own, feeds as programs, and what takes a stream: a reader of a FIFO, and a region at a socket, which is one that stands
in for it and looks at the order of what comes, or the program, where PNUTS names it.
"""

from __future__ import annotations

import json
import os
import select
import shutil
import socket
import subprocess
import tempfile
import threading
import time
import unittest
from collections.abc import Callable, Iterator, Sequence
from contextlib import contextmanager
from importlib.machinery import SourceFileLoader
from importlib.util import module_from_spec, spec_from_loader
from pathlib import Path
from typing import Any

FEEDS = Path(__file__).resolve().parents[1]
TOLD_EVERY = 0.1


def free_port() -> int:
    """A port that nobody listens on."""
    with socket.create_server(("127.0.0.1", 0)) as server:
        port: int = server.getsockname()[1]
        return port


def needs(*programs: str) -> None:
    """Skips a test where a program is missing."""
    missing = [program for program in programs if not (shutil.which(program) or os.path.exists(program))]
    if missing:
        raise unittest.SkipTest(f"missing: {', '.join(missing)}")


def image(number: int) -> bytes:
    """An image whose key tells its number in the stream."""
    return b'{"fields":{"v":"xxxxxxxxxxxxxxxxxxxx"},"key":"k%d","master":"w","version":[1,0]}' % number


def wait_until(holds: Callable[[], bool], seconds: float = 30.0) -> None:
    """Waits until something holds; raises AssertionError where it never does."""
    deadline = time.monotonic() + seconds
    while not holds():
        if time.monotonic() > deadline:
            raise AssertionError("it did not come to it in time")
        time.sleep(0.02)


def module_of(name: str) -> Any:
    """A feed's program, as a module."""
    loader = SourceFileLoader(name.replace("-", "_"), str(FEEDS / name))
    spec = spec_from_loader(loader.name, loader)
    assert spec is not None
    module = module_from_spec(spec)
    loader.exec_module(module)
    return module


class Feed:
    """A feed that writes to a FIFO, and a program in place of its region that keeps the lines."""

    def __init__(self, words: Sequence[str], folder: str) -> None:
        self.lines: list[bytes] = []
        self._fifo = Path(folder) / "fifo"
        self._fifo.unlink(missing_ok=True)
        os.mkfifo(self._fifo)
        self.program = subprocess.Popen(
            [str(FEEDS / words[0]), *words[1:], str(self._fifo)], stdout=subprocess.DEVNULL, stderr=subprocess.PIPE, text=True
        )
        self._region = subprocess.Popen(["cat", self._fifo], stdout=subprocess.PIPE)
        self._thread = threading.Thread(target=self._read, daemon=True)
        self._thread.start()

    def _read(self) -> None:
        assert self._region.stdout is not None
        with self._region.stdout as lines:
            self.lines.extend(iter(lines.readline, b""))

    def wait_for(self, count: int) -> None:
        """Waits until a given number of lines have come."""
        wait_until(lambda: len(self.lines) >= count or self.program.poll() is not None)

    def ended(self) -> tuple[int, str]:
        """The feed's status, and what it said."""
        said = self.program.communicate(timeout=60)[1]
        return self.program.returncode, said

    def go(self) -> None:
        """The region goes, once it has opened the FIFO."""
        wait_until(self._is_open)
        self._region.kill()
        self._region.wait()

    def _is_open(self) -> bool:
        handles = Path(f"/proc/{self._region.pid}/fd")
        return any(os.path.realpath(handle) == str(self._fifo) for handle in handles.iterdir())

    def kill(self) -> None:
        """Ends the feed, whatever it does."""
        self.program.kill()
        self.program.communicate()
        self._region.kill()
        self._region.wait()
        self._thread.join(10)


@contextmanager
def feed(*words: str) -> Iterator[Feed]:
    """A feed of these words."""
    with tempfile.TemporaryDirectory() as folder:
        running = Feed(words, folder)
        try:
            yield running
        finally:
            running.kill()


def wanted(count: int) -> list[bytes]:
    """The lines of the first images."""
    return [b'{"at":%d,"image":%b}\n' % (at, image(at)) for at in range(1, count + 1)]


class Region:
    """Takes one publisher after another. What comes has to be the image of its position."""

    def __init__(self, path: Path, has: int = 0, *, refuses: int = 0, slow: bool = False) -> None:
        self.path = path
        # The last position that it has; how often one came that it had; and what no feed may send.
        self.has = has
        self.again = 0
        self.faults: list[str] = []
        self.publishers = 0
        # Whose stream publishers said they give, and the newest positions that they told, with the times.
        self.streams: list[str] = []
        self.newest: list[tuple[float, int]] = []
        self._refuses = refuses
        self._slow = slow
        self._connection: socket.socket | None = None
        self.start(has)

    def start(self, has: int) -> None:
        """Listens, and has all up to this position."""
        self.has = self._told = has
        self._stops = False
        self._listener = socket.socket(socket.AF_UNIX)
        self._listener.bind(str(self.path))
        self._listener.listen()
        self._thread = threading.Thread(target=self._serve, daemon=True)
        self._thread.start()

    def stop(self) -> None:
        """Goes, without a reason and wherever the publisher is."""
        self._stops = True
        self.path.unlink(missing_ok=True)
        for one in (self._listener, self._connection):
            if one is not None:
                try:
                    one.shutdown(socket.SHUT_RDWR)
                except OSError:
                    pass
        self._thread.join(10)
        self._listener.close()

    def _serve(self) -> None:
        while not self._stops:
            try:
                self._connection, _ = self._listener.accept()
            except OSError:
                return
            with self._connection:
                self.publishers += 1
                try:
                    self._take_all(self._connection)
                except OSError:
                    pass

    def _take_all(self, publisher: socket.socket) -> None:
        """Takes a publisher's lines until it goes or is refused."""
        last, rest, told, is_first = 0, b"", time.monotonic(), True
        publisher.sendall(b'{"after":%d}\n' % self.has)
        while not self._stops:
            if select.select([publisher], [], [], TOLD_EVERY)[0]:
                if not (part := publisher.recv(1_000 if self._slow else 65_536)):
                    return
                *lines, rest = (rest + part).split(b"\n")
                for line in lines:
                    is_heard, is_first = self._hear(line, is_first), False
                    if is_heard:
                        continue
                    last, reason = self._take(line, last)
                    if reason:
                        publisher.sendall(json.dumps(reason, separators=(",", ":")).encode() + b"\n")
                        return
            if self._slow:
                time.sleep(0.002)
            if time.monotonic() - told >= TOLD_EVERY and self._told != self.has:
                self._told, told = self.has, time.monotonic()
                publisher.sendall(b'{"taken":%d}\n' % self.has)

    def _hear(self, line: bytes, is_first: bool) -> bool:
        """Whether a line is what a publisher says of its stream."""
        if line.startswith(b'{"stream":'):
            self.streams.append(json.loads(line)["stream"])
            if not is_first:
                self.faults.append("a line that is not the first says whose stream it is")
            return True
        if line.startswith(b'{"newest":'):
            self.newest.append((time.monotonic(), json.loads(line)["newest"]))
            return True
        return False

    def _take(self, line: bytes, last: int) -> tuple[int, dict[str, object] | None]:
        """The position of a line, and why it is refused."""
        position = int(line[len(b'{"at":') : line.index(b",")])
        if last and position != last + 1:
            self.faults.append(f"{position} after {last}")
            return position, {"at": last + 1, "error": "out-of-step", "got": position}
        if not 1 <= position <= self.has + 1:
            self.faults.append(f"{position} where {self.has} were there")
            return position, {"error": "gap", "got": position, "wanted": self.has + 1}
        if position == self._refuses:
            return position, {"at": position, "error": "bad-shape", "member": "fields"}
        if line != b'{"at":%d,"image":%b}' % (position, image(position)):
            self.faults.append(f"another image at {position}")
        if position <= self.has:
            self.again += 1
        self.has = max(self.has, position)
        return position, None


class ProgramRegion:
    """A region of one stream, which begins without a record whenever it is started."""

    def __init__(self, folder: Path) -> None:
        program = os.environ.get("PNUTS")
        if not program:
            raise unittest.SkipTest("PNUTS names no program")
        self.path = folder / "east"
        self._sessions = folder / "sessions"
        self._errors = folder / "errors"
        self._words = [program, "serve", "--stay", "--socket", str(self._sessions), f"east=listen:{self.path}"]
        self.start()

    def start(self) -> None:
        """Starts the program, and waits until it listens."""
        with self._errors.open("ab") as errors:
            self._process = subprocess.Popen(self._words, stdout=subprocess.PIPE, stderr=errors)
        assert self._process.stdout is not None
        self._process.stdout.readline()

    def kill(self) -> None:
        """Kills the program."""
        self._process.kill()
        self._process.wait()
        assert self._process.stdout is not None
        self._process.stdout.close()

    def said(self) -> str:
        """What it has said on standard error."""
        return self._errors.read_text(encoding="utf-8")

    def has(self, position: int) -> bool:
        """Whether the record of this position is there."""
        with socket.socket(socket.AF_UNIX) as session:
            session.settimeout(30)
            session.connect(str(self._sessions))
            session.sendall(json.dumps({"do": "read", "key": f"k{position}"}).encode() + b"\n")
            with session.makefile("rb") as replies:
                return json.loads(replies.readline())["row"] is not None

    def wait_for(self, position: int) -> None:
        """Until the record of this position is there."""
        wait_until(lambda: self.has(position), 120)
