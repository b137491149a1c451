"""Who talks to a program that stays at its own sockets, publishers of streams and control sessions: what the checks of `checks/run streams` and
`checks/run control` share."""
import contextlib
import json
import os
import socket
import time
from collections.abc import Iterator
from types import TracebackType

from common.served import SECONDS, Json, same
from serving.staying import Staying, messages

TAKEN = b'{"taken":'
CHUNK = 1 << 16
BOUNDS = '["k030","k060"]'
TABLETS = 3


def socket_in(folder: str, name: str = "east") -> tuple[str, tuple[str, str]]:
    """The path of a stream's socket, and the stream as a program is told of it."""
    path = os.path.join(folder, f"{name}.socket")
    return path, (name, f"listen:{path}")


def made(folder: str, name: str = "east") -> tuple[str, tuple[str, str]]:
    """A FIFO without a publisher, and the stream as a program is told of it."""
    path = os.path.join(folder, name)
    os.mkfifo(path)
    return path, (name, path)


def failed(name: str, at: int, line: int, why: str) -> bytes:
    """What is said of a publisher's fault: where it was in the stream and in what the publisher sent, and why."""
    return f"pnuts: stream {name} failed at {at} (line {line}): {why}".encode()


def said_of_faults(region: Staying) -> list[bytes]:
    return [line for line in region.said().splitlines() if b" failed" in line]


class Publisher:
    """A connection to a stream's socket, until the block ends: what it leaves unread then is dropped as a killed program's is."""

    def __init__(self, path: str) -> None:
        self.socket = socket.socket(socket.AF_UNIX)
        self.socket.settimeout(SECONDS)
        self.socket.connect(path)
        self.rest = b""

    def __enter__(self) -> "Publisher":
        return self

    def __exit__(self, *_: object) -> None:
        self.socket.close()

    def begin(self) -> int:
        """Waits until the region takes it, and answers the last position that the region has."""
        return self.after_of(self.line())

    def look(self) -> int:
        """As `begin`, but the region's line stays unread."""
        while not (line := self.socket.recv(CHUNK, socket.MSG_PEEK)).endswith(b"\n"):
            time.sleep(0.001)
        return self.after_of(line)

    def after_of(self, line: bytes) -> int:
        told = json.loads(line)
        same("the members of a region's first line", list(told), ["after"])
        return int(told["after"])

    def is_taken(self, seconds: float) -> bool:
        """Whether the region takes it in this time."""
        self.socket.settimeout(seconds)
        with contextlib.suppress(TimeoutError):
            return bool(self.socket.recv(1, socket.MSG_PEEK))
        return False

    def send(self, text: bytes) -> None:
        self.socket.sendall(text)

    def line(self) -> bytes:
        """The next line of the region; none at its end."""
        with contextlib.suppress(ConnectionError):
            while b"\n" not in self.rest and (part := self.socket.recv(CHUNK)):
                self.rest += part
        line, newline, self.rest = self.rest.partition(b"\n")
        return line + newline

    def taken(self) -> int:
        """The next position that the region says it has taken."""
        told: Json = json.loads(self.line())
        same("the members of a line while the publisher lives", list(told), ["taken"])
        return int(str(told["taken"]))

    def last_lines(self) -> list[bytes]:
        """All lines up to the end that the region makes, without those of what it has taken."""
        lines = []
        while line := self.line():
            lines += [line] * (not line.startswith(TAKEN))
        return lines


def written_by(path: str, text: bytes, after: int) -> None:
    """A publisher that sends a text once the region has told it this position, and goes."""
    with Publisher(path) as publisher:
        same("what the region has", publisher.begin(), after)
        publisher.send(text)


def wait_for_after(path: str, after: int) -> None:
    """Asks as a publisher that sends nothing, until the region has this position."""
    last = time.monotonic() + SECONDS
    while time.monotonic() < last:
        with Publisher(path) as publisher:
            if publisher.begin() == after:
                return
    raise TimeoutError(f"the region does not have {after}")


class Session:
    """A control session, until the block ends."""

    def __init__(self, path: str) -> None:
        self.socket = socket.socket(socket.AF_UNIX)
        self.socket.settimeout(SECONDS)
        self.socket.connect(path)
        self.rest = b""

    def __enter__(self) -> "Session":
        return self

    def __exit__(self, kind: type[BaseException] | None, fault: BaseException | None, trace: TracebackType | None) -> None:
        self.socket.close()

    def send(self, text: bytes) -> None:
        self.socket.sendall(text)

    def line(self) -> bytes:
        """The next line; none at the end."""
        with contextlib.suppress(ConnectionError):
            while b"\n" not in self.rest and (part := self.socket.recv(CHUNK)):
                self.rest += part
        line, newline, self.rest = self.rest.partition(b"\n")
        return line + newline

    def reply(self) -> bytes:
        """The next reply, with the lines that follow it."""
        first = self.line()
        lines = json.loads(first or b"{}").get("lines")
        return first + b"".join(self.line() for _ in range(lines if isinstance(lines, int) else 0))

    def ask(self, text: bytes) -> bytes:
        """The reply to a line, or to a line and those that it announces."""
        self.send(text)
        return self.reply()

    def told(self, **command: Json | str | int) -> Json:
        reply: Json = json.loads(self.ask(json.dumps(command).encode() + b"\n"))
        return reply

    def copy(self, tablet: int, need: Json | None = None) -> bytes:
        """The text of a copy."""
        reply = self.ask(json.dumps({"do": "copy", "need": need, "tablet": tablet}).encode() + b"\n")
        first, _, text = reply.partition(b"\n")
        same("the members of a copy's reply", list(json.loads(first)), ["lines"])
        return text


def adoption(text: bytes) -> bytes:
    """The lines that have a copy adopted."""
    return b'{"do":"adopt","lines":%d}\n' % text.count(b"\n") + text


@contextlib.contextmanager
def region_in(folder: str, program: str, *words: str, name: str = "control") -> Iterator[tuple[Staying, str, str]]:
    """A region with a control socket and a stream's socket: the program, and both paths."""
    control = os.path.join(folder, name)
    path, stream = socket_in(folder, f"{name}-east")
    with Staying(program, folder, [("east", stream[1])], "--bounds", BOUNDS, "--control", control, *words) as region:
        yield region, control, path


def written(path: str, first: int, count: int) -> None:
    """Writes messages, and waits until rounds have taken them."""
    given(path, first - 1, messages(first, count), first + count - 1)


def given(path: str, after: int, text: bytes, last: int) -> None:
    """Writes a text of messages to a region that has all up to a position, and waits until it has all up to the last."""
    with Publisher(path) as publisher:
        same("what the region has", publisher.begin(), after)
        publisher.send(text)
        while publisher.taken() < last:
            pass
