"""Where a region is: TCP, TLS over TCP, or a Unix socket; and one connection to it that waits, with many lines in flight, over a socket that never
does: what it does not take or give at once, it says so."""

from __future__ import annotations

import select
import socket
import ssl
import time
from collections.abc import Generator, Iterable, Iterator, Sequence
from dataclasses import dataclass, field
from typing import Any
from urllib.parse import urlsplit

from .errors import ConnectionFailed, TimedOut
from .pipeline import Pipeline
from .requests import Request

DEFAULT_PORT = 7070
PIECE = 256 * 1024
DEFAULT_WINDOW = 64
"""How many lines are in flight at most."""


@dataclass(frozen=True, slots=True)
class Tcp:
    """A host and a port. With `tls`, the server's certificate is checked by it, against `server_name` or the host."""

    host: str = "127.0.0.1"
    port: int = DEFAULT_PORT
    tls: ssl.SSLContext | None = field(default=None, compare=False)
    server_name: str | None = None

    def __str__(self) -> str:
        host = f"[{self.host}]" if ":" in self.host else self.host
        return f"{'tls' if self.tls else 'tcp'}://{host}:{self.port}"


@dataclass(frozen=True, slots=True)
class Unix:
    """The path of a Unix socket."""

    path: str

    def __str__(self) -> str:
        return f"unix:{self.path}"


Address = Tcp | Unix
Addresses = Address | str | Sequence[Address | str]
"""A region, or several regions of the same streams, by addresses or their texts."""


def address_of(text: str, tls: ssl.SSLContext | None = None) -> Address:
    """`tcp://HOST:PORT`, `tls://HOST:PORT` (by `tls`, or the machine's own certificates) or `unix:PATH`."""
    parts = urlsplit(text)
    if parts.scheme == "unix":
        path = text.removeprefix("unix://").removeprefix("unix:")
        if path:
            return Unix(path)
    elif parts.scheme in ("tcp", "tls") and parts.hostname and not parts.path:
        port = parts.port or DEFAULT_PORT
        if parts.scheme == "tcp":
            return Tcp(parts.hostname, port)
        return Tcp(parts.hostname, port, tls or ssl.create_default_context())
    raise ValueError(f"no address of a region: {text!r}")


def addresses_of(told: Addresses) -> list[Address]:
    """The addresses of one region or of several, in their order."""
    each = [told] if isinstance(told, (str, Tcp, Unix)) else list(told)
    if not each:
        raise ValueError("there is no region")
    return [address_of(it) if isinstance(it, str) else it for it in each]


def deadline_after(seconds: float | None) -> float | None:
    """The moment this many seconds from now, None for never."""
    return None if seconds is None else time.monotonic() + seconds


def seconds_left(deadline: float | None) -> float | None:
    """The seconds until a moment; raises TimedOut where it has passed."""
    if deadline is None:
        return None
    left = deadline - time.monotonic()
    if left <= 0:
        raise TimedOut("no reply in time")
    return left


class Socket:
    """A connection to an address."""

    __slots__ = ("_socket", "_poll", "_wants")

    def __init__(self, address: Address, deadline: float | None) -> None:
        try:
            self._socket = _connected(address, deadline)
        except TimeoutError as fault:
            raise TimedOut(f"no connection to {address} in time") from fault
        except OSError as fault:
            raise ConnectionFailed(f"no connection to {address}: {fault}") from fault
        self._socket.setblocking(False)
        self._poll = select.poll()
        # What a TLS handshake waits for, beside what is asked for.
        self._wants = 0

    def send_some(self, data: memoryview) -> int:
        """Hands on what is taken at once, and says how many bytes."""
        try:
            return self._socket.send(data)
        except ssl.SSLWantReadError:
            self._wants = select.POLLIN
        except (BlockingIOError, InterruptedError, ssl.SSLWantWriteError):
            self._wants = select.POLLOUT
        except OSError as fault:
            raise ConnectionFailed(f"the connection broke: {fault}") from fault
        return 0

    def receive_some(self) -> bytes | None:
        """What has come, None where nothing has."""
        try:
            data = self._socket.recv(PIECE)
        except ssl.SSLWantWriteError:
            self._wants = select.POLLOUT
            return None
        except (BlockingIOError, InterruptedError, ssl.SSLWantReadError):
            return None
        except OSError as fault:
            raise ConnectionFailed(f"the connection broke: {fault}") from fault
        if not data:
            raise ConnectionFailed("the region closed the connection")
        return data

    def has_ended(self) -> bool:
        """Whether the other side has ended it, where nothing is to come."""
        try:
            return self.receive_some() is not None
        except ConnectionFailed:
            return True

    def wait(self, to_send: bool, deadline: float | None) -> None:
        """Waits until something has come, or, where there is something to send, until more is taken."""
        left = seconds_left(deadline)
        wanted = select.POLLIN | (select.POLLOUT if to_send and not self._wants else 0) | self._wants
        self._wants = 0
        self._poll.register(self._socket, wanted)
        if not self._poll.poll(None if left is None else left * 1000):
            raise TimedOut("no reply in time")

    def close(self) -> None:
        """Ends the connection."""
        self._socket.close()


def _connected(address: Address, deadline: float | None) -> socket.socket:
    left = seconds_left(deadline)
    if isinstance(address, Unix):
        connection = socket.socket(socket.AF_UNIX)
        try:
            connection.settimeout(left)
            connection.connect(address.path)
        except OSError:
            connection.close()
            raise
        return connection
    connection = socket.create_connection((address.host, address.port), timeout=left)
    try:
        connection.setsockopt(socket.IPPROTO_TCP, socket.TCP_NODELAY, 1)
        if address.tls is None:
            return connection
        return address.tls.wrap_socket(connection, server_hostname=address.server_name or address.host)
    except OSError:
        connection.close()
        raise


class Connection:
    """A session of a region. It is opened with its first line, and is of one thread."""

    def __init__(self, address: Address) -> None:
        self._address = address
        self._socket: Socket | None = None

    def replies(
        self, requests: Iterable[Request[Any]], timeout: float | None, window: int, deadline: float | None = None
    ) -> Generator[tuple[Request[Any], Any], None, None]:
        """Each request with its reply, in order; `timeout` is the seconds in which no byte goes out or comes.

        With a deadline, it is the first reply's, and `timeout` is the seconds for each reply after the one before.

        Where it ends while replies are still to come, the connection is closed, so that a late reply is never taken
        for that of another line.
        """
        pipeline: Pipeline[None] = Pipeline()
        waiting = iter(requests)
        unsent = memoryview(b"")
        is_each = deadline is not None
        try:
            deadline = deadline or deadline_after(timeout)
            if self._socket is None:
                self._socket = Socket(self._address, deadline)
            while True:
                if not unsent:
                    unsent = _lines(pipeline, waiting, window)
                if not len(pipeline):
                    break
                sent, data = self._exchange(unsent, deadline)
                unsent = unsent[sent:]
                replied = pipeline.receive(data) if data else []
                for request, _, reply in replied:
                    yield request, reply
                if replied or (not is_each and (sent or data)):
                    deadline = deadline_after(None if timeout is None else timeout + pipeline.work)
        finally:
            if len(pipeline) or unsent:
                self.close()

    def _exchange(self, unsent: memoryview, deadline: float | None) -> tuple[int, bytes | None]:
        """One turn: how many bytes went out, and those that came; waits where neither did."""
        assert self._socket is not None
        sent = self._socket.send_some(unsent) if unsent else 0
        data = self._socket.receive_some()
        if data is None and (sent < len(unsent) or not sent):
            self._socket.wait(sent < len(unsent), deadline)
        return sent, data

    def renew(self) -> None:
        """Ends the session where the region did, so that the next line begins another one. Nothing is in flight."""
        if self._socket is not None and self._socket.has_ended():
            self.close()

    def close(self) -> None:
        """Ends the session. The next line begins another."""
        if self._socket is not None:
            self._socket.close()
            self._socket = None


def _lines(pipeline: Pipeline[None], waiting: Iterator[Request[Any]], window: int) -> memoryview:
    """The next lines, while the window still takes a fair part of it."""
    if len(pipeline) > window // 2:
        return memoryview(b"")
    lines = []
    for request in waiting:
        lines.append(pipeline.send(request, None))
        if len(pipeline) >= window:
            break
    return memoryview(b"".join(lines))
