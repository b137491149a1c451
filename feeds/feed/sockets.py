"""The socket on which a region takes a stream.

The region begins with `{"after":N}`: it has all positions up to N. Lines go to it from N + 1 on, after one that says whose stream
they are; between them it is told the broker's newest position. Now and then it says `{"taken":N}`. Where it finds a fault it says
`{"error":..}` and closes. Where it closes without a reason it is connected to again.
"""

from __future__ import annotations

import hashlib
import json
import select
import socket
import time
from collections.abc import Callable
from typing import Any

FIRST_PAUSE, LONGEST_PAUSE = 0.05, 2.0
# How long the region may leave a new connection without a word before the feed says so, and how long its last words are waited for.
SOON, LAST_WORDS = 2.0, 5.0
MAX_WORDS = 65_536
# How many bytes say at most whose stream it is, and how often the region is told the newest position, in seconds.
MAX_IDENTITY, TOLD_EVERY = 256, 1.0
_NOT_THERE = (FileNotFoundError, ConnectionError, BlockingIOError)


class RegionAway(Exception):
    """The region is not there now, or closed the socket without a reason. It is connected to again."""


class Unusable(Exception):
    """What the path names takes no stream."""


class Refused(Exception):
    """The region refuses a message. The reason is its own line."""

    def __init__(self, reason: str, position: int | None) -> None:
        super().__init__(reason)
        self.reason = reason
        self.position = position


class OtherStream(Exception):
    """The region takes another stream. The reason is its own line."""


class RegionSocket:
    """One connection after another to a region."""

    tells = True

    def __init__(self, path: str, say: Callable[[str], None]) -> None:
        self.taken = 0
        self._path = path
        self._say = say
        # Whether a line was written in this connection, and when the newest position was told last.
        self._has_begun = False
        self._told_at = float("-inf")
        self._pause = 0.0
        self._socket: socket.socket | None = None
        self._rest = b""

    def begin(self) -> int:
        """Connects until the region says after which position it wants the stream, and answers this position."""
        is_told = False
        while True:
            self._close()
            time.sleep(self._pause)
            self._pause = min(max(self._pause * 2, FIRST_PAUSE), LONGEST_PAUSE)
            try:
                return self._connect()
            except (RegionAway, *_NOT_THERE) as fault:
                if not is_told:
                    self._say(f"waiting for the region at {self._path}: {_reason_of(fault)}")
                    is_told = True
            except OSError as fault:
                self._close()
                raise Unusable(f"cannot connect to {self._path}: {_reason_of(fault)}") from fault

    def name(self, identity: str | None) -> None:
        """Says whose stream it is, where that is known, in the first line of a connection."""
        if identity is not None and not self._has_begun:
            self.write(_line({"stream": _short(identity)}))

    def tell_newest(self, newest: int) -> None:
        """Says how far the broker is, once a second at most."""
        if time.monotonic() - self._told_at >= TOLD_EVERY:
            self._told_at = time.monotonic()
            self.write(_line({"newest": newest}))

    def write(self, lines: bytes) -> None:
        """Hands all on, and waits while the region takes no more."""
        self._has_begun = self._has_begun or bool(lines)
        rest = memoryview(lines)
        while rest:
            self._listen()
            try:
                rest = rest[self._open.send(rest) :]
            except BlockingIOError:
                self._wait(select.POLLIN | select.POLLOUT, None)
            except OSError as fault:
                self._listen()
                raise RegionAway(_reason_of(fault)) from fault

    def check(self) -> None:
        """Raises Refused or RegionAway where the region has closed the socket."""
        self._listen()

    def pause(self, seconds: float) -> None:
        """Waits, and listens to the region meanwhile."""
        deadline = time.monotonic() + seconds
        while (left := deadline - time.monotonic()) > 0:
            self._listen()
            self._wait(select.POLLIN, left)

    def finish(self) -> None:
        """Ends the stream, and waits a little for what the region says to the rest of it."""
        if self._socket is None:
            return
        try:
            self._socket.shutdown(socket.SHUT_WR)
            self.pause(LAST_WORDS)
        except (RegionAway, OSError):
            pass
        finally:
            self._close()

    @property
    def _open(self) -> socket.socket:
        if self._socket is None:
            raise RegionAway("not connected")
        return self._socket

    def _connect(self) -> int:
        """Waits for the region's first words: it takes one publisher at a time."""
        self._rest, self._has_begun, self._told_at = b"", False, float("-inf")
        self._socket = socket.socket(socket.AF_UNIX)
        self._socket.connect(self._path)
        self._socket.setblocking(False)
        if not self._wait(select.POLLIN, SOON):
            self._say(f"waiting for the region at {self._path}: it does not take this feed yet")
        while not (words := self._words()):
            self._wait(select.POLLIN, None)
        after = words[0].get("after")
        if not isinstance(after, int):
            raise self._no_region(json.dumps(words[0]).encode())
        self.taken = after
        self._note(words[1:])
        return after

    def _listen(self) -> None:
        """Takes all that the region has said so far."""
        while words := self._words():
            self._note(words)

    def _note(self, words: list[dict[str, Any]]) -> None:
        for told in words:
            taken = told.get("taken")
            if isinstance(taken, int) and taken > self.taken:
                self.taken = taken
                self._pause = 0.0

    def _words(self) -> list[dict[str, Any]]:
        """The region's next lines, if any. Raises Refused where one of them is a reason, and RegionAway at the end."""
        try:
            part = self._open.recv(MAX_WORDS)
        except BlockingIOError:
            return []
        except OSError as fault:
            raise RegionAway(_reason_of(fault)) from fault
        if not part:
            raise RegionAway("it closed the socket")
        *lines, self._rest = (self._rest + part).split(b"\n")
        if len(self._rest) > MAX_WORDS:
            raise self._no_region(self._rest)
        return [self._object_of(line) for line in lines]

    def _object_of(self, line: bytes) -> dict[str, Any]:
        try:
            told = json.loads(line)
        except ValueError:
            told = None
        if not isinstance(told, dict):
            raise self._no_region(line)
        if told.get("error") == "other-stream":
            raise OtherStream(f"the region takes the stream {told.get('has')!r}, and this feed gives {told.get('got')!r}")
        if told.get("error") == "bad-shape" and told.get("member") == "at":
            # No message that a feed makes is without a position.
            raise Unusable(f"{self._path} is of a region of an older version, which takes no line that says whose stream it is: {line.decode()}")
        if "error" in told:
            position = told.get("at", told.get("got"))
            raise Refused(line.decode(), position if isinstance(position, int) else None)
        return told

    def _no_region(self, line: bytes) -> Unusable:
        return Unusable(f"{self._path} is no stream of a region: it says {line[:100]!r}")

    def _wait(self, events: int, seconds: float | None) -> bool:
        poll = select.poll()
        poll.register(self._open, events)
        return bool(poll.poll(None if seconds is None else seconds * 1000))

    def _close(self) -> None:
        if self._socket is not None:
            self._socket.close()
            self._socket = None


def _line(told: dict[str, Any]) -> bytes:
    return json.dumps(told, separators=(",", ":")).encode() + b"\n"


def _short(identity: str) -> str:
    """The same text, or one that has a checksum of it in place of its end."""
    text = identity.encode("utf-8", "surrogateescape")
    if len(text) <= MAX_IDENTITY:
        return text.decode("utf-8", "replace")
    digest = hashlib.sha256(text).hexdigest()
    return f"{text[:MAX_IDENTITY - len(digest) - 1].decode('utf-8', 'ignore')} {digest}"


def _reason_of(fault: Exception) -> str:
    return (fault.strerror if isinstance(fault, OSError) else None) or str(fault) or type(fault).__name__
