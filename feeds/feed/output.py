"""Where lines go: standard output, a FIFO that a region reads, or the socket on which it takes the stream."""

from __future__ import annotations

import argparse
import os
import select
import stat
import time
from collections.abc import Callable
from typing import Protocol

from .sockets import RegionSocket, Unusable

Say = Callable[[str], None]


class RegionGone(Exception):
    """Nobody reads the lines any more."""


class Output(Protocol):
    """The way to a region."""

    # Whether the region says what it has taken, and the last position that it is known to have taken.
    tells: bool
    taken: int

    def begin(self) -> int:
        """Waits until the region takes lines, and answers the position after which it wants them."""

    def name(self, identity: str | None) -> None:
        """Says whose stream it is, before its first line, where that is known and the region hears it."""

    def tell_newest(self, newest: int) -> None:
        """Says how far the broker is, where the region hears it, once a second at most."""

    def write(self, lines: bytes) -> None:
        """Hands all on, and waits while the region takes no more."""

    def check(self) -> None:
        """Raises where the region has gone or has refused something, although there was nothing to write."""

    def pause(self, seconds: float) -> None:
        """Waits, unless the region goes meanwhile."""

    def finish(self) -> None:
        """Ends the stream. Raises Refused where the region refuses something that it still had to read."""


class Pipe:
    """A FIFO, or standard output where no path is given. Its region wants the stream from its first message on."""

    tells = False

    def __init__(self, path: str | None) -> None:
        self.taken = 0
        self._path = path
        self._handle = 1
        self._poll = select.poll()

    def begin(self) -> int:
        """See `Output`. Opening a FIFO waits until the region has opened it."""
        if self._path is not None:
            try:
                self._handle = os.open(self._path, os.O_WRONLY)
            except OSError as fault:
                raise Unusable(f"cannot open {self._path}: {fault.strerror}") from fault
        self._poll.register(self._handle, 0)
        return 0

    def name(self, identity: str | None) -> None:
        """See `Output`. A pipe has messages alone."""

    def tell_newest(self, newest: int) -> None:
        """See `Output`. A pipe has messages alone."""

    def write(self, lines: bytes) -> None:
        """See `Output`."""
        rest = memoryview(lines)
        try:
            while rest:
                rest = rest[os.write(self._handle, rest) :]
        except BrokenPipeError as fault:
            raise RegionGone from fault

    def check(self) -> None:
        """See `Output`."""
        if any(events & (select.POLLERR | select.POLLHUP) for _, events in self._poll.poll(0)):
            raise RegionGone

    def pause(self, seconds: float) -> None:
        """See `Output`."""
        deadline = time.monotonic() + seconds
        while (left := deadline - time.monotonic()) > 0:
            self.check()
            time.sleep(min(left, 0.2))

    def finish(self) -> None:
        """See `Output`. The end of the program closes the handle."""


def add_output_words(words: argparse.ArgumentParser) -> None:
    """The words that say where lines go, and which others go there."""
    words.add_argument("--instead", metavar="FILE", help='lines {"at":P,"image":I}: the image that is given at position P, in place of the message')
    words.add_argument("--figures", metavar="FILE", help="write how far broker and region are into it, each second, for `pnuts-ctl exporter --feeds`")
    words.add_argument("--socket", action="store_true", help="PATH is a region's socket, and is waited for where it is not there yet")
    words.add_argument(
        "output",
        metavar="PATH",
        nargs="?",
        help="the FIFO that the region reads, or the socket on which it takes the stream (default: standard output)",
    )


def output_of(words: argparse.Namespace, say: Say) -> Output:
    """The way to the region that these words name."""
    path: str | None = words.output
    if path is not None and (words.socket or _is_socket(path)):
        return RegionSocket(path, say)
    return Pipe(path)


def _is_socket(path: str) -> bool:
    try:
        return stat.S_ISSOCK(os.stat(path).st_mode)
    except OSError:
        return False
