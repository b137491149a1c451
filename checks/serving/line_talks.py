"""Texts that are given to a program piece by piece, many at a time, and what it answers: what the ways of `checks/run limits` share."""
import contextlib
import os
import select
import socket
import time
from collections.abc import Callable, Sequence

from common.served import TIMES

# A text of up to FEW bytes is sent byte by byte; of a longer one AROUND bytes are, before and after its limit and at its end.
FEW, AROUND = 512, 8
# Between two pieces of a text, so that each is read by itself. In the same time one of each other text is sent, too.
PAUSE = 0.0005
# Within how many seconds all is answered, beyond what an idle program takes.
ANSWERED = 1.0
CHUNK = 1 << 18
# How many bytes a piece has; all at once where there is no such number.
PIECES = (None, 1, 1_024, 16_384, 65_535, 65_536, 65_537)


def ends_of(size: int, piece: int | None, limits: Sequence[int]) -> list[int]:
    """Where the pieces of a text end, which has limits at some places."""
    if piece is None:
        return [size]
    if piece > 1 or size <= FEW:
        return [*range(piece, size, piece), size]
    near = {at for limit in (*limits, size) for at in range(limit - AROUND, limit + AROUND + 1)}
    return [*sorted(at for at in near if 0 < at < size), size]


class Talk:
    """What is sent at one end of a socket or pipe, and what comes at the other. `finish` ends the input."""

    def __init__(self, name: str, text: bytes, ends: Sequence[int], finish: Callable[[], None] | None) -> None:
        self.name, self.text, self.ends, self.finish = name, text, list(ends), finish
        self.sent, self.came, self.is_over, self.is_broken = 0, b"", False, False

    def begin(self, out: int, back: int) -> "Talk":
        """It talks by these descriptors."""
        self.out, self.back = out, back
        for handle in (out, back):
            os.set_blocking(handle, False)
        return self

    def push(self) -> bool:
        """Sends the next piece, or what was not taken of the last one. Whether there is more."""
        while self.ends and self.sent >= self.ends[0]:
            self.ends.pop(0)
        if not self.ends or self.is_broken:
            return False
        with contextlib.suppress(BlockingIOError):
            try:
                self.sent += os.write(self.out, self.text[self.sent : self.ends[0]])
            except (BrokenPipeError, ConnectionResetError):
                self.is_broken = True
        if self.finish and self.sent == len(self.text):
            with contextlib.suppress(OSError):
                self.finish()
        return self.sent < len(self.text)

    def pull(self) -> None:
        """Takes what came."""
        with contextlib.suppress(BlockingIOError):
            try:
                part = os.read(self.back, CHUNK)
            except ConnectionResetError:
                part = b""
            self.came += part
            self.is_over = self.is_over or not part


def shut(connection: socket.socket) -> Callable[[], None]:
    """What ends the input of a connection."""
    return lambda: connection.shutdown(socket.SHUT_WR)


def talk_all(talks: Sequence[Talk], is_done: Callable[[Talk], bool], idle: float) -> list[Talk]:
    """Sends all texts, a piece of each in turn, and takes the answers. Those that are not done in time."""
    patience = max(ANSWERED, TIMES * idle)
    sent, last = 0, time.monotonic() + patience
    while sum([talk.push() for talk in talks]) and time.monotonic() < last:
        for talk in talks:
            talk.pull()
        if sent < (now := sum(talk.sent for talk in talks)):
            sent, last = now, time.monotonic() + patience
        time.sleep(PAUSE)
    last = time.monotonic() + patience
    poll, waiting = select.poll(), {talk.back: talk for talk in talks if not is_done(talk) and not talk.is_over}
    for handle in waiting:
        poll.register(handle, select.POLLIN)
    while waiting and (left := last - time.monotonic()) > 0:
        for handle, _ in poll.poll(left * 1_000):
            waiting[handle].pull()
            if is_done(waiting[handle]) or waiting[handle].is_over:
                poll.unregister(handle)
                del waiting[handle]
    return [talk for talk in talks if not is_done(talk)]
