"""Lines in flight on one connection, and the replies that come for them: bytes in, bytes out, and no socket."""

from __future__ import annotations

from collections import deque
from collections.abc import Callable
from json import JSONDecodeError, JSONDecoder
from typing import Any, Generic, TypeVar

from .errors import ProtocolError
from .requests import Request

MAX_LINE = 64 * 1024 * 1024
"""Bytes of a reply's line, after which the other side is taken for no region. A page of 1,000 rows has fewer."""

Ticket = TypeVar("Ticket")
Sent = tuple[Request[Any], Ticket]
Replied = tuple[Request[Any], Ticket, Any]
_read: Callable[[str, int], tuple[Any, int]] = JSONDecoder().raw_decode


class Pipeline(Generic[Ticket]):
    """Sent lines in their order, each with a ticket of the caller, until its reply is there."""

    __slots__ = ("_sent", "_copies", "_part", "_size", "_text", "_lines")

    def __init__(self) -> None:
        self._sent: deque[Sent[Ticket]] = deque()
        # How many of them ask for copies.
        self._copies = 0
        # Pieces of a line whose end has not come, and their bytes.
        self._part: list[bytes] = []
        self._size = 0
        # The lines of a copy that is under way, and how many are still to come.
        self._text: list[bytes] = []
        self._lines = 0

    def __len__(self) -> int:
        return len(self._sent)

    @property
    def work(self) -> float:
        """How many seconds longer the next reply is waited for."""
        return self._sent[0][0].work if self._sent else 0.0

    def send(self, request: Request[Any], ticket: Ticket) -> bytes:
        """Notes a line that is sent now, and gives its bytes."""
        self._sent.append((request, ticket))
        self._copies += request.has_lines
        return request.line

    def unanswered(self) -> list[Sent[Ticket]]:
        """The lines that have no reply, in their order."""
        return list(self._sent)

    def receive(self, data: bytes) -> list[Replied[Ticket]]:
        """The replies that these bytes complete, in the order of their lines."""
        end = data.rfind(b"\n") + 1
        if end == 0:
            self._keep(data)
            return []
        whole = b"".join((*self._part, data[:end]))
        self._part, self._size = [], 0
        if end < len(data):
            self._keep(data[end:])
        return self._copied(whole) if self._copies else self._replied(whole)

    def _keep(self, piece: bytes) -> None:
        self._part.append(piece)
        self._size += len(piece)
        if self._size > MAX_LINE:
            raise ProtocolError("a reply does not end")

    def _replied(self, text: bytes) -> list[Replied[Ticket]]:
        """The replies of lines of JSON alone."""
        replies: list[Replied[Ticket]] = []
        try:
            characters = text.decode()
            index, end = 0, len(characters)
            while index < end:
                reply, index = _read(characters, index)
                if characters[index] != "\n":
                    raise ProtocolError("a reply is followed by something else")
                index += 1
                replies.append((*self._next(), reply))
        except (JSONDecodeError, UnicodeDecodeError) as fault:
            raise ProtocolError("a reply is no JSON") from fault
        return replies

    def _copied(self, text: bytes) -> list[Replied[Ticket]]:
        """The replies of lines of which some may be those of copies."""
        replies: list[Replied[Ticket]] = []
        for line in text.split(b"\n")[:-1]:
            line += b"\n"
            if self._lines == 0:
                ((request, ticket, reply),) = self._replied(line)
                self._lines = _lines_of(request, reply)
                if self._lines:
                    self._sent.appendleft((request, ticket))
                    self._copies += 1
                else:
                    replies.append((request, ticket, reply))
                continue
            self._text.append(line)
            self._lines -= 1
            if self._lines == 0:
                replies.append((*self._next(), {"text": b"".join(self._text)}))
                self._text = []
        return replies

    def _next(self) -> Sent[Ticket]:
        if not self._sent:
            raise ProtocolError("a reply came to no line")
        sent = self._sent.popleft()
        self._copies -= sent[0].has_lines
        return sent


def _lines_of(request: Request[Any], reply: Any) -> int:
    """How many lines of text follow the reply."""
    if not request.has_lines or not isinstance(reply, dict) or "error" in reply:
        return 0
    lines = reply.get("lines")
    if not isinstance(lines, int) or lines < 1:
        raise ProtocolError(f"no reply to a copy: {reply!r}")
    return lines
