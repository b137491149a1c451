"""What a call raises: what the region refused, and what went wrong on the way to it."""

from __future__ import annotations

from collections.abc import Callable, Mapping, Sequence
from typing import Any

from .records import Version


class PnutsError(Exception):
    """The base of all errors of this package. Of a client of several regions, `others` has what the others said, by address."""

    others: Sequence[tuple[str, PnutsError]] = ()

    def __str__(self) -> str:
        others = "; ".join(f"{address}: {fault}" for address, fault in self.others)
        return f"{super().__str__()} ({others})" if others else super().__str__()


class ConnectionFailed(PnutsError):
    """The region could not be reached, or the connection ended before the reply."""


class TimedOut(PnutsError):
    """The reply did not come in time. Another try may get it."""


class ProtocolError(PnutsError):
    """What came is no reply to what was sent: the other side is no region, or one of another version."""


class Refused(PnutsError):
    """The region refused the line. `reply` is its whole reply."""

    def __init__(self, reply: Mapping[str, Any], text: str | None = None) -> None:
        super().__init__(text or str(reply.get("error")))
        self.reply = dict(reply)


class BadLine(Refused):
    """The line was at fault: `reason` is `too-long`, `not-json`, `bad-shape`, `out-of-range` or `read-only`.

    `member` names the member at fault, where there is one.
    """

    def __init__(self, reply: Mapping[str, Any]) -> None:
        self.reason: str = reply["error"]
        self.member: str | None = reply.get("member")
        super().__init__(reply, self.reason if self.member is None else f"{self.reason}: {self.member}")


class Recovering(Refused):
    """A tablet that the answer needs, of the number `tablet`, was lost and has not adopted a copy yet."""

    def __init__(self, reply: Mapping[str, Any]) -> None:
        self.tablet: int = reply["tablet"]
        super().__init__(reply, f"recovering: tablet {self.tablet}")


class RecordBehind(Refused):
    """The record of `key` is not there in the version that was required. `has` is its version, None where it is absent."""

    def __init__(self, reply: Mapping[str, Any], key: str | None = None) -> None:
        has = reply["has"]
        self.has: Version | None = None if has is None else Version(*has)
        self.key = key
        super().__init__(reply, f"behind: the region has {self.has}" + ("" if key is None else f" of {key!r}"))


class CopyBehind(Refused):
    """The copy does not reach what was asked for: of `stream` it has `has`, and `wanted` was wanted."""

    def __init__(self, reply: Mapping[str, Any]) -> None:
        self.stream: str = reply["stream"]
        self.has: int = reply["has"]
        self.wanted: int = reply["wanted"]
        super().__init__(reply, f"behind: {self.has} of stream {self.stream}, {self.wanted} wanted")


class NoEntry(Refused):
    """The reader was not let into a tablet. Another try may be."""


class OutOfMemory(Refused):
    """The region had no memory for the answer. Another try may get it."""


_KINDS: dict[str, Callable[[Mapping[str, Any]], Refused]] = {
    "too-long": BadLine,
    "not-json": BadLine,
    "bad-shape": BadLine,
    "out-of-range": BadLine,
    "read-only": BadLine,
    "recovering": Recovering,
    "behind": CopyBehind,
    "no-entry": NoEntry,
    "memory": OutOfMemory,
}


def refusal_of(reply: Mapping[str, Any], key: str | None = None) -> Refused:
    """The error that a reply with a member `error` is, to a line that reads the key."""
    try:
        if reply["error"] == "behind" and "stream" not in reply:
            return RecordBehind(reply, key)
        return _KINDS.get(reply["error"], Refused)(reply)
    except (KeyError, TypeError) as fault:
        raise ProtocolError(f"no refusal of a region: {reply!r}") from fault
