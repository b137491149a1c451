"""Lines of control sessions beside those that look up, and what their replies mean."""

from __future__ import annotations

from dataclasses import MISSING, dataclass, fields
from typing import Any, TypeVar

from . import requests
from .records import Version
from .requests import Request

ADOPTED_A_SECOND = 4_000_000
"""How many bytes of a copy a region adopts in a second at least."""
LAST_NUMBER = 10**18
"""The greatest number of a change. What changed after it is never known, so a reply tells the last number alone."""
Marks = dict[str, int]
Kind = TypeVar("Kind")


@dataclass(frozen=True, slots=True)
class Tablet:
    """A tablet: how far it took streams, its range, and what a copy has to reach that it adopts, None where it serves."""

    cover: Marks
    start: str | None
    end: str | None
    need: Marks | None


@dataclass(frozen=True, slots=True)
class Notice:
    """A change: its number, the key, and the record's version before it, None where there was none, and after it."""

    number: int
    key: str
    before: Version | None
    after: Version


@dataclass(frozen=True, slots=True)
class Notices:
    """Changes, and the number to ask with next. `missed`: some are not known, so all is to be read anew."""

    next: int
    changes: list[Notice]
    missed: bool


@dataclass(frozen=True, slots=True)
class Connections:
    """Connections of clients.

    `accepted` and `refused` are how many were so far, `open` how many are, and `idle` how many were ended since they were idle.
    """

    accepted: int
    idle: int
    open: int
    refused: int


@dataclass(frozen=True, slots=True)
class LineCounts:
    """Lines: how many were answered, and how many of these refused."""

    answered: int
    refused: int


@dataclass(frozen=True, slots=True)
class Lines(LineCounts):
    """Lines of clients: how many were answered, and how many of these refused; and so for each kind of line, where the region says it."""

    kinds: dict[str, LineCounts]


@dataclass(frozen=True, slots=True)
class TabletStats:
    """What a tablet holds.

    `records` is how many it has, and `deleted` how many of them are deletions.
    """

    records: int
    deleted: int


@dataclass(frozen=True, slots=True)
class StreamStats:
    """A stream: its path, and its state, which is `waiting` for a publisher, `open`, `ended` or `failed`.

    `position` is up to which it was taken; `messages` and `bytes` were read. `since` is the seconds since the last
    message, None before the first. `reason` and `line` are of the last fault, None where there was none: why, and in
    which line of what the publisher sent. `stream` is whose stream a publisher said it is, and `newest` the broker's newest
    position that one told, `heard` seconds ago; None where none did.
    """

    name: str
    path: str
    state: str
    position: int
    messages: int
    bytes: int
    since: int | None
    reason: str | None
    line: int | None
    stream: str | None = None
    newest: int | None = None
    heard: int | None = None


@dataclass(frozen=True, slots=True)
class Unread:
    """Replies that clients have not taken.

    `bytes` are those of the records that these keep, `limit` is how many these may be, and `ended` how many clients were ended for it.
    """

    bytes: int
    ended: int
    limit: int


@dataclass(frozen=True, slots=True)
class TimeBucket:
    """How many took how long.

    `count` of them took at most `most` microseconds, but more than those of the bucket before.
    """

    count: int
    most: int


@dataclass(frozen=True, slots=True)
class TimeCounts:
    """How long lines or rounds took.

    `count` is how many there were, `total` how many microseconds they took together, and `buckets` how many took how long, up to the
    greatest `most`.
    """

    buckets: list[TimeBucket]
    count: int
    total: int


@dataclass(frozen=True, slots=True)
class Times:
    """How long lines and rounds took.

    Lines are timed from when they were found at hand until they had their replies.
    """

    lines: TimeCounts
    rounds: TimeCounts


@dataclass(frozen=True, slots=True)
class Stats:
    """What a region has done so far; `uptime` is in seconds, `bytes` its memory. `reply` is the whole reply.

    `tablets` are in their order, and none where the region does not say what they hold; `unread` and `times` likewise.
    """

    version: str
    uptime: int
    bytes: int
    rounds: int
    connections: Connections
    lines: Lines
    streams: list[StreamStats]
    tablets: list[TabletStats]
    unread: Unread | None
    times: Times | None
    reply: dict[str, Any]


def marks() -> Request[Marks]:
    """How far streams were taken into all tablets."""
    return requests.ask({"do": "marks"}, _marks)


def tablets() -> Request[list[Tablet]]:
    """The tablets in their order."""
    return requests.ask({"do": "tablets"}, lambda reply: [_tablet(it) for it in reply["tablets"]])


def notices(since: int, wait: int = 0) -> Request[Notices]:
    """What changed after a number. Where that is nothing, the reply waits for it this many seconds at most."""
    return requests.ask({"do": "notices", "since": since, "wait": wait}, _notices)


def stats() -> Request[Stats]:
    """What the region has done so far."""
    return requests.ask({"do": "stats"}, _stats)


def advance() -> Request[Marks]:
    """Takes as marks what all tablets have taken. Asked twice it does the same."""
    return requests.ask({"do": "advance"}, _marks)


def lose(tablet: int) -> Request[int]:
    """Loses what a tablet holds. Its number."""
    return requests.ask({"do": "lose", "tablet": tablet}, lambda reply: int(reply["lost"]))._replace(reads=False)


def adopt(text: bytes) -> Request[int]:
    """Adopts the text of a copy. The number of its tablet."""
    lines = requests.ask({"do": "adopt", "lines": text.count(b"\n")}, lambda reply: int(reply["adopted"]))
    return lines._replace(line=lines.line + text, reads=False, work=len(text) / ADOPTED_A_SECOND)


def stop(seconds: int = 10) -> Request[int]:
    """Ends the region, once the lines that have come are answered, or after this many seconds."""
    return requests.ask({"do": "stop", "seconds": seconds}, lambda reply: int(reply["stopping"]))._replace(reads=False)


def _marks(reply: Any) -> Marks:
    return {str(name): int(at) for name, at in reply["marks"].items()}


def _tablet(reply: Any) -> Tablet:
    return Tablet(reply["cover"], reply["from"], reply["to"], reply["need"])


def _notices(reply: Any) -> Notices:
    if reply.get("missed"):
        return Notices(reply["next"], [], True)
    return Notices(reply["next"], [_notice(it) for it in reply["notices"]], False)


def _notice(reply: Any) -> Notice:
    before = reply["before"]
    return Notice(reply["number"], reply["key"], None if before is None else Version(*before), Version(*reply["after"]))


def _stats(reply: Any) -> Stats:
    """A later region may have further members, which are in `reply` alone."""
    return Stats(
        version=reply["version"],
        uptime=reply["uptime"],
        bytes=reply["bytes"],
        rounds=reply["rounds"],
        connections=_of(Connections, reply["connections"]),
        lines=_lines(reply["lines"]),
        streams=[_of(StreamStats, it) for it in reply["streams"]],
        tablets=[_of(TabletStats, it) for it in reply.get("tablets", [])],
        unread=_of(Unread, reply["unread"]) if "unread" in reply else None,
        times=Times(_times(reply["times"]["lines"]), _times(reply["times"]["rounds"])) if "times" in reply else None,
        reply=reply,
    )


def _times(reply: Any) -> TimeCounts:
    return TimeCounts([_of(TimeBucket, it) for it in reply["buckets"]], reply["count"], reply["total"])


def _lines(reply: Any) -> Lines:
    kinds = {name: _of(LineCounts, it) for name, it in reply.get("kinds", {}).items()}
    return Lines(reply["answered"], reply["refused"], kinds)


def _of(kind: type[Kind], reply: Any) -> Kind:
    """A value of the members that it knows. An earlier region may lack those that have a default."""
    return kind(**{it.name: reply[it.name] for it in fields(kind) if it.name in reply or it.default is MISSING})
