"""What a region holds and does, as text for people."""

from __future__ import annotations

from collections.abc import Iterable, Sequence

from .control_requests import Lines, Marks, Stats, StreamStats, Tablet
from .figures import Lags

STREAMS = ("STREAM", "STATE", "POSITION", "MESSAGES", "SIZE", "LAST", "PATH")
TABLETS = ("TABLET", "FROM", "TO", "STATE")
COUNTED = ("RECORDS", "DELETED")


def shown_status(stats: Stats, tablets: Sequence[Tablet]) -> str:
    """Lines of what all is like, a table of streams with their last faults, and one of tablets."""
    connections, lines = stats.connections, stats.lines
    shown = [
        f"pnuts {stats.version}, up {shown_seconds(stats.uptime)}, {shown_bytes(stats.bytes)} of memory, {stats.rounds} rounds",
        f"connections: {connections.open} open, {connections.accepted} accepted, {connections.refused} refused, "
        f"{connections.idle} ended because they were idle",
        f"lines: {lines.answered} answered, {lines.refused} of them refused{_kinds(lines)}",
        "",
        *table([STREAMS, *(_stream(it) for it in stats.streams)]),
        *(f"{it.name}: {it.reason}{_line(it)}" for it in stats.streams if it.reason is not None),
        "",
        *table(_tablets(stats, tablets)),
    ]
    return "\n".join(shown)


def shown_tablets(stats: Stats, tablets: Sequence[Tablet]) -> str:
    """The table of tablets."""
    return "\n".join(table(_tablets(stats, tablets)))


def faults_of(stats: Stats, tablets: Sequence[Tablet], silence: int | None) -> list[str]:
    """What is wrong: tablets that are lost, and streams that have failed or are silent for longer than a given number of seconds."""
    return [*losses_of(tablets), *failures_of(stats), *silences_of(stats, silence)]


def losses_of(tablets: Iterable[Tablet]) -> list[str]:
    """Which tablets are lost: the region does not serve their keys."""
    return [f"tablet {number} is recovering" for number, it in enumerate(tablets) if it.need is not None]


def failures_of(stats: Stats) -> list[str]:
    """Which streams have failed: the region serves what it has."""
    return [f"stream {it.name} has failed: {it.reason}" for it in stats.streams if it.state == "failed"]


def silences_of(stats: Stats, silence: int | None) -> list[str]:
    """Which streams that have not failed brought nothing for longer than a number of seconds, where one is given."""
    found = []
    for stream in stats.streams:
        since = stats.uptime if stream.since is None else stream.since
        if silence is not None and since > silence and stream.state != "failed":
            found.append(f"stream {stream.name} brought nothing for {since} seconds")
    return found


def lags_of(streams: Iterable[StreamStats], lags: Lags, most: float) -> list[str]:
    """Which streams lag for longer than this many seconds, or have a feed that does not say it."""
    found = []
    for name in (it.name for it in streams):
        lag = lags.get(name)
        if lag is None:
            found.append(f"stream {name} has no feed that tells how far its broker is")
        elif lag.is_gone:
            found.append(f"stream {name} has a feed that last told something {lag.age:.0f} seconds ago")
        elif lag.seconds is None:
            found.append(f"stream {name} has a feed that does not know how far its broker is")
        elif lag.seconds > most:
            found.append(f"stream {name} lags for {lag.seconds:.0f} seconds, by {lag.messages or 0} messages")
    return found


def _stream(it: StreamStats) -> Sequence[str]:
    last = "-" if it.since is None else f"{shown_seconds(it.since)} ago"
    return (it.name, it.state, str(it.position), str(it.messages), shown_bytes(it.bytes), last, it.path)


def _line(it: StreamStats) -> str:
    return "" if it.line is None else f" (line {it.line})"


def _kinds(lines: Lines) -> str:
    """How many lines of each kind there were, if any."""
    return "".join(f", {it.answered} {name}" for name, it in lines.kinds.items() if it.answered)


def _tablets(stats: Stats, tablets: Sequence[Tablet]) -> list[Sequence[str]]:
    """Rows of tablets, with how many records each holds where the region says it."""
    rows = [TABLETS, *(_tablet(number, it) for number, it in enumerate(tablets))]
    if len(stats.tablets) != len(tablets):
        return rows
    counts = [COUNTED, *((str(it.records), str(it.deleted)) for it in stats.tablets)]
    return [[*row, *count] for row, count in zip(rows, counts, strict=True)]


def _tablet(number: int, it: Tablet) -> Sequence[str]:
    state = "serves" if it.need is None else f"recovering, needs {shown_marks(it.need)}"
    return (str(number), it.start or "-", it.end or "-", state)


def shown_marks(marks: Marks) -> str:
    """How far streams have to be taken, for people."""
    return ", ".join(f"{name} {at}" for name, at in marks.items()) or "nothing"


def shown_seconds(seconds: int) -> str:
    """Seconds in the greatest two of days, hours, minutes and seconds."""
    parts: list[str] = []
    left = seconds
    for size, unit in ((86_400, "d"), (3_600, "h"), (60, "m"), (1, "s")):
        count, left = divmod(left, size)
        if count or parts or size == 1:
            parts.append(f"{count}{unit}")
    return " ".join(parts[:2])


def shown_bytes(count: int) -> str:
    """Bytes in units of which there are at most 1,024."""
    size, units = float(count), ["B", "KB", "MB", "GB"]
    while size >= 1024 and len(units) > 1:
        size /= 1024
        units.pop(0)
    return f"{count} B" if units[0] == "B" else f"{size:.1f} {units[0]}"


def table(rows: Sequence[Sequence[str]]) -> list[str]:
    """Rows in columns."""
    widths = [max(len(row[at]) for row in rows) for at in range(len(rows[0]))]
    return ["  ".join(cell.ljust(width) for cell, width in zip(row, widths, strict=True)).rstrip() for row in rows]
