"""A page of what a region holds and does, and did over the last minutes. It needs nothing from elsewhere, and escapes all text."""

from __future__ import annotations

from base64 import b64encode
from collections.abc import Callable, Iterable, Iterator, Sequence
from hashlib import sha256
from html import escape
from pathlib import Path

from .control_requests import LineCounts, Stats, StreamStats, Tablet
from .figures import Lag
from .history import KEPT, PER_KIND, PER_STREAM, STEP, Point, Seen, View
from .status import faults_of, lags_of, shown_bytes, shown_marks, shown_seconds

WIDTH, HEIGHT = 200, 40
"""The units of a picture, which takes the size of its container."""
Dot = tuple[float, float]


class Html(str):
    """Text that is HTML already."""

    __slots__ = ()


def joined(*parts: object) -> Html:
    """Parts one after another: HTML as it is, and all else escaped."""
    return Html("".join(it if isinstance(it, Html) else escape(str(it)) for it in parts))


def element(name: str, *parts: object, **marks: object) -> Html:
    """An element with what is in it. Its attributes are escaped too; each `_` of a name is a `-`, but for a last one."""
    shown = "".join(f' {key.removesuffix("_").replace("_", "-")}="{escape(str(value))}"' for key, value in marks.items())
    return Html(f"<{name}{shown}>{joined(*parts)}</{name}>")


def sparkline(points: Sequence[Point], seconds: float, what: str) -> Html:
    """Values over the last seconds as a line over an area, which are broken where there is none. `what` says it in words."""
    known = [value for _, value in points if value is not None]
    top = max(known, default=0.0) or 1.0
    lines = [*runs(points, seconds, top)]
    area = "".join(f"M{shown(line)}L{line[-1][0]:.1f} {HEIGHT}H{line[0][0]:.1f}Z" for line in lines)
    path = "".join(f"M{shown(line)}{'h.1' if len(line) == 1 else ''}" for line in lines)
    drawn = joined(element("path", class_="area", d=area), element("path", class_="line", d=path))
    box = f"0 0 {WIDTH} {HEIGHT}"
    return element("svg", drawn, class_="sparkline", viewBox=box, preserveAspectRatio="none", role="img", aria_label=what)


def runs(points: Sequence[Point], seconds: float, top: float) -> Iterator[list[Dot]]:
    """The values one after another, from left to right and up, those together between which none is missing."""
    run: list[Dot] = []
    for past, value in points:
        if value is None:
            if run:
                yield run
            run = []
        else:
            run.append((WIDTH * (1 - past / seconds), 1 + (HEIGHT - 2) * (1 - value / top)))
    if run:
        yield run


def shown(line: Sequence[Dot]) -> str:
    return "L".join(f"{across:.1f} {down:.1f}" for across, down in line)


STYLE, SCRIPT = (Path(__file__).with_name(f"page.{kind}").read_text(encoding="utf-8") for kind in ("css", "js"))
SECONDS = STEP * KEPT
"""How long ago the left end of pictures is."""
FIRST = Html(
    '<!DOCTYPE html>\n<html lang="en"><head><meta charset="utf-8"><meta name="viewport" content="width=device-width, initial-scale=1">'
    '<link rel="icon" href="data:,"><noscript><meta http-equiv="refresh" content="5"></noscript>'
)
RATES = (("messages", "Messages a second"), ("answered", "Lines a second"), ("refused", "Refused a second"), ("rounds", "Rounds a second"))
LAG = 30.0
"""For how many seconds a stream may lag that is well, where nothing else is said."""
STREAMS = ("Stream", "State", "Position", "Behind", "Last message", "Read", "Messages a second", "", "Path")
FEEDS = ("Stream", "Feed", "Broker's last", "Broker heard", "Lag", "Lag time")
TABLETS = ("Tablet", "From", "To", "State", "Behind")
COUNTED = ("Records", "Deleted")
LINES = ("Lines", "Answered", "Refused", "Answered a second", "")
NUMBERS = {*FEEDS[2:], "Position", "Behind", "Last message", "Read", "Messages a second", "Records", "Deleted", "Answered", "Refused", "Answered a second"}


def policy() -> str:
    """What a browser may do with the page: show its own style, run its own script, and ask where it is from."""
    style, script = (b64encode(sha256(it.encode()).digest()).decode() for it in (STYLE, SCRIPT))
    allowed = f"style-src 'sha256-{style}'; script-src 'sha256-{script}'; connect-src 'self'; img-src data:"
    return f"default-src 'none'; {allowed}; base-uri 'none'; form-action 'none'; frame-ancestors 'none'"


def shown_page(view: View, silence: int | None = None, lag: float | None = None) -> bytes:
    """The page of a view, with all that is wrong; streams whose feeds tell figures may lag for a time only."""
    wrong = [view.fault] if view.fault is not None else []
    if view.last is not None and not wrong:
        wrong = faults_of(view.last.stats, view.last.tablets, silence)
        told = [it for it in view.last.stats.streams if lag is not None or it.name in view.last.lags]
        wrong += lags_of(told, view.last.lags, LAG if lag is None else lag)
    head = joined(element("title", "pnuts: wrong" if wrong else "pnuts: well"), element("style", Html(STYLE)))
    shown = element("main", *heading(view, wrong), *sections(view))
    said = element("p", id="said", role="status")
    foot = element("footer", said, element("p", f"Pictures show the last {SECONDS / 60:.0f} minutes. For programs: /metrics and /healthz."))
    page = joined(FIRST, head, Html("</head><body>"), shown, foot, element("script", Html(SCRIPT)), Html("</body></html>\n"))
    return page.encode("utf-8", "replace")


def heading(view: View, wrong: Sequence[str]) -> Iterator[Html]:
    """Whether all is well, and what is not."""
    yield element("h1", "pnuts", element("span", "wrong" if wrong else "well", class_=f"state {'wrong' if wrong else 'well'}"))
    if view.last is not None:
        stats, past = view.last.stats, view.now - view.last.at
        yield element("p", f"Version {stats.version}, up {shown_seconds(stats.uptime)}, {stats.rounds:,} rounds", class_="soft")
        if view.fault is not None:
            yield element("p", f"Below is what it said {shown_seconds(int(past))} ago.", class_="soft")
    for it in wrong:
        yield element("p", it, class_="wrong")


def sections(view: View) -> Iterator[Html]:
    """All but the heading, once the region has answered."""
    if view.last is None:
        return
    parts = (
        element("div", *tiles(view), class_="tiles"),
        element("h2", "Streams"),
        table(STREAMS, streams(view, view.last)),
        *feeds(view.last),
        element("h2", "Tablets"),
        tablets(view.last),
        element("h2", "Clients"),
        element("p", connections(view.last.stats)),
        table(LINES, lines(view, view.last.stats), "few"),
    )
    yield element("div", *parts, class_="stale" if view.fault is not None else "now")


def tiles(view: View) -> Iterator[Html]:
    """Pictures of the whole region."""
    for name, what in RATES:
        yield tile(what, view.rates(name), shown_rate)
    yield tile("Connections", view.values("open"), lambda value: f"{value:,.0f}")
    yield tile("Memory", view.values("bytes"), lambda value: shown_bytes(int(value)))


def tile(what: str, points: Sequence[Point], text: Callable[[float], str]) -> Html:
    """A value with a picture of what it was."""
    now, most = now_and_most(points)
    shown = joined(element("strong", "-" if now is None else text(now)), element("small", "" if most is None else f"at most {text(most)}"))
    return element("figure", element("figcaption", what), shown, sparkline(points, SECONDS, what))


def now_and_most(points: Sequence[Point]) -> tuple[float | None, float | None]:
    known = [value for _, value in points if value is not None]
    return (points[-1][1] if points else None), max(known, default=None)


def shown_rate(value: float) -> str:
    """How often something happens a second."""
    return f"{value:,.0f}" if value >= 10 or value == 0 else f"{value:.1f}"


def feeds(seen: Seen) -> Iterator[Html]:
    """A table of how far streams lag, where feeds tell it."""
    if seen.lags:
        yield element("h2", "Feeds")
        yield table(FEEDS, (row(FEEDS, (element("strong", name), *lagging(lag))) for name, lag in seen.lags.items()))


def lagging(lag: Lag) -> Sequence[object]:
    """The cells of a stream's lag."""
    newest, messages = ("-" if it is None else f"{it:,}" for it in (lag.newest, lag.messages))
    silence, time = ("-" if it is None else shown_seconds(int(it)) for it in (lag.silence, lag.seconds))
    heard = "-" if lag.silence is None else f"{silence} ago"
    return (state("gone" if lag.is_gone else "runs"), newest, heard, messages, time)


def streams(view: View, seen: Seen) -> Iterator[Html]:
    """A row for each stream, and one for its last fault."""
    for it in seen.stats.streams:
        points = view.rates(PER_STREAM + it.name)
        now, _ = now_and_most(points)
        last = "-" if it.since is None else f"{shown_seconds(it.since)} ago"
        behind = max((lack(it, tablet) for tablet in seen.tablets), default=0)
        picture = sparkline(points, SECONDS, f"Messages of {it.name} a second")
        cells = (element("strong", it.name), state(it.state), f"{it.position:,}", f"{behind:,}", last, shown_bytes(it.bytes))
        yield row(STREAMS, (*cells, "-" if now is None else shown_rate(now), picture, it.path))
        if it.reason is not None:
            line = "" if it.line is None else f", in line {it.line:,} of what its writer sent"
            yield element("tr", element("td", f"{it.name}: {it.reason}{line}", colspan=len(STREAMS), class_="reason"), class_="fault")


def lack(stream: StreamStats, tablet: Tablet) -> int:
    """How many messages of a stream a tablet lacks."""
    return max(stream.position - tablet.cover.get(stream.name, 0), 0)


def tablets(seen: Seen) -> Html:
    """A table of the tablets, with how many records each holds where the region says it."""
    counts = seen.stats.tablets if len(seen.stats.tablets) == len(seen.tablets) else []
    heads = (*TABLETS, *COUNTED) if counts else TABLETS
    rows = []
    for number, it in enumerate(seen.tablets):
        behind = max((lack(stream, it) for stream in seen.stats.streams), default=0)
        shown = state("serves") if it.need is None else joined(state("recovering"), f" needs {shown_marks(it.need)}")
        held = [f"{counts[number].records:,}", f"{counts[number].deleted:,}"] if counts else []
        rows.append(row(heads, [element("strong", number), it.start or "-", it.end or "-", shown, f"{behind:,}", *held]))
    return table(heads, rows)


def connections(stats: Stats) -> str:
    """All connections of clients so far, in words."""
    it = stats.connections
    return f"Connections: {it.open:,} open, {it.accepted:,} accepted, {it.refused:,} refused, {it.idle:,} ended as idle"


def lines(view: View, stats: Stats) -> Iterator[Html]:
    """A row for all lines of clients, and one for each kind of them where the region says it."""
    yield line("all", stats.lines, view.rates("answered"))
    for name, it in stats.lines.kinds.items():
        yield line(name, it, view.rates(PER_KIND + name))


def line(name: str, counts: LineCounts, points: Sequence[Point]) -> Html:
    now, _ = now_and_most(points)
    picture = sparkline(points, SECONDS, f"Lines answered a second: {name}")
    return row(LINES, (element("strong", name), f"{counts.answered:,}", f"{counts.refused:,}", "-" if now is None else shown_rate(now), picture))


def state(name: str) -> Html:
    return element("span", name, class_=f"state {name}")


def kind(head: str) -> str:
    return "number" if head in NUMBERS else "text"


def row(heads: Sequence[str], cells: Sequence[object]) -> Html:
    """A row, whose cells have the names of their columns for narrow screens."""
    return element("tr", *(element("td", cell, class_=kind(head), data_label=head) for head, cell in zip(heads, cells, strict=True)))


def table(heads: Sequence[str], rows: Iterable[Html], width: str = "many") -> Html:
    """A table. One of many columns has a line for each cell on a narrow screen."""
    head = element("thead", element("tr", *(element("th", it, scope="col", class_=kind(it)) for it in heads)))
    return element("table", head, element("tbody", *rows), class_=width)
