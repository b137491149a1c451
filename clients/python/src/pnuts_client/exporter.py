"""Shows a region: to people at `/`, to Prometheus at `/metrics`, and to load balancers at `/healthz`.

It needs Debian's package python3-prometheus-client.
"""

from __future__ import annotations

import os
import socket
import threading
from collections.abc import Callable, Iterable, Iterator
from dataclasses import dataclass, field
from itertools import accumulate
from socketserver import ThreadingMixIn
from typing import Any, cast
from urllib.parse import parse_qs
from wsgiref.simple_server import WSGIRequestHandler, WSGIServer, make_server

from prometheus_client import CollectorRegistry, Metric, make_wsgi_app
from prometheus_client.core import CounterMetricFamily as Counter
from prometheus_client.core import GaugeMetricFamily as Gauge
from prometheus_client.core import HistogramMetricFamily as Histogram

from .control import Control
from .control_requests import Stats, StreamStats, Tablet, TimeCounts
from .errors import PnutsError
from .figures import Beside, Lags
from .history import History
from .page import policy, shown_page
from .status import failures_of, lags_of, losses_of, silences_of

PATIENCE = 10.0
"""For how many seconds a client is waited for that sends or takes nothing."""
CLIENTS = 16
"""How many clients are answered at once. More of them wait."""
STATES = ("waiting", "open", "ended", "failed")
TEXT = ("Content-Type", "text/plain; charset=utf-8")
App = Callable[[dict[str, Any], Callable[..., Any]], Iterable[bytes]]


@dataclass(frozen=True)
class Shown:
    """What is looked at beside the region, and for how many seconds a stream may be silent or lag, where that is asked."""

    beside: Beside = field(default_factory=Beside)
    silence: int | None = None
    lag: float | None = None


class Collector:
    """Asks the region anew at each scrape."""

    def __init__(self, region: Control, beside: Beside) -> None:
        self._region = region
        self._beside = beside

    def collect(self) -> Iterator[Metric]:
        """The metrics of one moment; where the region does not answer, `pnuts_up` and those of the machine alone."""
        yield from of_machine(self._beside)
        try:
            stats, tablets = self._region.stats(), self._region.tablets()
        except PnutsError:
            yield Gauge("pnuts_up", "Whether the region answers", value=0)
            return
        yield Gauge("pnuts_up", "Whether the region answers", value=1)
        yield from of_region(stats)
        yield from of_streams(stats.streams)
        yield from of_lags(self._beside.lags(stats.streams))
        yield from of_tablets(tablets)
        yield from of_contents(stats)
        yield from of_times(stats)


def of_machine(beside: Beside) -> Iterator[Metric]:
    """The machine's memory, and the age of the copies."""
    memory = os.sysconf("SC_PHYS_PAGES") * os.sysconf("SC_PAGE_SIZE")
    yield Gauge("pnuts_machine_memory_bytes", "The memory of the exporter's machine", value=memory)
    if (age := beside.copies_age()) is not None:
        yield Gauge("pnuts_copies_age_seconds", "How long ago the copies were saved; infinite where there are none", value=age)


def of_lags(lags: Lags) -> Iterable[Metric]:
    """How far streams are behind their brokers, where feeds tell it."""
    newest = Gauge("pnuts_stream_newest", "The position of the broker's last message of a stream", labels=["stream"])
    messages = Gauge("pnuts_stream_lag_messages", "How many messages of a stream the broker has that the region lacks", labels=["stream"])
    seconds = Gauge("pnuts_stream_lag_seconds", "For how long the region has lacked a message that the broker has", labels=["stream"])
    age = Gauge("pnuts_feed_age_seconds", "How long ago the feed of a stream wrote its figures", labels=["stream"])
    silence = Gauge("pnuts_feed_broker_silence_seconds", "For how long the broker has not answered a feed", labels=["stream"])
    for name, lag in lags.items():
        age.add_metric([name], lag.age)
        for metric, value in ((newest, lag.newest), (messages, lag.messages), (seconds, lag.seconds), (silence, lag.silence)):
            if value is not None:
                metric.add_metric([name], value)
    return newest, messages, seconds, age, silence


def of_region(stats: Stats) -> Iterator[Metric]:
    """The metrics of a region as a whole."""
    version = Gauge("pnuts_info", "The region's version, with the value 1", labels=["version"])
    version.add_metric([stats.version], 1)
    yield version
    yield Gauge("pnuts_uptime_seconds", "For how long it runs", value=stats.uptime)
    yield Gauge("pnuts_memory_bytes", "Its memory", value=stats.bytes)
    yield Counter("pnuts_rounds", "Rounds in which messages were taken", value=stats.rounds)
    connections, lines = stats.connections, stats.lines
    yield Gauge("pnuts_connections_open", "Connections of clients that are open", value=connections.open)
    yield Counter("pnuts_connections_accepted", "Connections that were accepted", value=connections.accepted)
    yield Counter("pnuts_connections_refused", "Connections that were refused", value=connections.refused)
    yield Counter("pnuts_connections_idle", "Connections that were ended since they were idle", value=connections.idle)
    if stats.unread is not None:
        yield Gauge("pnuts_unread_bytes", "Bytes of the records that unread replies keep", value=stats.unread.bytes)
        yield Gauge("pnuts_unread_limit_bytes", "How many of them there may be", value=stats.unread.limit)
        yield Counter("pnuts_unread_ended", "Connections that were ended since their clients took nothing", value=stats.unread.ended)
    yield Counter("pnuts_lines_answered", "Lines of clients that were answered", value=lines.answered)
    yield Counter("pnuts_lines_refused", "Lines of clients that were answered by a refusal", value=lines.refused)
    answered = Counter("pnuts_kind_lines_answered", "Lines of clients that were answered, of each kind", labels=["kind"])
    refused = Counter("pnuts_kind_lines_refused", "Lines of clients that were answered by a refusal, of each kind", labels=["kind"])
    for name, it in lines.kinds.items():
        answered.add_metric([name], it.answered)
        refused.add_metric([name], it.refused)
    yield from (answered, refused)


def of_streams(streams: Iterable[StreamStats]) -> Iterable[Metric]:
    """The metrics of streams, by their names."""
    position = Gauge("pnuts_stream_position", "Up to which position a stream is taken", labels=["stream"])
    messages = Counter("pnuts_stream_messages", "Messages that were read of a stream", labels=["stream"])
    size = Counter("pnuts_stream_bytes", "Bytes that were read of a stream", labels=["stream"])
    silence = Gauge("pnuts_stream_silence_seconds", "For how long no message of a stream has come", labels=["stream"])
    states = Gauge("pnuts_stream_state", "Whether a stream is in this state", labels=["stream", "state"])
    for stream in streams:
        position.add_metric([stream.name], stream.position)
        messages.add_metric([stream.name], stream.messages)
        size.add_metric([stream.name], stream.bytes)
        if stream.since is not None:
            silence.add_metric([stream.name], stream.since)
        for state in STATES:
            states.add_metric([stream.name, state], stream.state == state)
    return position, messages, size, silence, states


def of_tablets(tablets: Iterable[Tablet]) -> Iterable[Metric]:
    """Which tablets are lost."""
    recovering = Gauge("pnuts_tablet_recovering", "Whether a tablet was lost and has adopted no copy yet", labels=["tablet"])
    for number, tablet in enumerate(tablets):
        recovering.add_metric([str(number)], tablet.need is not None)
    return (recovering,)


def of_contents(stats: Stats) -> Iterable[Metric]:
    """What tablets hold, where the region says it."""
    records = Gauge("pnuts_tablet_records", "Records that a tablet holds", labels=["tablet"])
    deleted = Gauge("pnuts_tablet_deleted", "Records that a tablet holds and that are deletions", labels=["tablet"])
    for number, tablet in enumerate(stats.tablets):
        records.add_metric([str(number)], tablet.records)
        deleted.add_metric([str(number)], tablet.deleted)
    return records, deleted


def of_times(stats: Stats) -> Iterator[Metric]:
    """How long lines and rounds took, where the region says it."""
    if stats.times is not None:
        yield histogram("pnuts_line_seconds", "How long lines of clients took, from when they were at hand to their replies", stats.times.lines)
        yield histogram("pnuts_round_seconds", "How long rounds took", stats.times.rounds)


def histogram(name: str, text: str, times: TimeCounts) -> Metric:
    """Times as Prometheus has them: each bucket has the shorter ones, too."""
    so_far = list(accumulate(bucket.count for bucket in times.buckets))
    buckets = [(str(bucket.most / 1e6), float(count)) for bucket, count in zip(times.buckets, so_far, strict=True)]
    # A line may be counted between the buckets and their sum.
    whole = max(times.count, *so_far, 0)
    return Histogram(name, text, buckets=[*buckets, ("+Inf", float(whole))], sum_value=times.total / 1e6)


def faults(region: Control, shown: Shown, lag: float | None) -> tuple[list[str], list[str]]:
    """For what a region should not be asked, of which one fault is that it does not answer, and what else is wrong.

    A stream that has failed is of the latter: a message that one region refuses, all refuse, and they serve what they have.
    """
    try:
        stats, tablets = region.stats(), region.tablets()
    except PnutsError as fault:
        return [str(fault)], []
    found = [*losses_of(tablets), *silences_of(stats, shown.silence)]
    if lag is not None:
        found += lags_of(stats.streams, shown.beside.lags(stats.streams), lag)
    return found, failures_of(stats)


def lag_in(query: str, usual: float | None) -> float | None:
    """For how many seconds a stream may lag, where the address says it. Raises ValueError where it says something else."""
    told = parse_qs(query, keep_blank_values=True, strict_parsing=True) if query else {}
    if told.keys() - {"lag"}:
        raise ValueError(query)
    seconds = float(told["lag"][-1]) if told else usual
    if seconds is not None and not seconds >= 0:
        raise ValueError(query)
    return seconds


def app_of(region: Control, history: History, shown: Shown) -> App:
    """What is served."""
    registry = CollectorRegistry(auto_describe=False)
    registry.register(cast(Any, Collector(region, shown.beside)))
    metrics: App = make_wsgi_app(registry)
    page = [("Content-Type", "text/html; charset=utf-8"), ("Content-Security-Policy", policy()), ("Cache-Control", "no-store"),
            ("Referrer-Policy", "no-referrer"), ("X-Content-Type-Options", "nosniff")]

    def health(environ: dict[str, Any], start: Callable[..., Any]) -> Iterable[bytes]:
        try:
            lag = lag_in(environ.get("QUERY_STRING", ""), shown.lag)
        except ValueError:
            start("400 Bad Request", [TEXT])
            return [b"of words there is lag=SECONDS\n"]
        found, others = faults(region, shown, lag)
        start("503 Service Unavailable" if found else "200 OK", [TEXT])
        return ["".join(f"{it}\n" for it in [*found, *others] or ["well"]).encode()]

    def app(environ: dict[str, Any], start: Callable[..., Any]) -> Iterable[bytes]:
        path = environ["PATH_INFO"] or "/"
        if path == "/metrics":
            return metrics(environ, start)
        if path == "/healthz":
            return health(environ, start)
        if path == "/":
            # The server adds to the list.
            start("200 OK", [*page])
            return [shown_page(history.view(), shown.silence, shown.lag)]
        start("404 Not Found", [TEXT])
        return [b"there are /, /metrics and /healthz\n"]

    return app


class Handler(WSGIRequestHandler):
    """Says nothing of requests, and waits for nobody for long."""

    timeout = PATIENCE

    def log_message(self, *_: Any) -> None:
        pass


class Server(ThreadingMixIn, WSGIServer):
    """Answers some clients at once, each by a thread."""

    daemon_threads = True
    _permits = threading.BoundedSemaphore(CLIENTS)

    def process_request(self, request: Any, address: Any) -> None:
        self._permits.acquire()
        super().process_request(request, address)

    def process_request_thread(self, request: Any, address: Any) -> None:
        try:
            super().process_request_thread(request, address)
        finally:
            self._permits.release()

    def handle_error(self, *_: Any) -> None:
        """A client that goes too early is no fault."""


class Server6(Server):
    """The same on an address of IPv6."""

    address_family = socket.AF_INET6


def serve(region: Control, watched: Control, host: str, port: int, shown: Shown) -> None:
    """Serves until it is interrupted. What the page shows is asked through a client of its own: scrapes do not wait for it."""
    history = History(watched, shown.beside)
    kind = Server6 if ":" in host else Server
    with make_server(host, port, app_of(region, history, shown), server_class=kind, handler_class=Handler) as server:
        history.begin()
        server.serve_forever()
