"""What a region did over the last minutes: a thread asks it again and again, and the oldest of what it said is dropped."""

from __future__ import annotations

import threading
import time
from collections import deque
from collections.abc import Mapping, Sequence
from dataclasses import dataclass, field
from itertools import pairwise

from .control import Control
from .control_requests import Stats, Tablet
from .errors import PnutsError
from .figures import Beside, Lags

STEP = 3.0
"""How many seconds there are between two samples of a region that answers."""
KEPT = 200
"""How many samples are kept."""
WAIT = 5.0
"""For how many seconds the first sample is waited for."""
PER_STREAM, PER_KIND = "messages of ", "answered "
"""What the names of the counts of streams, and of kinds of lines, begin with."""
Point = tuple[float, float | None]
"""For how many seconds a value is past, and the value; None where there is none."""


@dataclass(frozen=True, slots=True)
class Sample:
    """Counts of one moment, by their names; None where the region did not answer."""

    at: float
    counts: Mapping[str, int] | None


@dataclass(frozen=True, slots=True)
class Seen:
    """What a region said last, and when, and how far its streams lagged."""

    at: float
    stats: Stats
    tablets: Sequence[Tablet]
    lags: Lags = field(default_factory=dict)


@dataclass(frozen=True, slots=True)
class View:
    """All that is known at a moment. `fault` is why the region did not answer last, None where it did."""

    now: float
    samples: Sequence[Sample]
    last: Seen | None
    fault: str | None

    def values(self, name: str) -> list[Point]:
        """What a count was."""
        return [(self.now - it.at, None if it.counts is None else it.counts.get(name)) for it in self.samples]

    def rates(self, name: str) -> list[Point]:
        """By how much a count rose a second, between each sample and the one before it."""
        return [(self.now - it.at, rate(before, it, name)) for before, it in pairwise(self.samples)]


def rate(before: Sample, after: Sample, name: str) -> float | None:
    """By how much a count rose a second. None where one is missing, or the region began anew."""
    if before.counts is None or after.counts is None or after.at <= before.at:
        return None
    first, last = before.counts.get(name), after.counts.get(name)
    if first is None or last is None or after.counts["uptime"] < before.counts["uptime"]:
        return None
    return max(last - first, 0) / (after.at - before.at)


def counts_of(stats: Stats) -> dict[str, int]:
    """What is kept of a region's counts."""
    return {
        "uptime": stats.uptime,
        "bytes": stats.bytes,
        "rounds": stats.rounds,
        "open": stats.connections.open,
        "answered": stats.lines.answered,
        "refused": stats.lines.refused,
        "messages": sum(it.messages for it in stats.streams),
        **{PER_STREAM + it.name: it.messages for it in stats.streams},
        **{PER_KIND + name: it.answered for name, it in stats.lines.kinds.items()},
    }


class History:
    """The samples of a region, which it has a client of its own for."""

    def __init__(self, region: Control, beside: Beside = Beside(), kept: int = KEPT) -> None:
        self._region = region
        self._beside = beside
        self._samples: deque[Sample] = deque(maxlen=kept)
        self._last: Seen | None = None
        self._fault: str | None = "it was not asked yet"
        self._lock = threading.Lock()
        self._asked = threading.Event()

    def take(self) -> None:
        """Asks the region once, first for its counts: no stream is then shown behind for a message that came between."""
        try:
            stats, tablets = self._region.stats(), self._region.tablets()
        except PnutsError as fault:
            self._note(None, str(fault))
        else:
            self._note(Seen(time.monotonic(), stats, tablets, self._beside.lags(stats.streams)), None)

    def _note(self, seen: Seen | None, fault: str | None) -> None:
        with self._lock:
            if seen is None:
                self._samples.append(Sample(time.monotonic(), None))
            else:
                self._samples.append(Sample(seen.at, counts_of(seen.stats)))
                self._last = seen
            self._fault = fault
        self._asked.set()

    def begin(self, step: float = STEP) -> None:
        """Asks again and again, until the program ends."""
        threading.Thread(target=self._run, args=[step], daemon=True).start()

    def _run(self, step: float) -> None:
        while True:
            self.take()
            time.sleep(step)

    def view(self) -> View:
        """All that is known now, once the region was asked."""
        self._asked.wait(WAIT)
        with self._lock:
            return View(time.monotonic(), list(self._samples), self._last, self._fault)
