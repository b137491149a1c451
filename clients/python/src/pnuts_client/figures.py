"""How far a region lags, by what its feeds tell it or write into files, and the age of its copies."""

from __future__ import annotations

import contextlib
import json
import os
import threading
import time
from collections import deque
from collections.abc import Iterable, Mapping
from dataclasses import dataclass, field
from pathlib import Path
from typing import Any

from .control_requests import StreamStats

LATE = 10.0
"""For how many seconds a feed that runs may tell nothing, or write no figures: it does each second."""
MOST = 1_000
"""How many of a stream's newest positions are kept that the region has not taken."""


@dataclass(frozen=True, slots=True)
class Figures:
    """What a feed told last: when, and how far it and its broker were. Times are seconds since 1970.

    `newest` is the position of the broker's last message, as it was told at `heard`. `level` is a time at which the broker had
    no more than the region has now. Each is None where it is not known.
    """

    at: float
    heard: float | None
    level: float | None
    newest: int | None


@dataclass(frozen=True, slots=True)
class Lag:
    """How far a region is behind the broker of a stream: in messages, and for how many seconds, each None where it is not known.

    `age` is how many seconds ago the feed told something, and `silence` how many ago its broker last answered.
    """

    newest: int | None
    messages: int | None
    seconds: float | None
    age: float
    silence: float | None

    @property
    def is_gone(self) -> bool:
        """Whether the feed runs no more."""
        return self.age > LATE


Lags = Mapping[str, Lag]


class Levels:
    """When a region last had all that its brokers had, as far as one who asks it again and again can know."""

    def __init__(self) -> None:
        self._lock = threading.Lock()
        self._levels: dict[str, float] = {}
        # When newest positions were told that the region had not taken then, with these positions.
        self._ahead: dict[str, deque[tuple[float, int]]] = {}

    def see(self, name: str, newest: int, heard: float, position: int) -> float:
        """The last time at which a stream had all of its broker, which told its newest position at `heard`; or else the first one known."""
        with self._lock:
            ahead = self._ahead.setdefault(name, deque(maxlen=MOST))
            if not ahead or heard - ahead[-1][0] >= 1.0:
                ahead.append((heard, newest))
            level = self._levels.setdefault(name, heard)
            while ahead and ahead[0][1] <= position:
                level = max(level, ahead.popleft()[0])
            if newest <= position:
                ahead.clear()
                level = max(level, heard)
            self._levels[name] = level
            return level


@dataclass(frozen=True, slots=True)
class Beside:
    """The folder of files `STREAM.json` that feeds write, and the file of copies; None where they are not looked at."""

    feeds: Path | None = None
    copies: Path | None = None
    levels: Levels = field(default_factory=Levels, compare=False)

    def lags(self, streams: Iterable[StreamStats]) -> dict[str, Lag]:
        """How far each stream is behind whose feed tells the region how far its broker is, or else writes figures."""
        now, found = time.time(), dict[str, Lag]()
        for stream in streams:
            figures = told_by(stream, self.levels, now) or self._figures(stream.name)
            if figures is not None:
                found[stream.name] = lag_of(figures, stream.position, now)
        return found

    def _figures(self, name: str) -> Figures | None:
        return None if self.feeds is None else read_figures(self.feeds / f"{name}.json")

    def copies_age(self) -> float | None:
        """How many seconds ago the copies were written. It is infinite where they are not there, and None where nobody asks."""
        if self.copies is None:
            return None
        try:
            return max(0.0, time.time() - os.stat(self.copies).st_mtime)
        except OSError:
            return float("inf")


def told_by(stream: StreamStats, levels: Levels, now: float) -> Figures | None:
    """What a stream's feed told the region, or None where it told nothing."""
    if stream.newest is None or stream.heard is None:
        return None
    heard = now - stream.heard
    return Figures(heard, heard, levels.see(stream.name, stream.newest, heard, stream.position), stream.newest)


def read_figures(path: Path) -> Figures | None:
    """What a feed wrote, or None where it wrote nothing, or nothing that is understood."""
    with contextlib.suppress(OSError, ValueError, TypeError, AttributeError, KeyError):
        told = json.loads(path.read_bytes())
        heard, level, newest = (told.get(name) for name in ("heard", "level", "newest"))
        return Figures(float(told["at"]), _seconds(heard), _seconds(level), None if newest is None else int(newest))
    return None


def _seconds(told: Any) -> float | None:
    return None if told is None else float(told)


def lag_of(figures: Figures, position: int, now: float) -> Lag:
    """How far a stream that was taken up to a position is behind what its feed has told."""
    level = figures.level
    if figures.newest is not None and figures.heard is not None and position >= figures.newest:
        level = max(figures.heard, level or 0.0)

    def since(moment: float | None) -> float | None:
        return None if moment is None else max(0.0, now - moment)

    messages = None if figures.newest is None else max(0, figures.newest - position)
    return Lag(figures.newest, messages, since(level), max(0.0, now - figures.at), since(figures.heard))
