"""A file of how far a feed, its broker and its region are, which is written anew each second for whoever watches them."""

from __future__ import annotations

import contextlib
import json
import os
import threading
import time
from collections import deque
from collections.abc import Callable
from pathlib import Path
from typing import Any

EVERY = 1.0
MOST = 1_000
Say = Callable[[str], None]


class Figures:
    """What is known, in memory, and in the file where one is named. Times are seconds since 1970.

    `level` is the last time at which the broker had no more than the region has now: since then the region lags. A feed begins
    with what the file has, so that one that is started again and again lags on.
    """

    def __init__(self, path: str | None, say: Say) -> None:
        self._path = None if path is None else Path(path)
        self._say = say
        self._lock = threading.Lock()
        before = _told_before(self._path)
        self._level = before.get("level") or time.time()
        self._heard: float | None = before.get("heard")
        self._newest: int | None = before.get("newest")
        self._taken: int | None = before.get("taken")
        # Which stream it is, and a message that the region has, by its position and what the broker calls it.
        self.stream: str | None = before.get("stream")
        self.last: tuple[int, str] | None = before.get("last")
        # Times at which the broker's newest position was told that the region had not taken yet, with these positions.
        self._ahead: deque[tuple[float, int]] = deque()
        self._failed = False

    def begin(self) -> None:
        """Writes the file now and each second, until the program ends."""
        if self._path is not None:
            self.write()
            threading.Thread(target=self._write_on, daemon=True).start()

    def note(self, newest: int | None, taken: int | None) -> None:
        """The broker's newest position, where it told one just now, and how far the region is, where it says so."""
        now = time.time()
        with self._lock:
            self._taken = taken
            if newest is not None:
                self._heard, self._newest = now, newest
                self._see(now, newest)
            while taken is not None and self._ahead and self._ahead[0][1] <= taken:
                self._level = self._ahead.popleft()[0]

    def keep(self, stream: str | None, last: tuple[int, str] | None) -> None:
        """What a feed that comes later may know the stream by."""
        with self._lock:
            self.stream, self.last = stream or self.stream, last or self.last

    @property
    def path(self) -> Path | None:
        return self._path

    def _see(self, now: float, newest: int) -> None:
        if not self._ahead or now - self._ahead[-1][0] >= EVERY:
            self._ahead.append((now, newest))
        if len(self._ahead) > MOST:
            self._ahead = deque([*self._ahead][::2])

    def _write_on(self) -> None:
        while True:
            time.sleep(EVERY)
            self.write()

    def _told(self) -> dict[str, Any]:
        with self._lock:
            level = None if self._taken is None else self._level
            known = {"last": self.last, "stream": self.stream}
            return {"at": time.time(), "heard": self._heard, "level": level, "newest": self._newest, "taken": self._taken, **known}

    def write(self) -> None:
        """Writes the file, which is the one before or the new one. That it cannot be written is said once, and ends nothing."""
        if self._path is None:
            return
        written = self._path.with_name(f".{self._path.name}.{os.getpid()}.{threading.get_ident()}")
        try:
            written.write_text(json.dumps(self._told()) + "\n", encoding="utf-8")
            written.rename(self._path)
            self._failed = False
        except OSError as fault:
            with contextlib.suppress(OSError):
                written.unlink()
            if not self._failed:
                self._say(f"cannot write {self._path}: {fault.strerror}")
            self._failed = True


def _told_before(path: Path | None) -> dict[str, Any]:
    """What the file has of a feed before. Of times to come, and what is no number, it has nothing."""
    with contextlib.suppress(OSError, ValueError, AttributeError):
        if path is not None:
            told, now = json.loads(path.read_bytes()), time.time()
            found = {name: told.get(name) for name in ("heard", "level") if isinstance(told.get(name), (int, float)) and 0 < told[name] <= now}
            found |= {name: told.get(name) for name in ("newest", "taken") if type(told.get(name)) is int}
            found |= {"stream": told["stream"]} if isinstance(told.get("stream"), str) else {}
            last = told.get("last")
            is_known = isinstance(last, list) and list(map(type, last)) == [int, str]
            return {**found, **({"last": tuple(last)} if is_known else {})}
    return {}
