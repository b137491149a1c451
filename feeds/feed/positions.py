"""Which message of a broker has which position: in memory the ids and lines of what was given last, and in a file positions with their offsets."""

from __future__ import annotations

import contextlib
import hashlib
import json
import os
from bisect import bisect_left, bisect_right
from collections import deque
from collections.abc import Sequence
from dataclasses import dataclass
from pathlib import Path

MOST_IDS, MOST_BYTES = 200_000, 4_000_000
EVERY = 1_000
MOST = 2_000


class Ids:
    """The broker's ids of what was given last, until the region has taken it."""

    def __init__(self) -> None:
        self._parts: deque[tuple[int, Sequence[object]]] = deque()
        self._count = 0

    def begin(self) -> None:
        """Forgets all of them."""
        self._parts.clear()
        self._count = 0

    def add(self, first: int, ids: Sequence[object]) -> None:
        """The ids of messages that are given next, from this position on."""
        self._parts.append((first, ids))
        self._count += len(ids)
        while self._count > MOST_IDS and len(self._parts) > 1:
            self._drop()

    def forget(self, taken: int) -> None:
        """The region has all up to this position."""
        while self._parts and self._parts[0][0] + len(self._parts[0][1]) <= taken + 1:
            self._drop()

    def at(self, position: int | None) -> object | None:
        """The id of the message that has this position, where it is still known."""
        if position is not None:
            for first, ids in self._parts:
                if first <= position < first + len(ids):
                    return ids[position - first]
        return None

    def _drop(self) -> None:
        self._count -= len(self._parts.popleft()[1])


class Given:
    """The lines that were given last, of which the region may refuse one."""

    def __init__(self) -> None:
        self._parts: deque[tuple[int, Sequence[bytes], int]] = deque()
        self._size = 0

    def begin(self) -> None:
        """Forgets all of them."""
        self._parts.clear()
        self._size = 0

    def add(self, first: int, lines: Sequence[bytes]) -> None:
        """Lines that are given next, from this position on."""
        size = sum(map(len, lines))
        self._parts.append((first, lines, size))
        self._size += size
        while self._size > MOST_BYTES and len(self._parts) > 1:
            self._size -= self._parts.popleft()[2]

    def at(self, position: int | None) -> bytes | None:
        """The line of this position, where it is still known."""
        if position is not None:
            for first, lines, _ in self._parts:
                if first <= position < first + len(lines):
                    return lines[position - first]
        return None


class BadPairs(Exception):
    """The file is none of this stream's, or cannot be written."""


@dataclass(frozen=True, order=True)
class Pair:
    """A message of the stream: its position, its offset at the broker, and a digest of its body."""

    position: int
    offset: int
    # Empty where the body was never seen.
    digest: str

    @classmethod
    def of(cls, position: int, offset: int, body: bytes) -> Pair:
        """The pair of a message."""
        return cls(position, offset, hashlib.sha256(body).hexdigest()[:16])

    def is_at(self, offset: int, body: bytes) -> bool:
        """Whether the broker's message of this offset and body is the one meant."""
        return self.offset == offset and self.digest in ("", Pair.of(0, 0, body).digest)


class Pairs:
    """Pairs of one stream, in the order of their positions: of each thousand messages one, and fewer of those long ago.

    Without a path they are kept for the life of the feed alone.
    """

    def __init__(self, path: str | None, stream: str, first: Pair) -> None:
        self._path = None if path is None else Path(path)
        self._stream = stream
        self._pairs = [first]
        if self._path is not None and self._path.exists():
            self._pairs = self._in_file(self._path)

    def until(self, position: int) -> Pair:
        """The last pair at or before this position, from 1."""
        return self._pairs[bisect_right(self._pairs, position, key=_position_of) - 1]

    def from_offset(self, offset: int) -> Pair | None:
        """The first pair at or after this offset."""
        return next((pair for pair in self._pairs if pair.offset >= offset), None)

    def see(self, position: int, offset: int, body: bytes) -> None:
        """A message was read. Now and then it becomes a pair. Raises BadPairs where another message had its position."""
        if position % EVERY != 1:
            return
        pair, known = Pair.of(position, offset, body), self.until(position)
        if known.position != position or not known.digest:
            self.add(pair)
        elif known != pair:
            raise BadPairs(f"position {position} of the stream {self._stream} is another message than before: {pair} and not {known}")

    def add(self, pair: Pair) -> None:
        """Keeps a pair, in the file too."""
        at = bisect_left(self._pairs, pair.position, key=_position_of)
        is_known = at < len(self._pairs) and self._pairs[at].position == pair.position
        self._pairs[at : at + is_known] = [pair]
        if len(self._pairs) > MOST:
            half = MOST // 2
            self._pairs = self._pairs[:half:2] + self._pairs[half:]
        self._write()

    def _in_file(self, path: Path) -> list[Pair]:
        try:
            told = json.loads(path.read_bytes())
            pairs = [Pair(*pair) for pair in told["pairs"]]
            stream = told["stream"]
        except (OSError, ValueError, KeyError, TypeError) as fault:
            raise BadPairs(f"{path} is no file of positions and offsets: {fault}") from fault
        if stream != self._stream or not pairs or pairs != sorted(pairs):
            raise BadPairs(f"{path} has no positions of the stream {self._stream}")
        return pairs

    def _write(self) -> None:
        """The file is the one before or the new one, whenever the machine stops."""
        if self._path is None:
            return
        text = json.dumps({"pairs": [(pair.position, pair.offset, pair.digest) for pair in self._pairs], "stream": self._stream})
        written = self._path.with_name(f"{self._path.name}.new")
        try:
            with written.open("w", encoding="utf-8") as file:
                file.write(f"{text}\n")
                file.flush()
                os.fsync(file.fileno())
            written.rename(self._path)
        except OSError as fault:
            with contextlib.suppress(OSError):
                written.unlink()
            raise BadPairs(f"cannot write {self._path}: {fault.strerror}") from fault


def _position_of(pair: Pair) -> int:
    return pair.position
