"""Copies of all tablets of a region, saved in a file that another may start from, and bounds of tablets of like size, which they tell."""

from __future__ import annotations

import json
from bisect import bisect_left
from collections.abc import Iterable, Iterator, Sequence
from concurrent.futures import ThreadPoolExecutor
from pathlib import Path
from typing import Any

from . import requests
from .client import Client
from .errors import BadLine, ConnectionFailed, PnutsError, Refused, TimedOut
from .files import write_parts

MOST_TABLETS = 64
"""How many tablets a layout has at most."""
STEP, MOST_KEYS = 4_096, 100_000
"""How many bytes of images there are at first between two keys that may become bounds, and how many such keys are kept."""
END = b'{"end":'


class Unfit(PnutsError):
    """A copy, or a tablet, that is not what was asked for."""


def save(regions: Client | Sequence[Client], path: Path) -> int:
    """Writes the copies of all tablets, one after another, to a file, which is there whole or not at all. How many they are.

    Each is of its own moment, and of the first region that gives it: a later one is asked where an earlier one recovers the
    tablet, is behind, or does not answer. The regions need no control sockets.
    """
    count = 0

    def counted() -> Iterator[bytes]:
        nonlocal count
        for count, text in enumerate(_ahead(copies(regions)), start=1):
            yield text

    write_parts(path, counted())
    return count


def copies(regions: Client | Sequence[Client]) -> Iterator[bytes]:
    """The copies of all tablets in their order, whose ranges have each key once."""
    start, number = None, 0
    while number == 0 or start is not None:
        text = _copy_from([regions] if isinstance(regions, Client) else regions, number, start)
        yield text
        start, number = head_of(text)["to"], number + 1


def _ahead(texts: Iterator[bytes]) -> Iterator[bytes]:
    """The texts, each of which is asked for while the one before is written."""

    def following() -> bytes:
        return next(texts, b"")

    with ThreadPoolExecutor(1) as pool:
        found = pool.submit(following)
        while text := found.result():
            found = pool.submit(following)
            yield text


def head_of(text: bytes) -> Any:
    """The first line of a copy, which has its range."""
    return json.loads(text[: text.index(b"\n")])


def _copy_from(regions: Sequence[Client], number: int, start: str | None) -> bytes:
    """The copy of a tablet, which begins there, from the first region that gives it. Raises the first region's fault."""
    first: PnutsError | None = None
    for region in regions:
        try:
            return _fitting(region, number, start)
        except BadLine as fault:
            gone = Unfit(f"no tablet has the keys from {start!r} on")
            first = first or (gone if number and fault.member == "tablet" else fault)
        except (ConnectionFailed, Refused, TimedOut, Unfit) as fault:
            first = first or fault
    raise first or Unfit("there is no region to copy from")


def _fitting(region: Client, number: int, start: str | None) -> bytes:
    """The copy of a tablet, which begins there."""
    text: bytes = region.ask(requests.copy(number))
    begins = head_of(text)["from"]
    if begins != start:
        raise Unfit(f"the copy of tablet {number} begins at {begins!r}, not at {start!r}")
    return text


class NoCopy(PnutsError):
    """A text of copies that is cut short."""


def copies_in(path: Path) -> Iterator[bytes]:
    """The copies in a file."""
    lines: list[bytes] = []
    with path.open("rb") as file:
        for line in file:
            lines.append(line)
            if line.startswith(END):
                yield b"".join(lines)
                lines = []
    if lines:
        raise NoCopy(f"{path} is cut short")


def images_in(text: bytes) -> tuple[int, int]:
    """Where the images of a copy begin and end, as a region writes it: between the marks and the last line."""
    begin = text.index(b"\n") + 1
    while text.startswith(b'{"at":', begin):
        begin = text.index(b"\n", begin) + 1
    return begin, text.rindex(b"\n", 0, len(text) - 1) + 1


class Sizes:
    """How many bytes of images come before some keys, a step apart."""

    def __init__(self) -> None:
        self.size = self.count = 0
        self._step = STEP
        self._keys: list[str] = []
        self._before: list[int] = []

    def add(self, text: bytes) -> None:
        """The copy that comes next."""
        first, end = images_in(text)
        at = first + self._step - self.size % self._step
        while at < end:
            begin = text.rfind(b"\n", first, at) + 1
            if begin:
                self._keys.append(json.loads(text[begin : text.index(b"\n", begin)])["key"])
                self._before.append(self.size + begin - first)
            at += self._step
        self.size += end - first
        self.count += text.count(b"\n", first, end)
        while len(self._keys) > MOST_KEYS:
            self._keys, self._before, self._step = self._keys[1::2], self._before[1::2], 2 * self._step

    def bounds(self, tablets: int) -> list[str]:
        """Bounds of as many tablets, or fewer where there are too few keys, with like bytes of images each."""
        found: list[str] = []
        for number in range(1, tablets):
            at = bisect_left(self._before, self.size * number / tablets)
            if at < len(self._keys) and (not found or self._keys[at].encode() > found[-1].encode()):
                found.append(self._keys[at])
        return found


def sizes_of(texts: Iterable[bytes]) -> Sizes:
    """The sizes of all copies, in the order of their ranges."""
    found = Sizes()
    for text in texts:
        found.add(text)
    return found


def as_json(bounds: Sequence[str]) -> str:
    """Bounds as `--bounds` takes them, which stand between single quotes as they are."""
    return json.dumps(list(bounds), ensure_ascii=False, separators=(",", ":")).replace("'", "\\u0027")
