"""Several regions of the same streams: which is asked next, how long one that failed is left alone, and the versions that were seen, so that
no region shows an older one. There is no socket, and no clock of its own.
"""

from __future__ import annotations

import threading
from abc import ABC, abstractmethod
from collections.abc import Container, Iterable, Sequence
from dataclasses import dataclass
from typing import Any, Generic, NamedTuple, TypeVar

from . import requests
from .connection import Address, Addresses, addresses_of
from .errors import ConnectionFailed, CopyBehind, NoEntry, OutOfMemory, PnutsError, RecordBehind, Recovering, TimedOut
from .records import Record, Version
from .requests import Page, Query, Request, meets

OF_ANOTHER = (ConnectionFailed, TimedOut, Recovering, RecordBehind, CopyBehind, NoEntry, OutOfMemory)
"""After what a line that reads is asked of another region."""
REMEMBERED = 10_000
"""Of how many keys a client of several regions keeps the version that it saw, if nothing else is said."""

Wanted = tuple[str, Version]
"""A key, and the version that was seen of it."""
Pool = TypeVar("Pool")


def pause(tries: int) -> float:
    """Seconds before the next of several tries: none at first, then 0.1 and twice as many each time, at most 1."""
    return min(0.05 * 2.0**tries, 1.0) if tries else 0.0


def backoff(failures: int) -> float:
    """Seconds for which a region is left alone after failures in a row: 0.1, then twice as many each time, at most 10."""
    return min(0.05 * 2.0 ** min(failures, 16), 10.0)


class Try(NamedTuple):
    """A region, by its number, and how many of its failures were known when it was chosen."""

    region: int
    known: int


@dataclass(slots=True)
class _Region:
    """What is known of a region: all failures, those in a row, and until when it is left alone."""

    known: int = 0
    failures: int = 0
    until: float = 0.0


class Order:
    """Regions in the order in which they are asked. Any thread may use it."""

    def __init__(self, names: Sequence[str]) -> None:
        self.names = names
        self._regions = [_Region() for _ in names]
        self._lock = threading.Lock()

    def __len__(self) -> int:
        return len(self._regions)

    def next(self, now: float, tried: Container[int]) -> Try | None:
        """The first region that was not tried and is not left alone, else the one whose time ends first.

        Where it failed before, it is left alone by all others while this one finds out.
        """
        first = self._regions[0]
        if not first.failures and 0 not in tried:
            return Try(0, first.known)
        with self._lock:
            left = [(max(it.until - now, 0.0), at) for at, it in enumerate(self._regions) if at not in tried]
            if not left:
                return None
            wait, at = min(left)
            chosen = self._regions[at]
            if chosen.failures and not wait:
                chosen.until = now + backoff(chosen.failures)
            return Try(at, chosen.known)

    def answered(self, done: Try) -> None:
        """The region is well, unless it has failed since it was chosen."""
        region = self._regions[done.region]
        if not region.failures:
            return
        with self._lock:
            if region.known == done.known:
                region.failures, region.until = 0, 0.0

    def failed(self, done: Try, now: float) -> None:
        """The region is left alone from now on. Of tries at once the first failure counts."""
        with self._lock:
            region = self._regions[done.region]
            if region.known == done.known:
                region.known += 1
                region.failures += 1
                region.until = now + backoff(region.failures)


class Attempts:
    """The tries of one line: each region once a round, and up to `retries` more rounds, before the deadline.

    Where a region failed after other answers, it has been tried, and another round does not count.
    """

    def __init__(self, order: Order, retries: int, deadline: float | None, tried: Try | None = None) -> None:
        self._order = order
        self._retries = retries
        self._deadline = deadline
        self._rounds = 0 if tried is None else -1
        self._tried = set() if tried is None else {tried.region}
        # What each region said last.
        self._said: dict[int, PnutsError] = {}

    def next(self, now: float) -> tuple[Try, float | None]:
        """The next try, and its deadline: the regions of a round that are left have equal shares of the time that is left."""
        found = self._order.next(now, self._tried)
        assert found is not None
        left = len(self._order) - len(self._tried)
        self._tried.add(found.region)
        return found, None if self._deadline is None else now + (self._deadline - now) / left

    def answered(self, done: Try) -> None:
        """The region has answered."""
        self._order.answered(done)

    def failed(self, done: Try, fault: PnutsError, now: float) -> float:
        """Seconds before the next try. Raises the fault, with what other regions said, where there is none."""
        several = len(self._order) > 1
        if not isinstance(fault, OF_ANOTHER if several else ConnectionFailed):
            raise self._ended(done, fault)
        self._order.failed(done, now)
        self._said[done.region] = fault
        wait = 0.0
        if len(self._tried) == len(self._order):
            self._tried.clear()
            self._rounds += 1
            wait = pause(self._rounds)
        if self._rounds > self._retries or (self._deadline is not None and now + wait >= self._deadline):
            raise self._ended(done, fault)
        return wait

    def _ended(self, done: Try, fault: PnutsError) -> PnutsError:
        """The fault, with what other regions said."""
        fault.others = [(self._order.names[at], said) for at, said in sorted(self._said.items()) if at != done.region]
        return fault


class Seen:
    """The versions of the keys that were seen last, at most `size` of them. Any thread may use it."""

    def __init__(self, size: int) -> None:
        self._size = size
        # Each key with its version, and whether that was a deletion; the key that was seen last comes last.
        self._versions: dict[str, tuple[Version, bool]] = {}
        self._lock = threading.Lock()

    def version(self, key: str) -> Version | None:
        """The version that was seen of a key."""
        with self._lock:
            known = self._versions.get(key)
        return known and known[0]

    def guarded(self, request: Request[Any]) -> Request[Any]:
        """The request, where it reads a record at least in the version that was seen."""
        known = None if request.key is None else self.version(request.key)
        if request.key is None or known is None or (request.at_least is not None and request.at_least >= known):
            return request
        return requests.read(request.key, known)

    def take(self, key: str, record: Record | None) -> Version | None:
        """Notes the record that a region has of a key. Where a later version was seen, it gives that."""
        with self._lock:
            known = self._versions.pop(key, None)
            shown = None if record is None else (record.version, record.state == "deleted")
            is_older = known is not None and (shown is None or shown[0] < known[0])
            kept = known if is_older else shown
            if kept is not None:
                self._versions[key] = kept
            if len(self._versions) > self._size:
                del self._versions[next(iter(self._versions))]
            return known[0] if known is not None and is_older else None

    def older(self, keys: Sequence[str], records: Sequence[Record | None]) -> list[Wanted]:
        """The keys of which a later version was seen than these records have."""
        found = [(key, self.take(key, record)) for key, record in zip(keys, records)]
        return [(key, version) for key, version in found if version is not None]

    def older_of(self, query: Query, page: Page) -> list[Wanted]:
        """The keys of a page of which a later version was seen, and, where there are no conditions, those that it lacks."""
        keys = [record.key for record in page.records]
        found = self.older(keys, page.records)
        if query.where:
            return found
        shown, last = set(keys), None if page.next is None else page.next.after
        with self._lock:
            lacking = [(key, it[0]) for key, it in self._versions.items() if not it[1] and key not in shown]
        return found + [it for it in lacking if query.covers(it[0]) and (last is None or it[0] <= last)]


def with_later(query: Query, records: Sequence[Record], later: Iterable[Record | None]) -> list[Record]:
    """The records of a page with later ones in their places, as far as these are what the query asks for."""
    shown = {record.key: record for record in records}
    for record in later:
        if record is not None:
            shown.pop(record.key, None)
            if meets(record, query.where):
                shown[record.key] = record
    return [shown[key] for key in sorted(shown)]


class Regional(ABC, Generic[Pool]):
    """What a client keeps of the region that it asks, or of several: a pool for each, their order, and the versions that were seen."""

    def __init__(
        self,
        address: Addresses,
        *,
        connections: int = 1,
        timeout: float | None = 10.0,
        retries: int = 3,
        remember: int = REMEMBERED,
    ) -> None:
        where = addresses_of(address)
        self._pools = [self._pool_of(each, connections) for each in where]
        self._order = Order([str(each) for each in where])
        self._seen = Seen(remember) if len(where) > 1 else None
        self._timeout = timeout
        self._retries = retries

    @abstractmethod
    def _pool_of(self, address: Address, connections: int) -> Pool:
        """The connections to a region, at most so many."""
