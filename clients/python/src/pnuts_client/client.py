"""A client for threads: calls that wait, over a pool of connections."""

from __future__ import annotations

import os
import queue
import time
from collections.abc import Generator, Iterable, Iterator, Mapping, Sequence
from contextlib import closing, contextmanager
from pathlib import Path
from types import TracebackType
from typing import TypeVar

from . import requests
from .connection import DEFAULT_WINDOW, Address, Connection, seconds_left
from .errors import PnutsError, TimedOut
from .failover import Attempts, Regional, Try, with_later
from .files import write_whole
from .records import Record, Version
from .requests import Condition, Query, Request

Answer = TypeVar("Answer")


class Client(Regional["_Pool"]):
    """A region, by an address or its text, or several of the same streams. Its calls may be made from any thread.

    At most `connections` are open to each, opened when they are needed, each a session of the region. A call waits for
    a free one. `timeout` is the seconds that a call waits while nothing comes, None for ever. A connection that breaks is
    opened anew, and lines that read are asked again, up to `retries` times with a growing pause. Of several regions the
    first that can answer does, within `timeout` for each reply, and none shows an older version than was seen of the last
    `remember` keys.
    """

    def _pool_of(self, address: Address, connections: int) -> _Pool:
        return _Pool(address, connections)

    def read(self, key: str, at_least: tuple[int, int] | None = None) -> Record | None:
        """The record of a key, a deleted one too; None where there is none.

        With `at_least`, a version: raises RecordBehind where the region has not taken that version yet.
        """
        return self.ask(requests.read(key, at_least))

    def get(self, keys: Sequence[str]) -> list[Record | None]:
        """The records of keys, in their order; more than 100 keys are asked for in several lines."""
        batches = [requests.get(batch) for batch in requests.in_batches(keys)]
        found = [record for records in self.ask_all(batches) for record in records]
        older = self._seen.older(keys, found) if self._seen else []
        if older:
            later = dict(zip((key for key, _ in older), self._read_all(older)))
            found = [later.get(key, record) for key, record in zip(keys, found)]
        return found

    def scan(
        self, start: str | None = None, end: str | None = None, *, where: Sequence[Condition] = (), page: int = 100
    ) -> Iterator[Record]:
        """The records from `start` on and below `end` that meet all conditions, in key order, page by page.

        Deleted records are not shown. While the region changes, each page is of its own moment.
        """
        for rows in self.pages(Query(start, end, where, page)):
            yield from rows

    def pages(self, query: Query | None) -> Iterator[list[Record]]:
        """The pages of a query, to the last."""
        while query is not None:
            page = self.ask(requests.scan(query))
            older = self._seen.older_of(query, page) if self._seen else []
            yield with_later(query, page.records, self._read_all(older)) if older else page.records
            query = page.next

    def copy(self, tablet: int, path: str | os.PathLike[str], need: Mapping[str, int] | None = None) -> None:
        """Writes a copy of a tablet to a file, which is there whole or not at all.

        With `need`, positions of streams: raises CopyBehind where the tablet does not reach them.
        """
        write_whole(Path(path), self.ask(requests.copy(tablet, need)))

    def ask(self, request: Request[Answer]) -> Answer:
        """The answer to one request."""
        (answer,) = self.ask_all((request,))
        return answer

    def ask_all(self, asked: Iterable[Request[Answer]], window: int = DEFAULT_WINDOW) -> Iterator[Answer]:
        """The answers to requests in their order, with up to `window` lines in flight. The first refusal ends it."""
        left = list(asked)
        attempts, last = self._attempts(time.monotonic()), 0.0
        while left:
            chosen, deadline = attempts.next(time.monotonic())
            answered = 0
            try:
                with closing(self._answers(chosen, left, deadline, window)) as answers:
                    for answer in answers:
                        if not answered:
                            attempts.answered(chosen)
                        yield answer
                        answered, last = answered + 1, time.monotonic()
                return
            except PnutsError as fault:
                if answered:
                    left = left[answered:]
                    attempts = self._attempts(last, chosen)
                if not all(request.reads for request in left):
                    raise
                time.sleep(attempts.failed(chosen, fault, time.monotonic()))

    def close(self) -> None:
        """Ends all sessions, once their calls are over."""
        for pool in self._pools:
            pool.close()

    def __enter__(self) -> Client:
        return self

    def __exit__(
        self, kind: type[BaseException] | None, fault: BaseException | None, trace: TracebackType | None
    ) -> None:
        self.close()

    def _attempts(self, begun: float, tried: Try | None = None) -> Attempts:
        """The tries of a line. Those of one region alone have no deadline: each has the whole time."""
        deadline = None if self._seen is None or self._timeout is None else begun + self._timeout
        return Attempts(self._order, self._retries, deadline, tried)

    def _answers(
        self, chosen: Try, asked: Sequence[Request[Answer]], deadline: float | None, window: int
    ) -> Generator[Answer, None, None]:
        """The answers of a region, as far as it gives them. What it shows is noted."""
        seen, lines = self._seen, iter(asked)
        share = None if self._timeout is None else self._timeout / len(self._pools)
        with self._pools[chosen.region].connection(deadline) as connection:
            if seen is not None or not all(request.reads for request in asked):
                connection.renew()
            if seen is not None:
                lines = map(seen.guarded, asked)
            with closing(connection.replies(lines, share, window, deadline)) as replies:
                for request, reply in replies:
                    answer: Answer = request.answer(reply)
                    if seen is not None and isinstance(answer, Record):
                        seen.take(answer.key, answer)
                    yield answer

    def _read_all(self, wanted: Sequence[tuple[str, Version]]) -> Iterator[Record | None]:
        return self.ask_all([requests.read(key, version) for key, version in wanted])


class _Pool:
    """The connections to one region."""

    def __init__(self, address: Address, connections: int) -> None:
        self.address = address
        self._connections = connections
        self._free: queue.LifoQueue[Connection] = queue.LifoQueue()
        self._fill()

    @contextmanager
    def connection(self, deadline: float | None) -> Iterator[Connection]:
        """A free connection, waited for until the deadline."""
        try:
            connection = self._free.get(timeout=seconds_left(deadline))
        except queue.Empty as fault:
            raise TimedOut("no connection was free in time") from fault
        try:
            yield connection
        finally:
            self._free.put(connection)

    def close(self) -> None:
        """Ends all, once their calls are over."""
        for _ in range(self._connections):
            self._free.get().close()
        self._fill()

    def _fill(self) -> None:
        for _ in range(self._connections):
            self._free.put(Connection(self.address))
