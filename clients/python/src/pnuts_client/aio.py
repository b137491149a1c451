"""A client for asyncio, over the same lines and replies as the one for threads."""

from __future__ import annotations

import asyncio
import os
import time
from collections.abc import AsyncIterator, Mapping, Sequence
from contextlib import suppress
from pathlib import Path
from types import TracebackType
from typing import Any, TypeVar

from . import requests
from .connection import Address, Unix
from .errors import ConnectionFailed, PnutsError, ProtocolError, TimedOut
from .failover import Attempts, Regional, with_later
from .files import write_whole
from .pipeline import Pipeline
from .records import Record, Version
from .requests import Condition, Query, Request

Answer = TypeVar("Answer")
PIECE = 256 * 1024


class AsyncClient(Regional[list["_Connection"]]):
    """A region, by an address or its text, or several of the same streams, for the tasks of one event loop.

    At most `connections` are open to each, opened when they are needed, each a session of the region; a line goes to
    the one with the fewest in flight. `timeout` is the seconds that a call waits for its reply, None for ever. A
    connection that breaks is opened anew, and lines that read are asked again, up to `retries` times with a growing
    pause. Of several regions the first that can answer does, as for `Client`.
    """

    # How often it was closed.
    _closed = 0

    def _pool_of(self, address: Address, connections: int) -> list[_Connection]:
        return [_Connection(address) for _ in range(connections)]

    async def read(self, key: str, at_least: tuple[int, int] | None = None) -> Record | None:
        """As `Client.read`."""
        return await self.ask(requests.read(key, at_least))

    async def get(self, keys: Sequence[str]) -> list[Record | None]:
        """As `Client.get`; the lines of more than 100 keys are in flight together."""
        batches = [self.ask(requests.get(batch)) for batch in requests.in_batches(keys)]
        found = [record for records in await asyncio.gather(*batches) for record in records]
        older = self._seen.older(keys, found) if self._seen else []
        if older:
            later = dict(zip((key for key, _ in older), await self._read_all(older)))
            found = [later.get(key, record) for key, record in zip(keys, found)]
        return found

    async def scan(
        self, start: str | None = None, end: str | None = None, *, where: Sequence[Condition] = (), page: int = 100
    ) -> AsyncIterator[Record]:
        """As `Client.scan`."""
        async for rows in self.pages(Query(start, end, where, page)):
            for record in rows:
                yield record

    async def pages(self, query: Query | None) -> AsyncIterator[list[Record]]:
        """The pages of a query, to the last."""
        while query is not None:
            page = await self.ask(requests.scan(query))
            older = self._seen.older_of(query, page) if self._seen else []
            yield with_later(query, page.records, await self._read_all(older)) if older else page.records
            query = page.next

    async def copy(self, tablet: int, path: str | os.PathLike[str], need: Mapping[str, int] | None = None) -> None:
        """As `Client.copy`."""
        text = await self.ask(requests.copy(tablet, need))
        await asyncio.to_thread(write_whole, Path(path), text)

    async def ask(self, request: Request[Answer]) -> Answer:
        """The answer to one request. Any number of tasks may ask at once."""
        begun, closed = time.monotonic(), self._closed
        deadline = None if self._timeout is None else begun + self._timeout + request.work
        attempts = Attempts(self._order, self._retries, deadline)
        while True:
            chosen, until = attempts.next(time.monotonic())
            try:
                answer = await self._answer(chosen.region, request, until)
                attempts.answered(chosen)
                return answer
            except PnutsError as fault:
                if request.reads and closed == self._closed:
                    await asyncio.sleep(attempts.failed(chosen, fault, time.monotonic()))
                if not request.reads or closed != self._closed:
                    raise

    async def _answer(self, region: int, request: Request[Answer], deadline: float | None) -> Answer:
        """The answer of a region. Of several, one that says nothing meanwhile loses the connection. What it shows is noted."""
        connection, seen = min(self._pools[region], key=len), self._seen
        received = connection.received
        try:
            async with asyncio.timeout(None if deadline is None else deadline - time.monotonic()):
                answer = request.answer(await connection.reply(request if seen is None else seen.guarded(request)))
        except TimeoutError as fault:
            if seen is not None and connection.received == received:
                connection.break_off(ConnectionFailed("nothing came for as long as a call waits"))
            raise TimedOut("no reply in time") from fault
        if seen is not None and isinstance(answer, Record):
            seen.take(answer.key, answer)
        return answer

    async def _read_all(self, wanted: Sequence[tuple[str, Version]]) -> list[Record | None]:
        return await asyncio.gather(*(self.ask(requests.read(key, version)) for key, version in wanted))

    @property
    def sessions(self) -> int:
        """How many sessions it has begun."""
        return sum(connection.sessions for pool in self._pools for connection in pool)

    async def close(self) -> None:
        """Ends all sessions. Calls that wait fail."""
        self._closed += 1
        for connection in (each for pool in self._pools for each in pool):
            writer = connection.break_off(ConnectionFailed("the client was closed"))
            if writer is not None:
                with suppress(OSError):
                    await writer.wait_closed()

    async def __aenter__(self) -> AsyncClient:
        return self

    async def __aexit__(
        self, kind: type[BaseException] | None, fault: BaseException | None, trace: TracebackType | None
    ) -> None:
        await self.close()


class _Connection:
    """One session, with any number of lines in flight, and a task that takes their replies."""

    def __init__(self, address: Address) -> None:
        self._address = address
        self._pipeline: Pipeline[asyncio.Future[Any]] = Pipeline()
        self._writer: asyncio.StreamWriter | None = None
        self._taking: asyncio.Task[None] | None = None
        self._opening = asyncio.Lock()
        # How many it has begun, and how often something came.
        self.sessions = 0
        self.received = 0

    def __len__(self) -> int:
        return len(self._pipeline)

    async def reply(self, request: Request[Any]) -> Any:
        """The reply to a request.

        A call that gives up is still counted among those that wait, so that each later reply goes to its own call.
        """
        writer = await self._opened()
        answer: asyncio.Future[Any] = asyncio.get_running_loop().create_future()
        writer.write(self._pipeline.send(request, answer))
        try:
            await writer.drain()
        except OSError as fault:
            self.break_off(ConnectionFailed(f"the connection broke: {fault}"))
        return await answer

    async def _opened(self) -> asyncio.StreamWriter:
        async with self._opening:
            if self._writer is not None and self._writer.is_closing():
                self.break_off(ConnectionFailed("the connection broke"))
            if self._writer is None:
                try:
                    reader, self._writer = await _streams(self._address)
                except OSError as fault:
                    raise ConnectionFailed(f"no connection to {self._address}: {fault}") from fault
                self._pipeline = Pipeline()
                self.sessions += 1
                self._taking = asyncio.create_task(self._take(reader, self._pipeline))
            return self._writer

    async def _take(self, reader: asyncio.StreamReader, pipeline: Pipeline[asyncio.Future[Any]]) -> None:
        fault: PnutsError = ConnectionFailed("the region closed the connection")
        try:
            while data := await reader.read(PIECE):
                self.received += 1
                for _, answer, reply in pipeline.receive(data):
                    if not answer.done():
                        answer.set_result(reply)
        except OSError as broken:
            fault = ConnectionFailed(f"the connection broke: {broken}")
        except ProtocolError as wrong:
            fault = wrong
        if pipeline is self._pipeline:
            self.break_off(fault)

    def break_off(self, fault: PnutsError) -> asyncio.StreamWriter | None:
        """Ends the session: what waits fails, and the next line begins another. Gives what was closed."""
        writer, self._writer = self._writer, None
        if writer is not None:
            writer.close()
        if self._taking is not None and self._taking is not asyncio.current_task():
            self._taking.cancel()
        pipeline, self._pipeline = self._pipeline, Pipeline()
        for _, answer in pipeline.unanswered():
            if not answer.done():
                # Each call has its own, as it is told what other regions said.
                answer.set_exception(type(fault)(*fault.args))
        return writer


async def _streams(address: Address) -> tuple[asyncio.StreamReader, asyncio.StreamWriter]:
    if isinstance(address, Unix):
        return await asyncio.open_unix_connection(address.path, limit=PIECE)
    name = (address.server_name or address.host) if address.tls else None
    return await asyncio.open_connection(
        address.host, address.port, limit=PIECE, ssl=address.tls, server_hostname=name
    )
