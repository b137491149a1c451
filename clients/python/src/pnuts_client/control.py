"""A client for the control socket of a region: what those do who run it."""

from __future__ import annotations

import asyncio
import os
import time
from collections.abc import AsyncIterator, Iterator
from contextlib import asynccontextmanager
from pathlib import Path

from . import control_requests as asked
from .aio import AsyncClient
from .client import Client
from .connection import Address
from .control_requests import LAST_NUMBER, Marks, Notices, Stats, Tablet
from .errors import ConnectionFailed
from .failover import pause

LONGEST_WAIT = 60
"""The most seconds that a line waits for changes."""
MARGIN = 10.0
"""How many seconds longer than a line waits its reply is waited for."""


class _Watch:
    """What was seen of changes: the number to ask with next, and how often it was asked in vain since the last reply."""

    def __init__(self, since: int | None, retries: int) -> None:
        self.since = LAST_NUMBER if since is None else since
        self._retries = retries
        self._tries = 0
        self._sessions: int | None = None

    def take(self, found: Notices, sessions: int) -> Notices:
        """What is shown of a reply. In another session than the one before, the region may have begun anew."""
        if self._tries or self._sessions not in (None, sessions):
            found = Notices(found.next, [], True)
        self.since, self._tries, self._sessions = found.next, 0, sessions
        return found

    def failed(self, fault: ConnectionFailed) -> float:
        """Seconds before the next try; raises the fault where there were enough."""
        self._tries += 1
        if self._tries > self._retries:
            raise fault
        return pause(self._tries)


class Control(Client):
    """The control socket of a region, by its address, as `unix:/run/pnuts/control`. It reads records, too.

    A call that waits for changes has a session of its own meanwhile.
    """

    def __init__(self, address: Address | str, *, timeout: float | None = 10.0, retries: int = 3) -> None:
        super().__init__(address, connections=1, timeout=timeout, retries=retries)
        self._address = address

    def marks(self) -> Marks:
        """How far streams were taken into all tablets."""
        return self.ask(asked.marks())

    def tablets(self) -> list[Tablet]:
        """The tablets in their order."""
        return self.ask(asked.tablets())

    def stats(self) -> Stats:
        """What the region has done so far."""
        return self.ask(asked.stats())

    def notices(self, since: int, wait: int = 0) -> Notices:
        """What changed after a number. Where that is nothing, it waits for it, for `wait` seconds at most."""
        if not wait:
            return self.ask(asked.notices(since))
        with self._waiting(self._retries) as session:
            return session.ask(asked.notices(since, wait))

    def watch(self, since: int | None = None, wait: int = LONGEST_WAIT) -> Iterator[Notices]:
        """The changes after a number as they come, or from now on.

        One that is `missed` says that all is to be read anew, as some changes are not known. So it begins where there
        is no number, and so it goes on after the connection broke, for the region may have begun anew. It raises
        ConnectionFailed where the region is not there again after `retries` more tries.
        """
        watch = _Watch(since, self._retries)
        with self._waiting(retries=0) as session:
            while True:
                try:
                    found = watch.take(session.ask(asked.notices(watch.since, wait)), sessions=1)
                except ConnectionFailed as fault:
                    time.sleep(watch.failed(fault))
                    continue
                if found.missed or found.changes:
                    yield found

    def advance(self) -> Marks:
        """Takes as marks what all tablets have taken."""
        return self.ask(asked.advance())

    def lose(self, tablet: int) -> int:
        """Loses what a tablet holds."""
        return self.ask(asked.lose(tablet))

    def adopt(self, copy: bytes | os.PathLike[str]) -> int:
        """Adopts a copy, its text or its file. The number of its tablet."""
        return self.ask(asked.adopt(copy if isinstance(copy, bytes) else Path(copy).read_bytes()))

    def stop(self, seconds: int = 10) -> int:
        """Ends the region, once the lines that have come are answered, or after `seconds`."""
        return self.ask(asked.stop(seconds))

    def __enter__(self) -> Control:
        return self

    def _waiting(self, retries: int) -> Client:
        return Client(self._address, timeout=LONGEST_WAIT + MARGIN, retries=retries)


class AsyncControl(AsyncClient):
    """As `Control`, for the tasks of one event loop."""

    def __init__(self, address: Address | str, *, timeout: float | None = 10.0, retries: int = 3) -> None:
        super().__init__(address, connections=1, timeout=timeout, retries=retries)
        self._address = address
        self._open: set[AsyncClient] = set()

    async def marks(self) -> Marks:
        """As `Control.marks`."""
        return await self.ask(asked.marks())

    async def tablets(self) -> list[Tablet]:
        """As `Control.tablets`."""
        return await self.ask(asked.tablets())

    async def stats(self) -> Stats:
        """As `Control.stats`."""
        return await self.ask(asked.stats())

    async def notices(self, since: int, wait: int = 0) -> Notices:
        """As `Control.notices`."""
        if not wait:
            return await self.ask(asked.notices(since))
        async with self._waiting(self._retries) as session:
            return await session.ask(asked.notices(since, wait))

    async def watch(self, since: int | None = None, wait: int = LONGEST_WAIT) -> AsyncIterator[Notices]:
        """As `Control.watch`."""
        watch = _Watch(since, self._retries)
        async with self._waiting(retries=0) as session:
            while True:
                try:
                    reply = await session.ask(asked.notices(watch.since, wait))
                except ConnectionFailed as fault:
                    await asyncio.sleep(watch.failed(fault))
                    continue
                found = watch.take(reply, session.sessions)
                if found.missed or found.changes:
                    yield found

    async def advance(self) -> Marks:
        """As `Control.advance`."""
        return await self.ask(asked.advance())

    async def lose(self, tablet: int) -> int:
        """As `Control.lose`."""
        return await self.ask(asked.lose(tablet))

    async def adopt(self, copy: bytes | os.PathLike[str]) -> int:
        """As `Control.adopt`."""
        text = copy if isinstance(copy, bytes) else await asyncio.to_thread(Path(copy).read_bytes)
        return await self.ask(asked.adopt(text))

    async def stop(self, seconds: int = 10) -> int:
        """As `Control.stop`."""
        return await self.ask(asked.stop(seconds))

    async def close(self) -> None:
        """Ends its sessions. Calls that wait fail."""
        for session in [*self._open]:
            await session.close()
        await super().close()

    async def __aenter__(self) -> AsyncControl:
        return self

    @asynccontextmanager
    async def _waiting(self, retries: int) -> AsyncIterator[AsyncClient]:
        async with AsyncClient(self._address, timeout=LONGEST_WAIT + MARGIN, retries=retries) as session:
            self._open.add(session)
            try:
                yield session
            finally:
                self._open.discard(session)
