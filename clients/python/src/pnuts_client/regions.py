"""Keys that are cut over several regions, by a table of bounds."""

from __future__ import annotations

import asyncio
from bisect import bisect_right
from collections.abc import AsyncIterator, Iterable, Iterator, Sequence
from typing import Generic, TypeVar

from .aio import AsyncClient
from .client import Client
from .records import Record
from .requests import Condition, Query

Region = TypeVar("Region")
Item = TypeVar("Item")


class Bounds(Generic[Region]):
    """One region more than bounds: the first has the keys below the first bound, each other those from its bound on."""

    def __init__(self, bounds: Sequence[str], regions: Sequence[Region]) -> None:
        if len(regions) != len(bounds) + 1:
            raise ValueError(f"{len(bounds)} bounds take {len(bounds) + 1} regions, not {len(regions)}")
        if any(low >= high for low, high in zip(bounds, bounds[1:])):
            raise ValueError("the bounds do not rise")
        self.bounds = list(bounds)
        self.regions = list(regions)

    def region_of(self, key: str) -> Region:
        """The region that has the key."""
        return self.regions[self.index_of(key)]

    def index_of(self, key: str) -> int:
        """The number of the region that has the key. Texts are ordered as their bytes are."""
        return bisect_right(self.bounds, key)

    def shares(self, keys: Iterable[str]) -> dict[int, list[int]]:
        """The indices of the keys that each region has, by the region's number."""
        shares: dict[int, list[int]] = {}
        for index, key in enumerate(keys):
            shares.setdefault(self.index_of(key), []).append(index)
        return shares

    def parts(self, query: Query) -> Iterator[tuple[Region, Query]]:
        """What a query asks of each region that has keys of its range, in key order."""
        lows: list[str | None] = [None, *self.bounds]
        highs: list[str | None] = [*self.bounds, None]
        for region, low, high in zip(self.regions, lows, highs):
            part = query.within(low, high)
            if part is not None:
                yield region, part


class Regions:
    """Clients of regions that have the keys of a range each, read as one. Ending the clients is the caller's."""

    def __init__(self, bounds: Sequence[str], clients: Sequence[Client]) -> None:
        self._table = Bounds(bounds, clients)

    def read(self, key: str, at_least: tuple[int, int] | None = None) -> Record | None:
        """As `Client.read`, of the region that has the key."""
        return self._table.region_of(key).read(key, at_least)

    def get(self, keys: Sequence[str]) -> list[Record | None]:
        """As `Client.get`, over all regions that have some of the keys."""
        found: list[Record | None] = [None] * len(keys)
        for number, indices in self._table.shares(keys).items():
            records = self._table.regions[number].get([keys[index] for index in indices])
            _put(found, indices, records)
        return found

    def scan(
        self, start: str | None = None, end: str | None = None, *, where: Sequence[Condition] = (), page: int = 100
    ) -> Iterator[Record]:
        """As `Client.scan`, from one region on to the next."""
        for region, query in self._table.parts(Query(start, end, where, page)):
            for rows in region.pages(query):
                yield from rows


class AsyncRegions:
    """As `Regions`, for asyncio."""

    def __init__(self, bounds: Sequence[str], clients: Sequence[AsyncClient]) -> None:
        self._table = Bounds(bounds, clients)

    async def read(self, key: str, at_least: tuple[int, int] | None = None) -> Record | None:
        """As `Client.read`, of the region that has the key."""
        return await self._table.region_of(key).read(key, at_least)

    async def get(self, keys: Sequence[str]) -> list[Record | None]:
        """As `Client.get`, over all regions that have some of the keys, all at once."""
        found: list[Record | None] = [None] * len(keys)
        shares = self._table.shares(keys)
        asked = [self._table.regions[number].get([keys[index] for index in indices]) for number, indices in shares.items()]
        for indices, records in zip(shares.values(), await asyncio.gather(*asked)):
            _put(found, indices, records)
        return found

    async def scan(
        self, start: str | None = None, end: str | None = None, *, where: Sequence[Condition] = (), page: int = 100
    ) -> AsyncIterator[Record]:
        """As `Client.scan`, from one region on to the next."""
        for region, query in self._table.parts(Query(start, end, where, page)):
            async for rows in region.pages(query):
                for record in rows:
                    yield record


def _put(found: list[Item | None], indices: Sequence[int], items: Sequence[Item | None]) -> None:
    for index, item in zip(indices, items):
        found[index] = item
