"""Several regions that lag behind one another while records change: no reader is shown an older version than before."""

from __future__ import annotations

import asyncio
import json
import random
import socket
import tempfile
import threading
import time
import unittest
from contextlib import ExitStack
from pathlib import Path

from pnuts_client import AsyncClient, Client, Record, Version

from .support import Proxy, image, region

KEYS = [f"k{at:02}" for at in range(40)]
# By how many seconds each region lags, how many changes a second there are, and for how many seconds.
LAGS, RATE, SECONDS = (0.0, 0.15, 0.3), 1000, 4
MESSAGES = RATE * SECONDS
MOST = 40_000


def message(at: int) -> bytes:
    """The message at a position: each changes the next key."""
    changed = image(KEYS[at % len(KEYS)], (1, at // len(KEYS)))
    return json.dumps({"at": at, "image": changed}).encode() + b"\n"


def feed(path: Path, begin: float) -> None:
    """Gives a region the messages of a stream, each at its moment."""
    with socket.socket(socket.AF_UNIX) as stream:
        stream.connect(str(path))
        for at in range(1, MESSAGES + 1):
            if at % 10 == 0:
                time.sleep(max(begin + at / RATE - time.monotonic(), 0))
            stream.sendall(message(at))
        stream.shutdown(socket.SHUT_WR)
        while stream.recv(4096):
            pass


class Shown:
    """The latest version that any call has shown of each key, and what was shown that is older."""

    def __init__(self) -> None:
        self._lock = threading.Lock()
        self._versions: dict[str, Version] = {}
        self.calls = 0
        self.wrong: list[str] = []

    def now(self) -> dict[str, Version]:
        """What was shown so far."""
        with self._lock:
            return dict(self._versions)

    def take(self, before: dict[str, Version], what: str, found: dict[str, Record | None]) -> None:
        """Compares what a call shows with what was shown before it began."""
        with self._lock:
            self.calls += 1
            for key, record in found.items():
                least = before.get(key)
                if least is not None and (record is None or record.version < least):
                    self.wrong.append(f"{what}: {key} {record and record.version}, before {least}")
                if record is not None:
                    self._versions[key] = max(record.version, self._versions.get(key, record.version))


class Lags(unittest.TestCase):
    """The first of three regions is ahead, and all connections are cut again and again."""

    def setUp(self) -> None:
        stack = ExitStack()
        self.addCleanup(stack.close)
        folder = Path(stack.enter_context(tempfile.TemporaryDirectory()))
        self.proxies = []
        self.feeds = []
        begin = time.monotonic() + 0.5
        for at, lag in enumerate(LAGS):
            path = folder / str(at)
            words = ["--stay", f"--control={folder}/control-{at}", f"east=listen:{path}"]
            port = stack.enter_context(region({}, sessions=2, bounds=[KEYS[20]], words=words))
            self.proxies.append(Proxy(port))
            self.proxies[-1].most = MOST
            stack.callback(self.proxies[-1].close)
            self.feeds.append(threading.Thread(target=feed, args=(path, begin + lag)))
            self.feeds[-1].start()
            stack.callback(self.feeds[-1].join)
        self.addresses = [proxy.address for proxy in self.proxies]
        self.shown = Shown()

    def _read_on(self, client: Client, seed: int) -> None:
        chosen = random.Random(seed)
        try:
            while any(each.is_alive() for each in self.feeds):
                before, what = self.shown.now(), chosen.choice(("read", "get", "scan"))
                key = chosen.choice(KEYS)
                if what == "read":
                    found = {key: client.read(key)}
                elif what == "get":
                    found = dict(zip(KEYS, client.get(KEYS)))
                else:
                    found = {**dict.fromkeys(KEYS), **{record.key: record for record in client.scan(page=15)}}
                self.shown.take(before, what, found)
        except Exception as fault:
            self.shown.wrong.append(repr(fault))

    def _check(self) -> None:
        self.assertEqual(self.shown.wrong[:5], [])
        self.assertGreater(self.shown.calls, 10)
        self.assertGreater(sum(proxy.cuts for proxy in self.proxies), 0)

    def test_threads(self) -> None:
        with Client(self.addresses, connections=2, timeout=60, retries=10) as client:
            threads = [threading.Thread(target=self._read_on, args=(client, seed)) for seed in range(3)]
            for each in threads:
                each.start()
            for each in threads:
                each.join()
        self._check()

    async def _read_all(self, client: AsyncClient) -> None:
        before = self.shown.now()
        records, rows = await asyncio.gather(client.get(KEYS), asyncio.gather(*map(client.read, KEYS)))
        self.shown.take(before, "get", dict(zip(KEYS, records)))
        self.shown.take(before, "read", dict(zip(KEYS, rows)))
        before = self.shown.now()
        scanned = {record.key: record async for record in client.scan(page=15)}
        self.shown.take(before, "scan", {**dict.fromkeys(KEYS), **scanned})

    def test_asyncio(self) -> None:
        async def read_on() -> None:
            async with AsyncClient(self.addresses, connections=2, timeout=60, retries=10) as client:
                while any(each.is_alive() for each in self.feeds):
                    await self._read_all(client)

        asyncio.run(read_on())
        self._check()
