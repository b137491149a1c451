"""Several regions: of the same streams, where one loses a tablet, one is behind and proxies cut connections; and with a range of keys each."""

from __future__ import annotations

import asyncio
import tempfile
import threading
import time
import unittest
from collections.abc import Callable
from contextlib import ExitStack
from pathlib import Path

from pnuts_client import AsyncClient, AsyncRegions, Bounds, Client, Control, PnutsError, Query, Record, RecordBehind, Regions, requests

from .support import Proxy, image, region
from .test_client import wait_for, wait_for_async

COUNT, BOUNDS = 200, ["k100"]
KEYS = [f"k{at:03}" for at in range(COUNT)]
OLD = [image(key, (1, 0)) for key in KEYS]
NEW = [image(key, (1, 1)) for key in KEYS]
# How many bytes of replies a connection gets at most.
MOST = 60_000
LOW = {"east": [image(key, v="low") for key in ("a", "c", "l")]}
HIGH = {"east": [image(key, v="high") for key in ("m", "n", "\u00fc")]}
CUT = ["a", "c", "l", "m", "n", "\u00fc"]


class Reader:
    """Counts reads that fail, and records that are not there or older than seen."""

    def __init__(self) -> None:
        self.reads = 0
        self.wrong: list[str] = []

    def take(self, key: str, record: Record | None) -> None:
        self.reads += 1
        if record is None or record.key != key or record.version != (1, 1):
            self.wrong.append(f"{key}: {record}")

    def take_all(self, records: list[Record | None]) -> None:
        if len(records) != COUNT:
            self.wrong.append(f"{len(records)} records")
        for key, record in zip(KEYS, records):
            self.take(key, record)

    def run(self, client: Client | Regions) -> None:
        """Reads all keys in each way."""
        try:
            for key in KEYS:
                self.take(key, client.read(key))
            self.take_all(client.get(KEYS))
            self.take_all(list(client.scan(page=30)))
            if isinstance(client, Client):
                self.take_all(list(client.ask_all(map(requests.read, KEYS))))
        except PnutsError as fault:
            self.wrong.append(repr(fault))

    async def run_async(self, client: AsyncClient | AsyncRegions) -> None:
        """Reads all keys in each way, at once."""
        try:
            self.take_all(await asyncio.gather(*map(client.read, KEYS)))
            self.take_all(await client.get(KEYS))
            self.take_all([record async for record in client.scan(page=30)])
        except PnutsError as fault:
            self.wrong.append(repr(fault))


class SeveralRegions(unittest.TestCase):
    """The first of three regions loses a tablet, the second is behind, and the third has all."""

    def setUp(self) -> None:
        stack = ExitStack()
        self.addCleanup(stack.close)
        folder = stack.enter_context(tempfile.TemporaryDirectory())
        self.controls: list[Control] = []
        self.proxies: list[Proxy] = []
        for at, stream in enumerate((OLD + NEW, OLD, OLD + NEW)):
            words = ["--stay", f"--control={folder}/{at}"]
            port = stack.enter_context(region({"east": stream}, sessions=2, bounds=BOUNDS, words=words))
            self.controls.append(stack.enter_context(Control(f"unix:{folder}/{at}")))
            self.proxies.append(Proxy(port))
            stack.callback(self.proxies[-1].close)
        self.folder = Path(folder)
        for control, number in zip(self.controls, (1, 0, 1)):
            while (record := control.read(KEYS[-1])) is None or record.version < (1, number):
                time.sleep(0.01)
        self.addresses = [proxy.address for proxy in self.proxies]

    def _recover(self) -> None:
        self.controls[2].copy(1, self.folder / "copy")
        self.controls[0].adopt(self.folder / "copy")

    def _trouble(self, readers: list[Reader]) -> None:
        """What happens once all was seen: proxies cut, and the first region loses a tablet, has it again, is gone, and comes back."""
        for proxy in self.proxies:
            proxy.most = MOST
        self.controls[0].lose(1)
        time.sleep(0.7)
        self._recover()
        time.sleep(0.3)
        self.proxies[0].shut()
        time.sleep(0.5)
        self.proxies[0].is_open = True
        time.sleep(0.5)
        while sum(proxy.cuts for proxy in self.proxies) < 4 and not any(reader.wrong for reader in readers):
            time.sleep(0.1)

    def _check(self, readers: list[Reader]) -> None:
        self.assertEqual([reader.wrong for reader in readers], [[] for _ in readers])
        self.assertGreater(min(reader.reads for reader in readers), COUNT)

    def test_no_read_of_threads_fails(self) -> None:
        over = threading.Event()
        readers = [Reader() for _ in range(4)]
        with Client(self.addresses, connections=2, timeout=60, retries=10) as client:

            def read_on(reader: Reader) -> None:
                while not over.is_set():
                    reader.run(client)

            readers[0].run(client)
            threads = [threading.Thread(target=read_on, args=(reader,)) for reader in readers]
            for thread in threads:
                thread.start()
            self._trouble(readers)
            over.set()
            for thread in threads:
                thread.join()
        self._check(readers)

    def test_no_read_of_tasks_fails(self) -> None:
        readers = [Reader() for _ in range(2)]

        async def read_on(client: AsyncClient, reader: Reader, over: asyncio.Future[None]) -> None:
            while not over.done():
                await reader.run_async(client)

        async def read_all() -> None:
            async with AsyncClient(self.addresses, connections=2, timeout=60, retries=10) as client:
                await readers[0].run_async(client)
                over = asyncio.get_running_loop().run_in_executor(None, self._trouble, readers)
                await asyncio.gather(*(read_on(client, reader, over) for reader in readers))

        asyncio.run(read_all())
        self._check(readers)

    def test_a_region_that_is_behind(self) -> None:
        with Client(self.addresses[:2], retries=0) as client:
            self.assertEqual(client.get(KEYS)[0], client.read(KEYS[0]))
            self.proxies[0].shut()
            calls: list[Callable[[], object]] = [
                lambda: client.read(KEYS[0]),
                lambda: client.get(KEYS),
                lambda: list(client.scan()),
            ]
            for call in calls:
                with self.assertRaises(PnutsError) as raised:
                    call()
                said = [raised.exception, *(fault for _, fault in raised.exception.others)]
                behind = [fault for fault in said if isinstance(fault, RecordBehind)]
                self.assertEqual([(fault.key, fault.has) for fault in behind], [(KEYS[0], (1, 0))])
        with Client(self.addresses[:2]) as fresh:
            record = fresh.read(KEYS[0])
            self.assertEqual(record and record.version, (1, 0))


class RangesOfSeveralRegions(unittest.TestCase):
    """Two ranges of keys, and two regions for each, of which one is gone."""

    def setUp(self) -> None:
        stack = ExitStack()
        self.addCleanup(stack.close)
        gone = Proxy(0)
        stack.callback(gone.close)
        gone.shut()
        ports = [stack.enter_context(region({"east": stream}, sessions=2)) for stream in (NEW[:90], NEW[90:])]
        low, high = (f"tcp://127.0.0.1:{port}" for port in ports)
        self.addresses = [[gone.address, low], [high, gone.address]]
        for address, key in ((low, KEYS[89]), (high, KEYS[-1])):
            with Client(address) as client:
                wait_for(client, key)

    def test_threads(self) -> None:
        reader = Reader()
        with Client(self.addresses[0]) as low, Client(self.addresses[1]) as high:
            reader.run(Regions(["k090"], [low, high]))
        self.assertEqual((reader.wrong, reader.reads), ([], 3 * COUNT))

    async def _read(self, reader: Reader) -> None:
        async with AsyncClient(self.addresses[0]) as low, AsyncClient(self.addresses[1]) as high:
            await reader.run_async(AsyncRegions(["k090"], [low, high]))

    def test_asyncio(self) -> None:
        reader = Reader()
        asyncio.run(self._read(reader))
        self.assertEqual((reader.wrong, reader.reads), ([], 3 * COUNT))


class Tables(unittest.TestCase):
    """What a table of bounds makes of keys and queries."""

    def test_the_region_of_a_key(self) -> None:
        table = Bounds(["g", "m"], ["one", "two", "three"])
        wanted = {"": "one", "fz": "one", "g": "two", "lz": "two", "m": "three", "\U0001f600": "three"}
        self.assertEqual({key: table.region_of(key) for key in wanted}, wanted)

    def test_the_parts_of_a_query(self) -> None:
        table = Bounds(["g", "m"], ["one", "two", "three"])
        for query, wanted in (
            (Query(), [("one", None, "g"), ("two", "g", "m"), ("three", "m", None)]),
            (Query("h", "k"), [("two", "h", "k")]),
            (Query(after="g", end="m"), [("two", "g", "m")]),
            (Query("m", "g"), []),
            (Query("a", "g"), [("one", "a", "g")]),
        ):
            with self.subTest(query):
                self.assertEqual([(name, part.start, part.end) for name, part in table.parts(query)], wanted)

    def test_tables_that_are_refused(self) -> None:
        for bounds, regions in ((["m"], ["one"]), (["m", "m"], ["one", "two", "three"])):
            with self.subTest(bounds), self.assertRaises(ValueError):
                Bounds(bounds, regions)


class TwoRegions(unittest.TestCase):
    """Two programs with a half of the keys each."""

    def test_reads_gets_and_scans(self) -> None:
        with ExitStack() as stack:
            ports = [stack.enter_context(region(streams)) for streams in (LOW, HIGH)]
            clients = [stack.enter_context(Client(f"tcp://127.0.0.1:{port}")) for port in ports]
            wait_for(clients[0], "l")
            wait_for(clients[1], "\u00fc")
            both = Regions(["m"], clients)
            self.assertEqual([record.key for record in both.scan(page=2)], CUT)
            self.assertEqual([record.key for record in both.scan("c", "n", page=1)], ["c", "l", "m"])
            found = both.get(["n", "z", "a", "n"])
            self.assertEqual([record and record.key for record in found], ["n", None, "a", "n"])
            record = both.read("m")
            self.assertEqual(record and record.fields, {"v": "high"})


class TwoRegionsOfOneLoop(unittest.IsolatedAsyncioTestCase):
    """The same keys, by asyncio."""

    async def test_reads_gets_and_scans(self) -> None:
        with ExitStack() as stack:
            ports = [stack.enter_context(region(streams)) for streams in (LOW, HIGH)]
            clients = [AsyncClient(f"tcp://127.0.0.1:{port}") for port in ports]
            await wait_for_async(clients[0], "l")
            await wait_for_async(clients[1], "\u00fc")
            both = AsyncRegions(["m"], clients)
            self.assertEqual([record.key async for record in both.scan(page=2)], CUT)
            found = await both.get(["n", "z", "a", "n"])
            self.assertEqual([record and record.key for record in found], ["n", None, "a", "n"])
            for client in clients:
                await client.close()
