"""The clients for threads and for asyncio: against the program, and against servers that fail."""

from __future__ import annotations

import asyncio
import tempfile
import threading
import time
import unittest
from collections.abc import Callable
from pathlib import Path

from pnuts_client import AsyncClient, Client, ConnectionFailed, ProtocolError, RecordBehind, TimedOut, Version, eq, has, requests

from .support import fake, free_port, image, region, replies

NONE = '{"row":null}\n'
COUNT = 250
PEOPLE = {"east": [image(f"k{at:03}", city="Rome" if at % 2 else "Oslo") for at in range(COUNT)]}
LAST = f"k{COUNT - 1:03}"


def wait_for(client: Client, key: str) -> None:
    """Until the region has a record."""
    for _ in range(1000):
        if client.read(key) is not None:
            return
        time.sleep(0.01)
    raise AssertionError(f"{key} did not come")


class OfARegion(unittest.TestCase):
    """One program, one session a test."""

    def test_lookups(self) -> None:
        with region(PEOPLE) as port, Client(f"tcp://127.0.0.1:{port}") as client:
            wait_for(client, LAST)
            record = client.read("k001", at_least=(1, 0))
            assert record is not None
            self.assertEqual((record.key, record.version, record.state), ("k001", Version(1, 0), "one"))
            self.assertEqual(record.fields, {"city": "Rome"})
            self.assertEqual(record.contents[0].master, "w")
            self.assertIsNone(client.read("z"))
            with self.assertRaises(RecordBehind) as behind:
                client.read("k001", at_least=Version(1, 1))
            self.assertEqual(behind.exception.has, Version(1, 0))
            keys = [f"k{at:03}" for at in range(COUNT)] + ["z", "k000"]
            found = client.get(keys)
            self.assertEqual([record and record.key for record in found], keys[:COUNT] + [None, "k000"])

    def test_keys_whose_lines_would_be_too_long(self) -> None:
        cyrillic = ["\u0436" * 126 + f"{at:02}" for at in range(100)]
        controls = ["\u0001" * 254 + f"{at:02}" for at in range(100)]
        self.assertEqual([len(list(requests.in_batches(keys))) for keys in (cyrillic, controls)], [1, 3])
        with region(PEOPLE) as port, Client(f"tcp://127.0.0.1:{port}") as client:
            wait_for(client, LAST)
            for keys in (cyrillic, controls):
                found = client.get([*keys, LAST])
                self.assertEqual([record and record.key for record in found], [None] * 100 + [LAST])

    def test_texts_that_are_no_utf_8(self) -> None:
        with Client("tcp://127.0.0.1:1") as client:
            asked: list[Callable[[], object]] = [
                lambda: client.read("k\ud800"),
                lambda: client.get(["a", "k\ud800"]),
                lambda: list(client.scan("k\ud800")),
            ]
            for each in asked:
                with self.assertRaisesRegex(ValueError, r"no UTF-8: .*'k\\ud800'"):
                    each()

    def test_scans(self) -> None:
        with region(PEOPLE) as port, Client(f"tcp://127.0.0.1:{port}") as client:
            wait_for(client, LAST)
            self.assertEqual(sum(1 for _ in client.scan(page=7)), COUNT)
            rome = [record.key for record in client.scan("k010", "k020", where=[eq("city", "Rome"), has("city")], page=2)]
            self.assertEqual(rome, ["k011", "k013", "k015", "k017", "k019"])

    def test_copies(self) -> None:
        with region(PEOPLE) as port, Client(f"tcp://127.0.0.1:{port}") as client:
            wait_for(client, LAST)
            with tempfile.TemporaryDirectory() as folder:
                path = Path(folder) / "copy"
                client.copy(0, path, need={"east": COUNT})
                text = path.read_bytes()
                self.assertEqual(sorted(Path(folder).iterdir()), [path])
            self.assertTrue(text.startswith(b'{"copy":1,"from":null,"to":null}\n{"at":250,"stream":"east"}\n'))
            self.assertTrue(text.endswith(b'{"end":251}\n'))
            self.assertEqual(client.read("k000", at_least=(1, 0)), client.get(["k000"])[0])

    def test_many_lines_in_flight(self) -> None:
        with region(PEOPLE) as port, Client(f"tcp://127.0.0.1:{port}") as client:
            wait_for(client, LAST)
            keys = [f"k{at % COUNT:03}" for at in range(5000)]
            found = client.ask_all(map(requests.read, keys))
            self.assertEqual([record.key for record in found if record is not None], keys)

    def test_threads_share_a_pool(self) -> None:
        with region(PEOPLE, sessions=3) as port, Client(f"tcp://127.0.0.1:{port}", connections=3) as client:
            wait_for(client, LAST)
            wrong: list[str] = []

            def read(first: int) -> None:
                for at in range(first, COUNT, 8):
                    record = client.read(f"k{at:03}")
                    if record is None or record.key != f"k{at:03}":
                        wrong.append(f"k{at:03}")

            threads = [threading.Thread(target=read, args=(first,)) for first in range(8)]
            for thread in threads:
                thread.start()
            for thread in threads:
                thread.join()
            self.assertEqual(wrong, [])

    def test_a_region_that_is_killed_and_comes_back(self) -> None:
        port = free_port()
        with Client(f"tcp://127.0.0.1:{port}", retries=20) as client:
            with region(PEOPLE, port=port):
                wait_for(client, LAST)
            back = threading.Event()

            def come_back() -> None:
                with region(PEOPLE, port=port):
                    back.wait(30)

            thread = threading.Thread(target=come_back)
            thread.start()
            try:
                wait_for(client, LAST)
            finally:
                back.set()
                thread.join()


class OfOthers(unittest.TestCase):
    """Servers that are no region, or a failing one."""

    def test_nobody_listens(self) -> None:
        with Client(f"tcp://127.0.0.1:{free_port()}", retries=0) as client, self.assertRaises(ConnectionFailed):
            client.read("k")

    def test_half_a_reply_and_another_session(self) -> None:
        with fake(replies('{"row":', end=True), replies(NONE)) as port, Client(f"tcp://127.0.0.1:{port}") as client:
            self.assertIsNone(client.read("k"))

    def test_no_session_is_left(self) -> None:
        with fake(replies(end=True)) as port, Client(f"tcp://127.0.0.1:{port}", retries=1) as client:
            with self.assertRaises((ConnectionFailed, TimedOut)):
                client.read("k")

    def test_a_late_reply_is_never_that_of_another_line(self) -> None:
        late = '{"row":{"contents":[{"deleted":true,"master":"w"}],"key":"k","state":"deleted","version":[1,1]}}\n'

        def serve(connection: object) -> None:
            time.sleep(0.3)
            replies(late)(connection)  # type: ignore[arg-type]

        with fake(serve, replies(NONE)) as port, Client(f"tcp://127.0.0.1:{port}", timeout=0.1) as client:
            with self.assertRaises(TimedOut):
                client.read("k")
            time.sleep(0.4)
            self.assertIsNone(client.read("z"))

    def test_no_region(self) -> None:
        with fake(replies("HTTP/1.1 400 Bad Request\n")) as port, Client(f"tcp://127.0.0.1:{port}") as client:
            with self.assertRaises(ProtocolError):
                client.read("k")

    def test_a_refusal_keeps_the_session(self) -> None:
        refused = '{"error":"behind","has":null}\n'
        with fake(replies(refused, NONE)) as port, Client(f"tcp://127.0.0.1:{port}") as client:
            with self.assertRaises(RecordBehind):
                client.read("k", at_least=(1, 0))
            self.assertIsNone(client.read("k"))


async def wait_for_async(client: AsyncClient, key: str) -> None:
    """Until the region has a record."""
    for _ in range(1000):
        if await client.read(key) is not None:
            return
        await asyncio.sleep(0.01)
    raise AssertionError(f"{key} did not come")


class OfARegionAsync(unittest.IsolatedAsyncioTestCase):
    """Against the program."""

    async def test_all_calls(self) -> None:
        with region(PEOPLE, sessions=2) as port:
            async with AsyncClient(f"tcp://127.0.0.1:{port}", connections=2) as client:
                await wait_for_async(client, LAST)
                keys = [f"k{at:03}" for at in range(COUNT)]
                found = await asyncio.gather(*map(client.read, keys))
                self.assertEqual([record and record.key for record in found], keys)
                self.assertEqual([record and record.key for record in await client.get(keys)], keys)
                self.assertEqual([record.key async for record in client.scan(page=40)], keys)
                with self.assertRaises(RecordBehind):
                    await client.read("k000", at_least=(2, 0))
                with tempfile.TemporaryDirectory() as folder:
                    await client.copy(0, Path(folder) / "copy")
                    self.assertEqual(len((Path(folder) / "copy").read_bytes().splitlines()), COUNT + 3)


class OfOthersAsync(unittest.IsolatedAsyncioTestCase):
    """Servers that are no region, or a failing one."""

    async def test_nobody_listens(self) -> None:
        async with AsyncClient(f"tcp://127.0.0.1:{free_port()}", retries=0) as client:
            with self.assertRaises(ConnectionFailed):
                await client.read("k")

    async def test_half_a_reply_and_another_session(self) -> None:
        with fake(replies('{"row":', end=True), replies(NONE)) as port:
            async with AsyncClient(f"tcp://127.0.0.1:{port}") as client:
                self.assertIsNone(await client.read("k"))

    async def test_a_call_that_gives_up_is_still_counted(self) -> None:
        late = '{"row":{"contents":[{"deleted":true,"master":"w"}],"key":"k","state":"deleted","version":[1,1]}}\n'

        def serve(connection: object) -> None:
            time.sleep(0.3)
            replies(late, NONE)(connection)  # type: ignore[arg-type]

        with fake(serve) as port:
            async with AsyncClient(f"tcp://127.0.0.1:{port}", timeout=0.1) as client:
                with self.assertRaises(TimedOut):
                    await client.read("k")
                await asyncio.sleep(0.4)
                self.assertIsNone(await client.read("z"))

    async def test_no_region(self) -> None:
        with fake(replies("HTTP/1.1 400 Bad Request\n")) as port:
            async with AsyncClient(f"tcp://127.0.0.1:{port}") as client:
                with self.assertRaises(ProtocolError):
                    await client.read("k")

    async def test_calls_that_wait_fail_where_the_client_is_closed(self) -> None:
        with fake(replies()) as silent, fake(replies()) as other:
            for addresses in ([f"tcp://127.0.0.1:{silent}"], [f"tcp://127.0.0.1:{silent}", f"tcp://127.0.0.1:{other}"]):
                client = AsyncClient(addresses)
                asked = asyncio.create_task(client.read("k"))
                await asyncio.sleep(0.1)
                await client.close()
                with self.assertRaises(ConnectionFailed):
                    await asked
                self.assertEqual(client.sessions, 1)
