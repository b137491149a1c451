"""A feed's end of a region's socket, and what it does with what the region says."""

from __future__ import annotations

import io
import json
import socket
import tempfile
import threading
import unittest
from collections.abc import Callable, Generator, Sequence
from contextlib import redirect_stderr
from pathlib import Path

from feed.running import Lost, Unreachable, run
from feed.sockets import OtherStream, Refused, RegionAway, RegionSocket, Unusable

from .support import Region, image, wait_until


class Sockets(unittest.TestCase):
    """A socket whose other end does what a test says."""

    def setUp(self) -> None:
        folder = tempfile.TemporaryDirectory()
        self.addCleanup(folder.cleanup)
        self.path = Path(folder.name, "east")
        self.told: list[str] = []

    def listens(self, *publishers: Callable[[socket.socket], None]) -> RegionSocket:
        """A region that does this with one publisher after another, and then goes."""
        listener = socket.socket(socket.AF_UNIX)
        listener.bind(str(self.path))
        listener.listen()

        def serve() -> None:
            with listener:
                for do in publishers:
                    with listener.accept()[0] as publisher:
                        do(publisher)

        thread = threading.Thread(target=serve, daemon=True)
        thread.start()
        self.addCleanup(thread.join, 10)
        region = RegionSocket(str(self.path), self.told.append)
        self.addCleanup(region.finish)
        return region

    def test_what_it_has_and_takes(self) -> None:
        go = threading.Event()

        def do(publisher: socket.socket) -> None:
            for part in (b'{"aft', b'er":', b"7}\n"):
                publisher.sendall(part)
            publisher.sendall(b'{"taken":9}\n{"taken":8}\n{"more":1}\n{"taken":11}\n')
            go.wait(10)

        region = self.listens(do)
        self.assertEqual(region.begin(), 7)
        region.pause(0.2)
        self.assertEqual(region.taken, 11)
        go.set()
        with self.assertRaises(RegionAway):
            region.pause(10)

    def test_reasons(self) -> None:
        for reason, position in (
            (b'{"error":"gap","got":9,"wanted":8}', 9),
            (b'{"at":8,"error":"bad-shape","member":"key"}', 8),
            (b'{"at":8,"error":"out-of-step","got":10}', 8),
            (b'{"at":8,"error":"out-of-range","member":"at"}', 8),
            (b'{"error":"memory"}', None),
        ):
            with self.subTest(reason):
                region = self.listens(lambda publisher, reason=reason: publisher.sendall(b'{"after":7}\n' + reason + b"\n"))  # type: ignore[misc]
                with self.assertRaises(Refused) as refused:
                    region.begin()
                    region.pause(10)
                self.assertEqual((refused.exception.reason, refused.exception.position), (reason.decode(), position))
                self.path.unlink()

    def test_another_stream(self) -> None:
        region = self.listens(lambda publisher: publisher.sendall(b'{"after":7}\n{"error":"other-stream","got":"a b","has":"c"}\n'))
        with self.assertRaisesRegex(OtherStream, "takes the stream 'c', and this feed gives 'a b'"):
            region.begin()
            region.pause(10)

    def test_a_region_of_an_older_version(self) -> None:
        region = self.listens(lambda publisher: publisher.sendall(b'{"after":7}\n{"at":8,"error":"bad-shape","member":"at"}\n'))
        with self.assertRaisesRegex(Unusable, "of an older version"):
            region.begin()
            region.pause(10)

    def test_what_it_says_of_its_stream(self) -> None:
        """Whose it is comes first in each connection, in 256 bytes at most, and the newest position once a second at most."""
        came: list[bytes] = []

        def do(publisher: socket.socket) -> None:
            publisher.sendall(b'{"after":0}\n')
            read = bytearray()
            while not read.endswith(b"end\n"):
                read.extend(publisher.recv(65_536))
            came.append(bytes(read))

        region = self.listens(do, do, do)
        for identity in ("redis-stream e\n\u00e9\"", "\u00e9" * 200, None):
            region.begin()
            region.name(identity)
            for newest in range(100):
                region.tell_newest(newest)
                region.name("another")
            region.write(b"end\n")
            with self.assertRaises(RegionAway):
                region.pause(10)
        self.assertEqual(came[0], b'{"stream":"redis-stream e\\n\\u00e9\\""}\n{"newest":0}\nend\n')
        first, *others = came[1].splitlines()
        self.assertEqual(others, [b'{"newest":0}', b"end"])
        text = json.loads(first)["stream"]
        self.assertTrue(text.startswith("\u00e9" * 90) and len(text.encode()) <= 256, text)
        self.assertEqual(came[2], b'{"newest":0}\nend\n')

    def test_a_reason_amid_much_that_is_written(self) -> None:
        def do(publisher: socket.socket) -> None:
            publisher.sendall(b'{"after":0}\n')
            publisher.recv(100)
            publisher.sendall(b'{"taken":1}\n{"at":2,"error":"not-json"}\n')

        region = self.listens(do)
        region.begin()
        with self.assertRaises(Refused):
            for _ in range(100):
                region.write(b"x" * 1_000_000)

    def test_a_region_that_goes_amid_much_that_is_written(self) -> None:
        def do(publisher: socket.socket) -> None:
            publisher.sendall(b'{"after":0}\n')
            publisher.recv(100)

        region = self.listens(do, do)
        for _ in range(2):
            self.assertEqual(region.begin(), 0)
            with self.assertRaises(RegionAway):
                for _ in range(100):
                    region.write(b"x" * 1_000_000)

    def test_what_is_no_region(self) -> None:
        for first in (b"220 mail ready\n", b'{"ready":true}\n', b"[]\n", b'{"after":null}\n', b"x" * 100_000):
            with self.subTest(first[:20]):
                region = self.listens(lambda publisher, first=first: publisher.sendall(first))  # type: ignore[misc]
                with self.assertRaisesRegex(Unusable, "no stream of a region"):
                    region.begin()
                region.finish()
                self.path.unlink()

    def test_a_path_that_is_none(self) -> None:
        with self.assertRaises(Unusable):
            RegionSocket(f"/{'x' * 200}", self.told.append).begin()

    def test_the_end_of_what_is_written(self) -> None:
        read = bytearray()

        def do(publisher: socket.socket) -> None:
            publisher.sendall(b'{"after":0}\n' + b'{"taken":1}\n' * 1_000)
            while part := publisher.recv(65_536):
                read.extend(part)
            publisher.sendall(b'{"at":2,"error":"not-json"}\n')

        region = self.listens(do)
        region.begin()
        region.write(b"x" * 100_000)
        with self.assertRaises(Refused):
            region.finish()
        self.assertEqual(bytes(read), b"x" * 100_000)


class FakeBroker:
    """A broker whose stream has these images, and does not answer at these positions at first, at the seventh without a reason."""

    def __init__(self, count: int, away: Sequence[int] = ()) -> None:
        self._count = count
        self._away = list(away)
        self.begun: list[int] = []

    def batches(self, after: int) -> Generator[Sequence[tuple[int, bytes]], None, None]:
        """See `feed.running.Source`."""
        self.begun.append(after)
        for number in range(after + 1, self._count + 1):
            if number in self._away:
                self._away.remove(number)
                raise Unreachable("" if number == 7 else "away")
            yield [(-number, image(number))]
            yield []
        raise Lost("no more")

    def describe(self, identity: int) -> str:
        """See `feed.running.Source`."""
        return f"number {identity}"

    def identity(self) -> str:
        """See `feed.running.Source`."""
        return "scripted"

    def has(self, position: int, name: str) -> bool:
        """See `feed.running.Source`."""
        return True

    def newest(self) -> int:
        """See `feed.running.Source`."""
        return self._count


class Running(unittest.TestCase):
    """A feed's life between a broker and a region that are away now and then."""

    def test_a_broker_that_is_away(self) -> None:
        with tempfile.TemporaryDirectory() as folder:
            region = Region(Path(folder, "east"), 3)
            self.addCleanup(region.stop)
            source, said = FakeBroker(20, (5, 7, 9, 9)), io.StringIO()
            with redirect_stderr(said):
                self.assertEqual(run("scripted", source, RegionSocket(str(region.path), lambda _: None)), 1)
            wait_until(lambda: region.has == 20)
            self.assertEqual((region.faults, region.again, source.begun), ([], 0, [3, 4, 6, 8, 8]))
            self.assertEqual((region.streams, [newest for _, newest in region.newest]), (["scripted"], [20]))
            told = ["waiting for the broker: away", "the broker is back"] * 2
            self.assertEqual(said.getvalue().splitlines(), [f"scripted: {line}" for line in [*told, "no more"]])

    def test_a_message_that_is_refused(self) -> None:
        with tempfile.TemporaryDirectory() as folder:
            region = Region(Path(folder, "east"), 3, refuses=7)
            self.addCleanup(region.stop)
            said = io.StringIO()
            with redirect_stderr(said):
                self.assertEqual(run("scripted", FakeBroker(9), RegionSocket(str(region.path), lambda _: None)), 1)
            self.assertIn('refuses position 7, number -7: {"at":7,"error":"bad-shape","member":"fields"}', said.getvalue())
