"""The feed of RabbitMQ, against a node of the tests' own, and at a region's socket, with streams that expire."""

from __future__ import annotations

import json
import tempfile
import time
import unittest
from pathlib import Path
from typing import Any

from . import resuming
from .rabbitmq_server import SMALL, Server, server_of
from .support import feed, wait_until, wanted


class RabbitMq(unittest.TestCase):
    """One node for all tests, and a stream for each."""

    server: Server

    @classmethod
    def setUpClass(cls) -> None:
        cls.server = server_of(cls)

    def setUp(self) -> None:
        self.stream = self.id().rpartition(".")[2]
        self.server.make(self.stream, SMALL)
        self.words = ("rabbitmq-stream", "--url", self.server.url, self.stream)

    def test_all_from_the_first_and_what_comes_later(self) -> None:
        # Segments are so small that offsets have gaps.
        self.server.add(self.stream, 1, 1500)
        with feed(*self.words) as running:
            running.wait_for(1500)
            self.server.add(self.stream, 1501, 5)
            running.wait_for(1505)
            self.assertEqual(running.lines, wanted(1505))

    def test_a_kill_and_a_restart(self) -> None:
        with feed(*self.words) as running:
            self.server.add(self.stream, 1, 150)
            running.wait_for(20)
            self.server.kill()
            self.server.start()
            self.server.add(self.stream, 151, 50)
            running.wait_for(200)
            self.assertEqual(running.lines, wanted(200))

    def test_a_beginning_that_is_gone(self) -> None:
        short = f"{self.stream}_short"
        self.server.make(short, {**SMALL, "x-max-length-bytes": 60_000})
        self.server.add(short, 1, 3000)
        with feed(*self.words[:-1], short) as running:
            status, said = running.ended()
            self.assertEqual((status, running.lines), (1, []))
            self.assertRegex(said, "wants position 1 of the stream .*, which begins at offset [1-9]")

    def test_a_stream_that_was_made_anew(self) -> None:
        self.server.add(self.stream, 1, 3)
        with feed(*self.words) as running:
            running.wait_for(3)
            with self.server.channel() as channel:
                channel.queue_delete(self.stream)
                channel.queue_declare(self.stream, durable=True, arguments=SMALL)
            self.server.add(self.stream, 101, 5)
            status, said = running.ended()
            self.assertEqual((status, running.lines), (1, wanted(3)))
            self.assertIn("another one than before", said)

    def test_a_queue_that_is_no_stream(self) -> None:
        plain = f"{self.stream}_plain"
        self.server.make(plain, {})
        self.server.add(plain, 1, 3)
        with feed(*self.words[:-1], plain) as running:
            self.assertEqual(running.ended(), (2, f"rabbitmq-stream: the queue {plain} is no stream in RabbitMQ\n"))
            self.assertEqual(running.lines, [])
        with self.server.channel() as channel:
            wait_until(lambda: bool(channel.queue_declare(plain, passive=True).method.message_count == 3))

    def test_a_body_that_is_no_json(self) -> None:
        self.server.add(self.stream, 1, 1)
        with self.server.channel() as channel:
            channel.basic_publish("", self.stream, b"{", mandatory=True)
        with feed(*self.words) as running:
            status, said = running.ended()
            self.assertEqual(status, 1)
            self.assertIn("message 2 is no line of JSON", said)

    def test_a_region_that_goes(self) -> None:
        self.server.add(self.stream, 1, 3)
        with feed(*self.words) as running:
            running.wait_for(3)
            running.go()
            self.assertEqual(running.ended(), (0, ""))


class RabbitMqResuming(resuming.Resuming):
    """A feed of RabbitMQ that begins where its region is."""

    server: Server

    @classmethod
    def setUpClass(cls) -> None:
        cls.server = server_of(cls)

    def setUp(self) -> None:
        folder = tempfile.TemporaryDirectory()
        self.addCleanup(folder.cleanup)
        self.keep = Path(folder.name, "pairs")
        self.use(self.id().rpartition(".")[2], SMALL)

    def use(self, stream: str, arguments: dict[str, Any]) -> None:
        """The stream of this test."""
        self.stream = stream
        self.server.make(stream, arguments)
        self.words = ("rabbitmq-stream", "--url", self.server.url, "--keep", str(self.keep), stream)

    def use_short(self) -> None:
        """A stream that keeps some of its last messages."""
        self.use(f"{self.stream}_short", {**SMALL, "x-max-length-bytes": 600_000})

    def fill(self, first: int, count: int) -> None:
        """See `resuming.Resuming`."""
        self.server.fill(self.stream, first, count)

    def add_body(self, body: bytes) -> None:
        """See `resuming.Resuming`."""
        with self.server.channel() as channel:
            channel.basic_publish("", self.stream, body, mandatory=True)

    def id_of(self, position: int) -> str:
        """See `resuming.Resuming`."""
        return f"offset {self.server.kept(self.stream)[position - 1][0]} of the stream {self.stream}"

    def first_kept(self) -> int:
        """The position of the first message that the stream still has, once it drops no more."""
        first, before = self._first_kept(), 0
        while first != before:
            time.sleep(0.5)
            first, before = self._first_kept(), first
        return first

    def _first_kept(self) -> int:
        return int(json.loads(self.server.kept(self.stream)[0][1])["key"][1:])

    def read_all(self, count: int) -> None:
        """A region reads a given number of messages, and the feed keeps pairs."""
        with self.region() as region, self.feed(region) as program:
            self.wait_for(region, program, count)

    def test_a_stream_that_expires_behind_the_region(self) -> None:
        self.use_short()
        self.fill(1, 1_500)
        self.read_all(1_500)
        self.fill(1_501, 500)
        with self.region(1_500) as region, self.feed(region) as program:
            self.wait_for(region, program, 2_000)
            for count in range(2_000, 6_000, 500):
                self.fill(count + 1, 500)
                self.wait_for(region, program, count + 500)
            self.assertEqual(region.again, 0)
        first = self.first_kept()
        self.assertGreater(first, 2_000)
        # The message before which nothing is kept, one whose pair is kept, and the last one.
        for has in (first - 1, first, 5_001, 5_999, 6_000):
            with self.subTest(has), self.region(has) as region, self.feed(region) as program:
                self.wait_for(region, program, 6_000)
                self.assertEqual(region.again, 0)
        for has in (0, 1_000, first - 2):
            with self.subTest(has), self.region(has) as region, self.feed(region) as program:
                status, said = program.ended()
                self.assertEqual((status, region.has), (1, has))
                self.assertIn(f"wants position {has + 1} of the stream {self.stream}, which begins at position {first} ", said)
                self.assertIn("from copies", said)

    def test_a_stream_that_expires_past_all_pairs(self) -> None:
        self.use_short()
        self.fill(1, 1_500)
        self.read_all(1_500)
        self.fill(1_501, 6_000)
        offset = self.server.kept(self.stream)[0][0]
        with self.region(1_500) as region, self.feed(region) as program:
            status, said = program.ended()
            self.assertEqual((status, region.has), (1, 1_500))
            self.assertIn(f"wants position 1501 of the stream {self.stream}, which begins at offset {offset} ", said)
            self.assertIn("position 1001 was offset", said)

    def test_a_feed_without_its_pairs(self) -> None:
        self.use_short()
        self.fill(1, 6_000)
        with self.region(5_900) as region, self.feed(region) as program:
            status, said = program.ended()
            self.assertEqual((status, region.has), (1, 5_900))
            self.assertIn("wants position 5901", said)

    def test_a_stream_that_was_made_anew_behind_a_region(self) -> None:
        self.fill(1, 3_000)
        self.read_all(3_000)
        with self.server.channel() as channel:
            channel.queue_delete(self.stream)
            channel.queue_declare(self.stream, durable=True, arguments=SMALL)
        self.fill(101, 3_100)
        with self.region(2_500) as region, self.feed(region) as program:
            status, said = program.ended()
            self.assertEqual((status, region.has), (1, 2_500))
            self.assertIn("another one than before", said)

    def test_pairs_of_another_stream(self) -> None:
        self.fill(1, 3)
        self.read_all(3)
        self.use(f"{self.stream}_other", SMALL)
        with self.region() as region, self.feed(region) as program:
            status, said = program.ended()
            self.assertEqual(status, 1)
            self.assertIn("has no positions of the stream", said)

    def test_a_kill_and_a_restart_at_a_socket(self) -> None:
        with self.region() as region, self.feed(region) as program:
            self.server.add(self.stream, 1, 150)
            self.wait_for(region, program, 20)
            self.server.kill()
            self.server.start()
            self.server.add(self.stream, 151, 50)
            self.wait_for(region, program, 200)
            self.assertEqual(region.again, 0)
