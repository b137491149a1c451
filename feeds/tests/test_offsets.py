"""How the feed of RabbitMQ counts positions from offsets, with a stream that has gaps and loses its beginning, without a broker."""

from __future__ import annotations

import tempfile
import unittest
from collections.abc import Iterator
from contextlib import contextmanager
from pathlib import Path
from types import SimpleNamespace
from typing import Any

from .support import image, module_of

try:
    import pika  # noqa: F401
except ImportError as fault:
    raise unittest.SkipTest("missing: python3-pika") from fault


rabbitmq = module_of("rabbitmq-stream")


class Channel:
    """A stream of messages whose offsets leave out one of each hundred, as a broker gives it to one reader."""

    def __init__(self, messages: list[tuple[int, bytes]]) -> None:
        self._messages = messages
        self.unacknowledged = 0

    def consume(self, _stream: str, arguments: dict[str, Any], inactivity_timeout: float) -> Iterator[tuple[Any, Any, Any]]:
        """All from an offset on, or from the first later one; then nothing, again and again."""
        begin = 0 if arguments["x-stream-offset"] == "first" else arguments["x-stream-offset"]
        for offset, body in self._messages:
            if offset >= begin:
                assert self.unacknowledged < rabbitmq.PREFETCH
                self.unacknowledged += 1
                yield SimpleNamespace(delivery_tag=offset), SimpleNamespace(headers={"x-stream-offset": offset}), body
        while True:
            yield None, None, None

    def get_waiting_message_count(self) -> int:
        """Some messages wait always."""
        return 1

    def basic_ack(self, _tag: int, multiple: bool) -> None:
        """All that were given."""
        self.unacknowledged = 0


class Offsets(unittest.TestCase):
    """What a feed finds in a stream of which a region has a part."""

    def setUp(self) -> None:
        folder = tempfile.TemporaryDirectory()
        self.addCleanup(folder.cleanup)
        self.keep = str(Path(folder.name, "pairs"))
        self.messages = [(number + number // 99, image(number + 1)) for number in range(10_000)]
        self.addCleanup(setattr, rabbitmq, "PATIENCE", rabbitmq.PATIENCE)
        rabbitmq.PATIENCE = 0.0

    def stream(self) -> Any:
        """A feed's source, begun anew."""
        stream = rabbitmq.RabbitStream("amqp://127.0.0.1:1/", "east", self.keep)

        @contextmanager
        def channel() -> Iterator[Any]:
            yield Channel(self.messages)

        stream._channel = channel
        return stream

    def check(self, after: int, until: int) -> None:
        """What comes after a position is what the stream has there."""
        wanted = self.wanted[after:until]
        found: list[tuple[int, bytes]] = []
        for batch in self.stream().batches(after):
            found.extend(batch)
            if len(found) >= len(wanted) and not batch:
                break
        self.assertEqual(found[: len(wanted)], wanted)

    @property
    def wanted(self) -> list[tuple[int, bytes]]:
        """All that the stream ever had."""
        return [(number + number // 99, image(number + 1)) for number in range(10_000)]

    def refused(self, after: int) -> str:
        """Why nothing comes after a position."""
        with self.assertRaises(rabbitmq.Lost) as lost:
            for _ in self.stream().batches(after):
                pass
        return str(lost.exception)

    def test_a_stream_that_has_all(self) -> None:
        for after in (0, 1, 99, 999, 1_000, 1_001, 5_500, 9_900):
            with self.subTest(after):
                self.check(after, 9_900)

    def test_a_stream_that_lost_its_beginning(self) -> None:
        self.check(0, 9_900)
        del self.messages[:5_555]
        for after in (5_555, 5_556, 6_000, 6_001, 9_000):
            with self.subTest(after):
                self.check(after, 9_900)
        for after in (0, 4_000, 5_000, 5_554):
            with self.subTest(after):
                begins = f"which begins at position 5556 (offset {self.messages[0][0]})"
                self.assertIn(f"wants position {after + 1} of the stream east, {begins} in RabbitMQ. Start", self.refused(after))

    def test_a_stream_that_lost_all_that_has_a_pair(self) -> None:
        self.check(0, 9_900)
        del self.messages[:9_500]
        said = self.refused(9_400)
        self.assertIn("wants position 9401 of the stream east, which begins at offset 9595 in RabbitMQ; position 9001 was offset 9090", said)

    def test_a_stream_whose_beginning_was_never_seen(self) -> None:
        del self.messages[:100]
        for after in (0, 100, 5_000):
            self.assertIn(f"wants position {after + 1} of the stream east, which begins at offset 101", self.refused(after))

    def test_another_stream(self) -> None:
        self.check(0, 9_900)
        self.messages = [(offset, body.replace(b"key", b"kay")) for offset, body in self.messages]
        self.assertIn("another one than before: it has another message at offset 5050", self.refused(5_500))
        del self.messages[:5_555]
        self.assertIn("another one than before: it has no message at offset 6060", self.refused(5_600))

    def test_a_stream_that_lacks_messages(self) -> None:
        del self.messages[500]
        del self.messages[500]
        self.assertIn("no messages between the offsets", self.refused(0))

    def test_a_region_that_has_more(self) -> None:
        self.assertIn("the region has 10001 messages of the stream east, which has only 10000", self.refused(10_001))


